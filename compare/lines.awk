# Gives each function of an LLVM module a place, and each instruction its line in this text, so that a profile finds it.
function node(text) { nodes[++count] = "!" base + count " = " text; return "!" base + count }
BEGIN {
    base = 1000000
    file = node("!DIFile(filename: \"module\", directory: \".\")")
    unit = node("distinct !DICompileUnit(language: DW_LANG_C99, file: " file ", isOptimized: true, runtimeVersion: 0, emissionKind: FullDebug)")
    type = node("!DISubroutineType(types: !{})")
    flags = node("!{i32 2, !\"Debug Info Version\", i32 3}")
}
/^define / {
    match($0, /@("[^"]*"|[^(]*)\(/)
    name = substr($0, RSTART + 1, RLENGTH - 2)
    gsub(/"/, "", name)
    scope = node("distinct !DISubprogram(name: \"" name "\", scope: " file ", file: " file ", line: " NR ", type: " type ", scopeLine: " NR ", spFlags: DISPFlagDefinition | DISPFlagOptimized, unit: " unit ")")
    sub(/ \{$/, " !dbg " scope " {")
    inside = 1
    print
    next
}
/^}/ { inside = 0 }
# An instruction; of one that takes several lines, the last.
inside && /^  [^ ]/ && !/\[$/ { print $0 ", !dbg " node("!DILocation(line: " NR ", column: 1, scope: " scope ")"); next }
{ print }
END {
    print "!llvm.dbg.cu = !{" unit "}"
    print "!llvm.module.flags = !{" flags "}"
    for (i = 1; i <= count; i++) print nodes[i]
}
