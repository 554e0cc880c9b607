//! Where the library's instructions go: by crate, by function with all that it calls, and in copies. An instruction
//! belongs to the function in which it was written, also where that was made part of another.

use std::collections::{BTreeMap, BTreeSet, HashMap};
use std::fmt::Write;
use std::fs::{self, File};
use std::path::Path;
use std::process::Command;

use super::trace::{self, Code, Trace};
use super::{groups, Group, TYPICAL};
use crate::second::Call;

/// Only shares of so many per cent are told: of a crate alone, and with all that it calls.
const ALONE: f64 = 5.0;
const WITH: f64 = 10.0;

/// Held types have 272 bytes; what holds one or two of them has less than so many.
const HELD: std::ops::Range<u64> = 256..1_024;

const COPIES: [&str; 4] =
    ["copies of held types and what holds them", "shorter copies", "longer copies", "zeros written"];

/// What stands between a call and memcpy or memset.
const STUBS: &str = "stubs";

/// Costly images are traced at their second size, but where that takes too many instructions at their first.
const LONG: &str = "alias expansion of 1,024 visits";

#[derive(Default)]
struct Profile {
    label: String,
    total: u64,
    /// By crate alone; by crate and by function with all that they call.
    crates: BTreeMap<String, u64>,
    crates_with: BTreeMap<String, u64>,
    functions_with: BTreeMap<String, u64>,
    copies: BTreeMap<String, u64>,
}

/// Tables for typical images of each size, then for a costly one of each kind.
pub fn profile(seed: u64, lines: &Path, functions: bool) -> Result<String, String> {
    let program = std::env::current_exe().map_err(|error| error.to_string())?;
    let (code, copies) = (Code::of(&program)?, copies(lines)?);
    let (mut typical, mut costly) = (vec![], vec![]);
    let mut sizes: BTreeMap<&str, usize> = BTreeMap::new();
    for group in groups(seed, &[Call::ProjectImpl]) {
        let size = sizes.entry(group.kind).or_default();
        *size += 1;
        if group.kind == TYPICAL {
            typical.push(of_group(format!("{} bytes", group.bytes()), &group, &program, &code, &copies)?);
        } else if *size == if group.kind == LONG { 1 } else { 2 } {
            costly.push(of_group(group.kind.into(), &group, &program, &code, &copies)?);
        }
    }
    let mut text = String::new();
    for (title, profiles) in [("Typical images", typical), ("Worst images", costly)] {
        let part = |least, of: fn(&Profile) -> &BTreeMap<String, u64>| table(&profiles, least, of);
        let _ = writeln!(text, "{title}, by crate alone:\n\n{}", part(ALONE, |profile| &profile.crates));
        let _ = writeln!(
            text,
            "{title}, by crate with all that it calls:\n\n{}",
            part(WITH, |profile| &profile.crates_with)
        );
        if functions {
            let functions = part(ALONE, |profile| &profile.functions_with);
            let _ = writeln!(text, "{title}, by function with all that it calls:\n\n{functions}");
        }
        let _ = writeln!(text, "{title}, copies:\n\n{}", part(0.0, |profile| &profile.copies));
    }
    Ok(text)
}

/// By line of the library's module: the kind of copy that is written there, and whether it is one.
type Copies = HashMap<u32, usize>;

fn copies(lines: &Path) -> Result<Copies, String> {
    let text = fs::read_to_string(lines).map_err(|error| format!("cannot read {}: {error}", lines.display()))?;
    let copy = |line: &str| {
        let (_, what) = line.split_once("@llvm.mem")?;
        let length = what.rsplit_once("i64 ")?.1.split(',').next()?.parse().unwrap_or(u64::MAX);
        Some(if what.starts_with("set") { 3 } else { of_length(length) })
    };
    Ok((1..).zip(text.lines()).filter_map(|(number, line)| Some((number, copy(line)?))).collect())
}

fn of_length(length: u64) -> usize {
    match length {
        _ if HELD.contains(&length) => 0,
        _ if length < HELD.start => 1,
        _ => 2,
    }
}

fn of_group(label: String, group: &Group, program: &Path, code: &Code, copies: &Copies) -> Result<Profile, String> {
    let mut trace = Trace::new();
    for asked in &group.asked {
        trace.add(code, program, group.call, asked)?;
    }
    let written = written(&trace, program)?;
    let mut profile = Profile { label, ..Profile::default() };
    for ((node, place), count) in &trace.counts {
        // From the instruction outwards.
        let (mut at, mut stack) = (*node, vec![]);
        let outside = trace.nodes[at].outside.filter(|_| *place == 0);
        match outside {
            Some(name) => stack.push((name.to_string(), 0)),
            None => stack.extend(written[place].iter().cloned()),
        }
        while at != 0 {
            stack.extend(written[&trace.nodes[at].site].iter().cloned());
            at = trace.nodes[at].parent;
        }
        profile.add(&stack, *count, copies);
    }
    Ok(profile)
}

/// A function and a line of the library's module.
type Written = (String, u32);

/// For each instruction, the functions in which it was written, the innermost first.
fn written(trace: &Trace, program: &Path) -> Result<HashMap<u64, Vec<Written>>, String> {
    let sites = trace.nodes.iter().map(|node| node.site);
    let places: BTreeSet<u64> = trace.counts.keys().map(|(_, place)| *place).chain(sites).collect();
    let list = program.with_file_name("trace.places");
    let lines: String = places.iter().map(|place| format!("{place:x}\n")).collect();
    fs::write(&list, lines).map_err(|error| error.to_string())?;
    let input = File::open(&list).map_err(|error| error.to_string())?;
    let told = trace::run(Command::new("addr2line").args(["-a", "-i", "-f", "-e"]).arg(program).stdin(input))?;
    let (mut written, mut place): (HashMap<u64, Vec<Written>>, u64) = (HashMap::new(), 0);
    let mut lines = told.lines();
    while let Some(line) = lines.next() {
        if let Some(address) = line.strip_prefix("0x") {
            place = u64::from_str_radix(address, 16).map_err(|_| format!("no address: {line}"))?;
            written.insert(place, vec![]);
        } else {
            // A line number, and after it perhaps a word in brackets.
            let number = lines.next().and_then(|at| at.rsplit_once(':')?.1.split(' ').next()?.parse().ok());
            let name = if line == "??" { STUBS } else { line };
            written.entry(place).or_default().push((name.to_string(), number.unwrap_or(0)));
        }
    }
    Ok(written)
}

impl Profile {
    fn add(&mut self, stack: &[Written], count: u64, copies: &Copies) {
        let of_crate = |name: &str| name.split("::").next().unwrap_or(name).to_string();
        self.total += count;
        let Some((own, line)) = stack.first() else { return };
        *self.crates.entry(of_crate(own)).or_default() += count;
        // Each once, however often it stands on the stack; a line of a call tells how much is copied.
        let functions: BTreeSet<&String> = stack.iter().map(|(name, _)| name).collect();
        let crates: BTreeSet<String> = functions.iter().map(|name| of_crate(name)).collect();
        for name in functions.into_iter().filter(|name| *name != STUBS) {
            *self.functions_with.entry(name.clone()).or_default() += count;
        }
        for name in crates.into_iter().filter(|name| name != STUBS) {
            *self.crates_with.entry(name).or_default() += count;
        }
        let copy = match own.as_str() {
            "memset" => Some(3),
            "memcpy" => {
                let caller = stack.iter().skip(1).find(|(name, _)| name != STUBS);
                Some(caller.and_then(|(_, line)| copies.get(line).copied()).unwrap_or(2))
            }
            _ => copies.get(line).copied(),
        };
        if let Some(copy) = copy {
            *self.copies.entry(COPIES[copy].into()).or_default() += count;
        }
    }
}

/// A column for each profile, a row for whatever has a share that is told; in per cent.
fn table(profiles: &[Profile], least: f64, of: fn(&Profile) -> &BTreeMap<String, u64>) -> String {
    let share =
        |profile: &Profile, name: &str| 100.0 * *of(profile).get(name).unwrap_or(&0) as f64 / profile.total as f64;
    let most = |name: &str| profiles.iter().map(|profile| share(profile, name)).fold(0.0, f64::max);
    let names: BTreeSet<&String> = profiles.iter().flat_map(|profile| of(profile).keys()).collect();
    // What everything is part of is not told.
    let told = |name: &String| most(name) >= least && profiles.iter().any(|profile| share(profile, name) < 99.0);
    let mut names: Vec<&String> = names.into_iter().filter(|name| told(name)).collect();
    names.sort_by(|left, right| most(right).total_cmp(&most(left)));
    let labels: Vec<&str> = profiles.iter().map(|profile| profile.label.as_str()).collect();
    let mut text = format!("| | {} |\n|---|{}\n", labels.join(" | "), "---|".repeat(labels.len()));
    for name in names {
        let shares: Vec<String> = profiles.iter().map(|profile| format!("{:.1}", share(profile, name))).collect();
        let _ = writeln!(text, "| `{name}` | {} |", shares.join(" | "));
    }
    text
}
