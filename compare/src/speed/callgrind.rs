//! Requests to callgrind, under which this program may run; elsewhere they do nothing.

/// From callgrind.h.
const TOOL: usize = (b'C' as usize) << 24 | (b'T' as usize) << 16;
const DUMP_AT: usize = TOOL + 3;
const START: usize = TOOL + 4;
const STOP: usize = TOOL + 5;

/// Has the instructions of what is done here, and no others, counted and written under a label.
pub fn counted(label: usize, doing: impl FnOnce()) {
    let label = format!("{label}\0");
    request(START, 0);
    doing();
    request(STOP, 0);
    request(DUMP_AT, label.as_ptr() as usize);
}

/// As valgrind.h has it: instructions that change nothing, by which valgrind knows a request.
fn request(what: usize, with: usize) {
    let words = [what, with, 0, 0, 0, 0];
    // Sound: the register is rotated by 128 bits in all; valgrind reads the six words and, through them, a label that
    // ends with 0; it changes nothing but the register that takes its answer.
    #[cfg(target_arch = "aarch64")]
    unsafe {
        std::arch::asm!(
            "ror x12, x12, #3", "ror x12, x12, #13", "ror x12, x12, #51", "ror x12, x12, #61", "orr x10, x10, x10",
            in("x4") words.as_ptr(), inout("x3") 0usize => _,
        );
    }
    #[cfg(target_arch = "x86_64")]
    unsafe {
        std::arch::asm!(
            "rol rdi, 3", "rol rdi, 13", "rol rdi, 61", "rol rdi, 51", "xchg rbx, rbx",
            in("rax") words.as_ptr(), inout("rdx") 0usize => _,
        );
    }
}
