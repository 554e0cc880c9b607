//! A thread whose jobs have no more stack than the C header asks of a caller: a job that needs more never ends, and is told.
//! What is not safe here: a guard behind that stack, the loan of a job, and what is done when the guard is touched.

use std::ffi::{c_int, c_void};
use std::hint::black_box;
use std::sync::atomic::{AtomicBool, AtomicUsize, Ordering::SeqCst};
use std::sync::mpsc::{channel, Receiver, RecvTimeoutError, Sender};
use std::sync::{Mutex, OnceLock};
use std::thread::Builder;
use std::time::Duration;

/// The header's FRUSCALITU_STACK_BYTES, on x86-64 and on Arm.
pub const STACK_BYTES: usize = 786_432;

/// No frame is as long as this: none steps over the guard.
const GUARD_BYTES: usize = 1 << 20;

/// Room for what the thread itself keeps on its stack, and for a page.
const OWN_BYTES: usize = 1 << 17;

/// As many bytes less than documented may be left: a guard is whole pages.
const LOST_BYTES: usize = 512;

/// Linux's numbers.
const PROT_NONE: c_int = 0;
const SIGSEGV: c_int = 11;
const SA_ONSTACK: c_int = 0x0800_0000;

/// C's `struct sigaction` on x86-64 and on Arm.
#[repr(C)]
struct Action {
    handler: usize,
    mask: [u64; 16],
    flags: c_int,
    restorer: usize,
}

extern "C" {
    fn getpagesize() -> c_int;
    fn mprotect(address: *mut c_void, length: usize, protection: c_int) -> c_int;
    fn pause() -> c_int;
    fn pthread_self() -> usize;
    fn sigaction(signal: c_int, action: *const Action, old: *mut Action) -> c_int;
}

type Job<'a> = &'a mut (dyn FnMut() + Send);

/// The way to the thread, and back.
type Thread = (Sender<Job<'static>>, Receiver<()>);

/// Which thread it is, and whether a job has touched the guard.
static THREAD: AtomicUsize = AtomicUsize::new(0);
static TOUCHED: AtomicBool = AtomicBool::new(false);

/// What was done at a fault before.
static BEFORE: OnceLock<Action> = OnceLock::new();

/// Does a job on the thread, which is made once. After a job that does not end it does no other.
pub fn on_documented_stack(job: Job) -> Result<(), String> {
    static WAY: OnceLock<Mutex<Thread>> = OnceLock::new();
    let way = WAY.get_or_init(|| Mutex::new(start())).lock().expect("no job panics");
    if TOUCHED.load(SeqCst) {
        return Err("not asked, since a call before it did not end on its stack".into());
    }
    // Sound: this function ends when the thread is done with the job, or waits for ever in the handler and touches it no more.
    let lent = unsafe { std::mem::transmute::<Job<'_>, Job<'static>>(job) };
    way.0.send(lent).expect("the thread waits for jobs");
    loop {
        match way.1.recv_timeout(Duration::from_millis(100)) {
            Ok(()) => return Ok(()),
            Err(RecvTimeoutError::Timeout) if !TOUCHED.load(SeqCst) => {}
            _ => return Err("a call needs more stack than the header tells, or reads or writes amiss".into()),
        }
    }
}

fn start() -> Thread {
    let ((send, jobs), (done, wait)) = (channel(), channel());
    let thread = Builder::new().name("calls".into()).stack_size(GUARD_BYTES + STACK_BYTES + OWN_BYTES);
    thread.spawn(move || serve(jobs, done)).expect("a thread for the library's calls");
    (send, wait)
}

/// Goes down to where hardly anything is lost to whole pages, and does the jobs there.
fn serve(jobs: Receiver<Job<'static>>, done: Sender<()>) {
    // What a job needs lies below this frame, and so below these bytes.
    let here = black_box([0u8; 64]);
    let (end, lost) = guarded(&raw const here as usize);
    if lost > LOST_BYTES {
        serve(jobs, done);
    } else {
        guard(end);
        for job in jobs {
            job();
            done.send(()).expect("the one who asked waits");
        }
    }
    black_box(here);
}

/// Where a guard ends that leaves no more than the documented bytes below a place, and how many less it leaves.
fn guarded(place: usize) -> (usize, usize) {
    // Sound: it takes nothing and touches nothing.
    let page = unsafe { getpagesize() as usize };
    let least = place - STACK_BYTES;
    let end = least.next_multiple_of(page);
    (end, end - least)
}

/// Nothing can be read or written any more from the guard's start to its end, and who tries waits for ever.
fn guard(end: usize) {
    let action = Action { handler: touched as *const () as usize, mask: [0; 16], flags: SA_ONSTACK, restorer: 0 };
    let mut before = Action { handler: 0, mask: [0; 16], flags: 0, restorer: 0 };
    // Sound: whole pages of this thread's own stack, which was made so much longer for them, below all of its frames; the
    // thread ends with the process. The handler keeps to what a handler may do, on a stack that std gives each thread.
    unsafe {
        THREAD.store(pthread_self(), SeqCst);
        assert_eq!(mprotect((end - GUARD_BYTES) as *mut c_void, GUARD_BYTES, PROT_NONE), 0, "a guard behind the stack");
        assert_eq!(sigaction(SIGSEGV, &action, &mut before), 0, "a guard that tells");
    }
    BEFORE.get_or_init(|| before);
}

/// A signal's handler. A fault elsewhere than on the thread is what it was before.
extern "C" fn touched(_: c_int) {
    // Sound: these may be called in a handler, with what they are given.
    unsafe {
        if THREAD.load(SeqCst) != pthread_self() {
            if let Some(before) = BEFORE.get() {
                sigaction(SIGSEGV, before, std::ptr::null_mut());
            }
            return;
        }
        TOUCHED.store(true, SeqCst);
        loop {
            pause();
        }
    }
}

#[cfg(test)]
mod tests {
    use super::*;

    #[test]
    fn the_header_tells_the_same() {
        let header = concat!(env!("CARGO_MANIFEST_DIR"), "/../bindings/c/fruscalitu.h");
        let header = std::fs::read_to_string(header).unwrap();
        let told = header.lines().filter_map(|line| line.strip_prefix("#define FRUSCALITU_STACK_BYTES "));
        assert_eq!(told.collect::<Vec<&str>>(), [STACK_BYTES.to_string()]);
    }

    /// Goes so many bytes down the stack.
    fn need(top: usize, bytes: usize) {
        let frame = black_box([0u8; 256]);
        if top - (&raw const frame as usize) < bytes {
            need(top, bytes);
        }
        black_box(frame);
    }

    fn ask(bytes: usize) -> Result<(), String> {
        on_documented_stack(&mut || {
            let top = 0u8;
            need(&raw const top as usize, bytes);
        })
    }

    #[test]
    fn what_fits_is_done_and_what_needs_more_is_told() {
        for _ in 0..3 {
            assert!(ask(STACK_BYTES - 4 * LOST_BYTES).is_ok());
        }
        assert!(ask(STACK_BYTES).is_err_and(|said| said.contains("more stack")));
        assert!(ask(0).is_err_and(|said| said.contains("not asked")));
    }
}
