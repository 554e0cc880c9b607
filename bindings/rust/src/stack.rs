//! The stack that a call needs, and whether the thread that asks has it left. Unsafe code is in `system` only.

use std::ptr;

/// What a call of the library needs: `FRUSCALITU_STACK_BYTES` of `fruscalitu.h`.
pub const STACK_BYTES: usize = 786_432;

/// What is asked for beside: this crate's frames from here to the library, which take less even where they are not
/// optimized.
const OWN_BYTES: usize = 16 << 10;

/// The stack of a thread that is made for a call. Beside the above, C's library takes from it the thread's descriptor
/// and the thread-local data of the whole program, older ones also the guard, a page of up to 64 KB.
pub const THREAD_BYTES: usize = STACK_BYTES + (256 << 10);

/// Whether the calling thread has the stack left that a call needs. Nothing where that is not known, as on a
/// coroutine's stack, which is not the thread's.
pub fn suffices() -> Option<bool> {
    let mark = 0_u8;
    let here = ptr::from_ref(&mark) as usize;
    let bounds = system::bounds()?;
    bounds.contains(&here).then(|| here - bounds.start >= STACK_BYTES + OWN_BYTES)
}

#[cfg(target_os = "linux")]
#[allow(unsafe_code)]
mod system {
    use std::ffi::{c_int, c_void};
    use std::mem::MaybeUninit;
    use std::ops::Range;
    use std::ptr;

    /// Room for `pthread_attr_t`, which has 56 or 64 bytes on 64-bit processors.
    #[repr(C, align(16))]
    struct Attributes(MaybeUninit<[u8; 256]>);

    extern "C" {
        fn pthread_self() -> usize;
        fn pthread_getattr_np(thread: usize, attributes: *mut Attributes) -> c_int;
        fn pthread_attr_getstack(attributes: *const Attributes, lowest: *mut *mut c_void, bytes: *mut usize) -> c_int;
        fn pthread_attr_getguardsize(attributes: *const Attributes, bytes: *mut usize) -> c_int;
        fn pthread_attr_destroy(attributes: *mut Attributes) -> c_int;
    }

    thread_local! {
        /// Asked for once a thread: for a program's first one C's library reads a file of the system. A limit that the
        /// program lowers later is not seen.
        static BOUNDS: Option<Range<usize>> = asked();
    }

    /// The addresses of the calling thread's stack; a first thread's down to where its limit lets it grow.
    pub fn bounds() -> Option<Range<usize>> {
        BOUNDS.try_with(Clone::clone).ok().flatten()
    }

    fn asked() -> Option<Range<usize>> {
        let mut attributes = Attributes(MaybeUninit::uninit());
        let mut lowest = ptr::null_mut();
        let (mut bytes, mut guard) = (0, 0);
        // Sound: the first function fills the attributes, which are large enough, or fails; the next two read them and
        // write to the places that are lent; the last frees what the first allocated.
        let told = unsafe {
            if pthread_getattr_np(pthread_self(), &mut attributes) != 0 {
                return None;
            }
            let told = pthread_attr_getstack(&attributes, &mut lowest, &mut bytes) == 0
                && pthread_attr_getguardsize(&attributes, &mut guard) == 0;
            pthread_attr_destroy(&mut attributes);
            told
        };
        let lowest = lowest as usize;
        // Older libraries count the guard among the stack's bytes.
        told.then(|| lowest.saturating_add(guard)..lowest.saturating_add(bytes))
    }
}

#[cfg(not(target_os = "linux"))]
mod system {
    use std::ops::Range;

    pub fn bounds() -> Option<Range<usize>> {
        None
    }
}

#[cfg(test)]
mod tests {
    use super::*;
    use crate::tests::on_thread_of;

    #[test]
    fn one_number_is_told() {
        let header = include_str!("../../c/fruscalitu.h");
        let defined: Vec<&str> =
            header.lines().filter_map(|line| line.strip_prefix("#define FRUSCALITU_STACK_BYTES ")).collect();
        assert_eq!(defined, [STACK_BYTES.to_string()]);
        let told = format!("{},{:03} bytes of stack", STACK_BYTES / 1_000, STACK_BYTES % 1_000);
        assert!(include_str!("lib.rs").contains(&told) && include_str!("../../README.md").contains(&told));
    }

    #[test]
    #[cfg(target_os = "linux")]
    fn a_thread_of_the_usual_size_suffices_and_a_small_one_does_not() {
        assert_eq!(on_thread_of(2 << 20, suffices), Some(true));
        assert_eq!(on_thread_of(THREAD_BYTES, suffices), Some(true));
        assert_eq!(on_thread_of(64 << 10, suffices), Some(false));
    }
}
