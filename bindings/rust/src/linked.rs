//! The library's functions, called from safe code.

use std::io;
use std::thread;

use crate::stack;

/// The words of an answer: number, function, second, length, visits.
pub const ANSWER_WORDS: usize = 5;

/// One of the library's two calls.
#[derive(Debug, Clone, Copy, PartialEq, Eq)]
pub enum Call {
    ProjectImpl,
    ExpectedSignatures,
}

/// What both calls look like: a slice is passed as its address and its length.
type Exported = unsafe extern "C" fn(
    image: *const u8,
    image_length: usize,
    number: u32,
    output: *mut u8,
    output_length: usize,
    detail: *mut u8,
    detail_length: usize,
    answer: *mut u32,
    answer_length: usize,
) -> u32;

extern "C" {
    // The crate `exports` has the statements.
    fn fruscalitu_project_impl(
        image: *const u8,
        image_length: usize,
        number: u32,
        output: *mut u8,
        output_length: usize,
        detail: *mut u8,
        detail_length: usize,
        answer: *mut u32,
        answer_length: usize,
    ) -> u32;

    fn fruscalitu_expected_signatures(
        image: *const u8,
        image_length: usize,
        number: u32,
        output: *mut u8,
        output_length: usize,
        detail: *mut u8,
        detail_length: usize,
        answer: *mut u32,
        answer_length: usize,
    ) -> u32;
}

impl Call {
    /// Asks the library: in place where the thread's stack suffices, else on a thread with a stack that does; an error
    /// where there is none.
    pub fn ask(
        self,
        image: &[u8],
        number: u32,
        output: &mut [u8],
        detail: &mut [u8],
    ) -> io::Result<[u32; ANSWER_WORDS]> {
        if stack::suffices() == Some(true) {
            return Ok(self.ask_here(image, number, output, detail));
        }
        thread::scope(|scope| {
            thread::Builder::new()
                .stack_size(stack::THREAD_BYTES)
                // A program with much thread-local data could leave too little.
                .spawn_scoped(scope, || {
                    (stack::suffices() != Some(false)).then(|| self.ask_here(image, number, output, detail))
                })?
                .join()
                .ok()
                .flatten()
                .ok_or_else(|| io::Error::other("the call's thread has no stack for it"))
        })
    }

    fn ask_here(self, image: &[u8], number: u32, output: &mut [u8], detail: &mut [u8]) -> [u32; ANSWER_WORDS] {
        let exported: Exported = match self {
            Call::ProjectImpl => fruscalitu_project_impl,
            Call::ExpectedSignatures => fruscalitu_expected_signatures,
        };
        let mut answer = [0; ANSWER_WORDS];
        // Sound: `exported` is one of the functions declared above, and each address and length are those of a slice
        // that lives through the call; the three that are written are lent by `&mut`, so nothing overlaps them. Both
        // functions require nothing of any byte, are proved to stay inside the slices, to write none but these three
        // and to end, and keep nothing. `ask` has seen to the stack.
        unsafe {
            exported(
                image.as_ptr(),
                image.len(),
                number,
                output.as_mut_ptr(),
                output.len(),
                detail.as_mut_ptr(),
                detail.len(),
                answer.as_mut_ptr(),
                answer.len(),
            );
        }
        answer
    }
}

#[cfg(test)]
mod tests {
    use std::hint::black_box;

    use super::*;
    use crate::tests::on_thread_of;
    use crate::tests::stored::{self, Case};

    /// Stored cases with the deepest stacks, but for those whose answer hangs on what is lent.
    fn deep() -> Vec<Case> {
        let deep = |case: &Case| ["alias-itself", "cyclic-", "stack-"].iter().any(|head| case.label.starts_with(head));
        stored::cases().into_iter().filter(|case| deep(case) && !matches!(case.answer[0], 1 | 24)).collect()
    }

    /// Whether a way of asking answers the deep cases as they are stored.
    fn answers(ask: impl Fn(Call, &[u8], u32, &mut [u8], &mut [u8]) -> [u32; ANSWER_WORDS]) -> bool {
        let (mut output, mut detail) = (vec![0; 65_536], [0; 576]);
        let cases = deep();
        !cases.is_empty()
            && cases.iter().all(|case| {
                let call = [Call::ProjectImpl, Call::ExpectedSignatures][case.call as usize];
                ask(call, &case.image, case.row, &mut output, &mut detail) == case.answer
            })
    }

    #[test]
    fn deep_cases_are_answered_from_every_thread() {
        for bytes in [8 << 20, 2 << 20, stack::THREAD_BYTES, stack::STACK_BYTES, 64 << 10] {
            assert!(on_thread_of(bytes, || answers(|call, image, number, output, detail| {
                call.ask(image, number, output, detail).unwrap()
            })));
        }
    }

    /// Runs at the deepest frame, by steps of some kilobytes, from which the stack suffices.
    #[inline(never)]
    fn at_the_edge(run: &dyn Fn() -> bool) -> Option<bool> {
        let frame = black_box([0_u8; 1024]);
        let ran = (stack::suffices() == Some(true)).then(|| at_the_edge(run).unwrap_or_else(run));
        black_box(frame);
        ran
    }

    #[test]
    #[cfg(target_os = "linux")]
    fn deep_cases_are_answered_in_place_where_the_stack_just_suffices() {
        let edge = || at_the_edge(&|| answers(Call::ask_here));
        assert_eq!(on_thread_of(2 << 20, edge), Some(true));
        assert_eq!(on_thread_of(64 << 10, edge), None);
    }
}
