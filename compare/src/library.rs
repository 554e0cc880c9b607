//! The proved library, asked in-process where the feature `library` links it. All unsafe code of the comparison is here,
//! but for the stack that answers are asked on and for requests to callgrind.

use crate::buffers::Side;
use crate::second::Call;

/// Whether an image is readable.
pub type Verdict = fn(&[u8]) -> bool;

/// The library's verdict, in a build that has the library.
#[cfg(feature = "library")]
pub const READABLE: Option<Verdict> = Some(linked::readable);
#[cfg(not(feature = "library"))]
pub const READABLE: Option<Verdict> = None;

/// By call, the library's answer, in a build that has the library.
#[cfg(feature = "library")]
pub const ANSWERS: [Option<Side>; 2] = [Some(linked::answer); 2];
#[cfg(not(feature = "library"))]
pub const ANSWERS: [Option<Side>; 2] = [None, None];

/// The number that the library's call answers, with nothing checked: for times.
pub fn number(call: Call, image: &[u8], row: u32, output: &mut [u8], detail: &mut [u8]) -> u32 {
    #[cfg(feature = "library")]
    return linked::number(call, image, row, output, detail);
    #[cfg(not(feature = "library"))]
    unreachable!("a build without the library asks it nothing: {:?}", (call, image, row, output, detail));
}

/// Where the call's function, memcpy and memset are.
pub fn addresses(call: Call) -> [usize; 3] {
    #[cfg(feature = "library")]
    return linked::addresses(call);
    #[cfg(not(feature = "library"))]
    unreachable!("a build without the library has no such function: {call:?}");
}

#[cfg(feature = "library")]
mod linked {
    use crate::second::{Answer, Call};
    use crate::stack::on_documented_stack;

    // What the library calls; only their addresses are taken.
    extern "C" {
        fn memcpy();
        fn memset();
    }

    // A slice is passed as its address and its length; the library's crate `exports` has the statements.
    extern "C" {
        fn fruscalitu_readable(image: *const u8, length: usize) -> bool;
        fn fruscalitu_expected_signatures(
            image: *const u8,
            image_length: usize,
            number: u32,
            output: *mut u8,
            output_length: usize,
            detail: *mut u8,
            detail_length: usize,
            answer: *mut u32,
            answer_length: usize,
        ) -> u32;
        fn fruscalitu_project_impl(
            image: *const u8,
            image_length: usize,
            number: u32,
            output: *mut u8,
            output_length: usize,
            detail: *mut u8,
            detail_length: usize,
            answer: *mut u32,
            answer_length: usize,
        ) -> u32;
    }

    pub fn readable(image: &[u8]) -> bool {
        // Sound: address and length are those of a slice that lives through the call. The function requires nothing of
        // its bytes, is proved to read inside it only, writes nothing, keeps nothing, and gives back a bool.
        unsafe { fruscalitu_readable(image.as_ptr(), image.len()) }
    }

    fn call(call: Call, image: &[u8], row: u32, output: &mut [u8], detail: &mut [u8], block: &mut [u32]) -> u32 {
        let function = match call {
            Call::ProjectImpl => fruscalitu_project_impl,
            Call::ExpectedSignatures => fruscalitu_expected_signatures,
        };
        // Sound: addresses and lengths are those of four slices that live through the call and do not overlap. The
        // functions require nothing of them, are proved to read and write inside them only, and keep nothing.
        unsafe {
            function(
                image.as_ptr(),
                image.len(),
                row,
                output.as_mut_ptr(),
                output.len(),
                detail.as_mut_ptr(),
                detail.len(),
                block.as_mut_ptr(),
                block.len(),
            )
        }
    }

    /// A call that has the documented stack and no more.
    fn called(
        which: Call,
        image: &[u8],
        row: u32,
        output: &mut [u8],
        detail: &mut [u8],
        block: &mut [u32],
    ) -> Result<u32, String> {
        let mut result = 0;
        on_documented_stack(&mut || result = call(which, image, row, output, detail, block))?;
        Ok(result)
    }

    const FILL: u32 = 0xa5a5_a5a5;
    const CANARY: u32 = 0xcccc_cccc;
    const MARGIN: usize = 8;
    const WORDS: usize = 5;

    /// What the library says where the block is short.
    const SHORT_BLOCK: u32 = u32::MAX;

    /// Asks with a short block, which must touch nothing, and then with one of five to eight words: the words behind the
    /// fifth must stay, and canaries stand around each. The calls have the documented stack.
    pub fn answer(which: Call, image: &[u8], row: u32, output: &mut [u8], detail: &mut [u8]) -> Result<Answer, String> {
        let some = image.len() + output.len() + detail.len();
        let before = (output.to_vec(), detail.to_vec());
        let said = in_block(some % WORDS, |block| called(which, image, row, output, detail, block))?;
        if said.result != SHORT_BLOCK || said.words.iter().any(|word| *word != FILL) {
            return Err("the library says or writes something with a short block".into());
        }
        if (&before.0[..], &before.1[..]) != (&*output, &*detail) {
            return Err("the library touches a buffer with a short block".into());
        }
        let said = in_block(WORDS + some % 4, |block| called(which, image, row, output, detail, block))?;
        let (five, rest) = said.words.split_at(WORDS);
        if rest.iter().any(|word| *word != FILL) {
            return Err("the library writes past the block's fifth word".into());
        }
        if said.result != five[0] {
            return Err("the library's result is not its number".into());
        }
        Ok(Answer { number: five[0], function: five[1], second: five[2], length: five[3], visits: five[4] })
    }

    struct Said {
        result: u32,
        words: Vec<u32>,
    }

    /// Lends a block of so many words, between canaries.
    fn in_block(words: usize, ask: impl FnOnce(&mut [u32]) -> Result<u32, String>) -> Result<Said, String> {
        let mut block = [CANARY; MARGIN + WORDS + 3 + MARGIN];
        block[MARGIN..MARGIN + words].fill(FILL);
        let result = ask(&mut block[MARGIN..MARGIN + words])?;
        let around = block[..MARGIN].iter().chain(&block[MARGIN + words..]);
        match around.into_iter().all(|word| *word == CANARY) {
            true => Ok(Said { result, words: block[MARGIN..MARGIN + words].to_vec() }),
            false => Err("a canary beside the block is changed".into()),
        }
    }

    pub fn addresses(call: Call) -> [usize; 3] {
        let function = match call {
            Call::ProjectImpl => fruscalitu_project_impl as *const () as usize,
            Call::ExpectedSignatures => fruscalitu_expected_signatures as *const () as usize,
        };
        [function, memcpy as *const () as usize, memset as *const () as usize]
    }

    pub fn number(which: Call, image: &[u8], row: u32, output: &mut [u8], detail: &mut [u8]) -> u32 {
        call(which, image, row, output, detail, &mut [0; WORDS])
    }
}
