//! A second, plain reading of document 01, and of 02's rule for texts: an image in, the whole answer out. It shares nothing
//! with the loader, and is the judge where the Rust has no answer. Quotations are their words.

mod body;
mod image;
mod signature;
mod subst;
mod utf8;

use image::{Definition, Image, Implementation};

pub const NONE: u32 = u32::MAX;

/// "1: detail under 576 bytes".
pub const DETAIL_BYTES: usize = 576;

#[derive(Debug, Clone, Copy, PartialEq, Eq, PartialOrd, Ord)]
pub enum Call {
    ProjectImpl,
    ExpectedSignatures,
}

#[derive(Debug, Clone, Copy, PartialEq, Eq)]
pub struct Answer {
    pub number: u32,
    pub function: u32,
    pub second: u32,
    pub length: u32,
    pub visits: u32,
}

/// A number from 2 to 23 with its names and detail words.
struct Refusal {
    number: u32,
    function: u32,
    second: u32,
    detail: Vec<u32>,
}

impl Refusal {
    fn plain(number: u32) -> Self {
        Refusal::of(number, NONE)
    }

    fn of(number: u32, function: u32) -> Self {
        Refusal::named(number, function, NONE)
    }

    fn named(number: u32, function: u32, second: u32) -> Self {
        Refusal { number, function, second, detail: Vec::new() }
    }

    fn detailed(number: u32, function: u32, detail: Vec<u32>) -> Self {
        Refusal { detail, ..Refusal::of(number, function) }
    }
}

/// Whether an image is readable.
pub fn readable(image: &[u8]) -> bool {
    image::read(image).is_some()
}

/// "its lowest implementation row (0 if none)"; 0 where the image is unreadable, too.
pub fn lowest_implementation(image: &[u8]) -> u32 {
    let definitions = image::read(image).map_or(vec![], |image| image.definitions);
    let first = definitions.iter().position(|definition| matches!(definition, Definition::Implementation(_)));
    first.unwrap_or(0) as u32
}

/// Answers a call; both buffers are written as 01 says and nowhere else.
pub fn answer(call: Call, image: &[u8], row: u32, output: &mut [u8], detail: &mut [u8]) -> Answer {
    let refused = |number, length| Answer { number, function: NONE, second: NONE, length, visits: 0 };
    if detail.len() < DETAIL_BYTES {
        return refused(1, 0);
    }
    match decide(call, image, row) {
        Ok((words, visits)) => {
            // "Length is bytes written, or needed under 24"; 24 "when all else accepts".
            let length = 4 * words.len() as u32;
            if length as usize > output.len() {
                return refused(24, length);
            }
            write(output, &words);
            Answer { number: 0, function: NONE, second: NONE, length, visits }
        }
        Err(refusal) => {
            write(detail, &refusal.detail);
            Answer { number: refusal.number, function: refusal.function, second: refusal.second, length: 0, visits: 0 }
        }
    }
}

fn write(buffer: &mut [u8], words: &[u32]) {
    for (bytes, word) in buffer.chunks_exact_mut(4).zip(words) {
        bytes.copy_from_slice(&word.to_le_bytes());
    }
}

/// The output words and visits, or the first refusal in 01's order.
fn decide(call: Call, bytes: &[u8], row: u32) -> Result<(Vec<u32>, u32), Refusal> {
    let image = image::read(bytes).ok_or(Refusal::plain(2))?;
    let Some(Definition::Implementation(implementation)) = image.definition(row) else {
        return Err(Refusal::plain(3));
    };
    let Some(Definition::Trait(of)) = image.definition(implementation.of) else {
        return Err(Refusal::named(4, NONE, implementation.trait_name));
    };
    // "expected_signatures skips 5 and everything after 7 but 24."
    if call == Call::ExpectedSignatures {
        let (expected, visits) = signature::expected(&image, of, implementation)?;
        let mut words = vec![expected.len() as u32];
        expected.iter().for_each(|signature| signature.write(&mut words));
        return Ok((words, visits));
    }
    let fields = target_fields(&image, implementation).ok_or(Refusal::plain(5))?;
    let (expected, visits) = signature::expected(&image, of, implementation)?;

    let functions = &implementation.functions;
    for (place, function) in functions.iter().enumerate() {
        if functions[..place].iter().any(|earlier| earlier.name == function.name) {
            return Err(Refusal::of(9, function.name));
        }
    }
    for function in functions {
        if expected.iter().all(|signature| signature.name != function.name) {
            return Err(Refusal::of(10, function.name));
        }
    }
    let mut words = vec![expected.len() as u32];
    for signature in &expected {
        let Some(function) = functions.iter().find(|function| function.name == signature.name) else {
            return Err(Refusal::of(11, signature.name));
        };
        signature.check(function)?;
        signature.write(&mut words);
        body::project(function, signature, fields, &implementation.target, &mut words)?;
    }
    Ok((words, visits))
}

/// "target not Named to a message" is 5; the message's fields otherwise.
fn target_fields<'a>(image: &'a Image, implementation: &Implementation) -> Option<&'a [(u32, image::Run)]> {
    match (implementation.target.as_slice(), image.definition(*implementation.target.get(1)?)) {
        ([48, _], Some(Definition::Message(fields))) => Some(fields),
        _ => None,
    }
}

#[cfg(test)]
mod tests {
    use super::*;
    use crate::gen::whole_case;

    #[test]
    fn the_whole_case() {
        let (mut output, mut detail) = ([170; 52], [85; DETAIL_BYTES]);
        let answer = answer(Call::ProjectImpl, &whole_case(), 2, &mut output, &mut detail);
        assert_eq!(answer, Answer { number: 0, function: NONE, second: NONE, length: 48, visits: 1 });
        let words: Vec<u32> = output.chunks(4).map(|bytes| u32::from_le_bytes(bytes.try_into().unwrap())).collect();
        assert_eq!(words[..12], [1, 0, 0, 1, 1, 1, 2, 1, 1, 0, 5, 0]);
        assert_eq!(output[48..], [170; 4]);
        assert_eq!(detail, [85; DETAIL_BYTES]);
    }

    #[test]
    fn buffers_are_asked_first_and_last() {
        let ask = |output: usize, detail: usize| {
            answer(Call::ProjectImpl, &whole_case(), 2, &mut vec![0; output], &mut vec![0; detail])
        };
        assert_eq!((ask(47, 576).number, ask(47, 576).length), (24, 48));
        assert_eq!(ask(48, 575).number, 1);
    }
}
