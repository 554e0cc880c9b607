//! Images in which a qualified look-up passes over many rows of one kind: the row that it finds stands in front of them, or behind.

use super::model::{Model, NONE};
use super::rich::Rich;
use super::tiny::{with_body, IMPL, P, TRAIT, X};

/// So many rows of one kind.
pub const ROWS: usize = 500;

/// The halves that are looked up.
const HALVES: [&str; 2] = ["abcdefgh", "ijklmnop"];

/// What a row is beside `abcdefgh.ijklmnop`, and its text around three digits.
const KINDS: [(&str, &str, &str); 6] = [
    ("shorter", "abcd", ""),
    ("longer", "abcdefgh.ijklmnop", ""),
    ("no dot there", "abcdefgh-ijklm", ""),
    ("both halves differ at once", "zzzzz", ".zzzzzzzz"),
    ("4 bytes of the first agree", "abcdz", ".zzzzzzzz"),
    ("4 bytes of the second agree", "zzzzz", ".ijklzzzz"),
];

/// A kind of rows, with the image that finds its row in front of them and the one that finds it behind.
pub struct Passed {
    pub kind: &'static str,
    pub images: [Vec<u8>; 2],
}

/// The implementation that is asked for in them.
pub const ROW: u32 = IMPL;

pub fn passed() -> Vec<Passed> {
    let images = |before: &str, behind: &str| [true, false].map(|front| image(before, behind, front));
    KINDS.map(|(kind, before, behind)| Passed { kind, images: images(before, behind) }).into()
}

fn image(before: &str, behind: &str, front: bool) -> Vec<u8> {
    let Rich { mut model, .. } = with_body(&[(P, vec![48, TRAIT])], None, vec![vec![3, 7, X, 6, 7, X, 6]]);
    let halves = HALVES.map(|half| model.add_name(half.into(), NONE));
    let found = |model: &mut Model| model.add_name(HALVES.join(".").into(), TRAIT);
    if front {
        found(&mut model);
    }
    for number in 0..ROWS {
        model.add_name(format!("{before}{number:03}{behind}").into(), NONE);
    }
    if !front {
        found(&mut model);
    }
    model.trait_of(IMPL).functions[0].params[0].1 = [&[49], halves.as_slice()].concat();
    model.plain_image()
}

#[cfg(test)]
mod tests {
    use super::*;
    use crate::second::{self, Call, DETAIL_BYTES};

    #[test]
    fn a_row_is_found_in_front_of_them_and_behind() {
        for Passed { kind, images: [front, behind] } in passed() {
            assert_eq!(front.len(), behind.len(), "{kind}");
            for image in [front, behind] {
                let (mut output, mut detail) = (vec![0; 4_096], [0; DETAIL_BYTES]);
                let answer = second::answer(Call::ProjectImpl, &image, ROW, &mut output, &mut detail);
                assert_eq!((answer.number, answer.visits), (0, 1), "{kind}");
            }
        }
    }

    #[test]
    fn rows_are_shorter_or_longer_or_as_long() {
        let size = HALVES.join(".").len();
        let sizes = KINDS.map(|(_, before, behind)| (before.len() + 3 + behind.len()).cmp(&size) as i32);
        assert_eq!(sizes, [-1, 1, 0, 0, 0, 0]);
    }
}
