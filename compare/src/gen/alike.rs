//! 1,024 names of 255 bytes in overlapping texts, alike but for their ends: the test that all differ at its worst.

use super::model::{assemble, NONE};

const NAMES: usize = 1_024;
const LENGTH: usize = 255;

/// As many texts side by side as an ASCII byte tells apart from zeros.
const TEXTS: usize = 127;

/// What tells a text from the others, among zeros.
#[derive(Clone, Copy)]
pub enum End {
    OneByte,
    /// Bytes whose sum, each times its power of 31, is 0 below 2^27: the number that the library compares first is the
    /// same for all texts.
    NoSum,
}

impl End {
    fn bytes(self, text: usize) -> Vec<u8> {
        let first = text + 1;
        match self {
            End::OneByte => vec![first as u8],
            End::NoSum => {
                let rest = (1 << 27) - (first * 31usize.pow(6)) % (1 << 27);
                let digits = (0..6).rev().map(|power| (rest / 31usize.pow(power) % 31) as u8);
                std::iter::once(first as u8).chain(digits).collect()
            }
        }
    }
}

/// The names, all different; or the last has the text of the first.
pub fn alike(end: End, twice: bool) -> Vec<u8> {
    let mut texts = vec![];
    for text in 0..TEXTS {
        let end = end.bytes(text);
        texts.extend(vec![0; LENGTH - end.len()]);
        texts.extend(end);
    }
    // Each text is cut out several times, a byte later each time.
    let shifts = 1..=NAMES.div_ceil(TEXTS);
    texts.extend(shifts.clone().map(|_| 0));
    let mut starts: Vec<usize> =
        shifts.flat_map(|shift| (0..TEXTS).map(move |text| LENGTH * text + shift)).take(NAMES).collect();
    if twice {
        starts[NAMES - 1] = starts[0];
    }
    let rows: Vec<u32> = starts.iter().flat_map(|start| [*start as u32, LENGTH as u32, NONE, NONE]).collect();
    assemble(texts, &rows, &[], &[], &[])
}
