//! Every short text as a string's and as a name's: the library's verdict and the second reading's, beside Rust's `from_utf8`.

use std::fmt;

use crate::gen;
use crate::library::Verdict;
use crate::second;
use crate::text;

/// Where the ranges of the Unicode Standard's table 3-7 begin and end, for any of a character's bytes.
const ENDS: [u8; 24] = [
    0x00, 0x7f, 0x80, 0x8f, 0x90, 0x9f, 0xa0, 0xbf, 0xc0, 0xc1, 0xc2, 0xdf, 0xe0, 0xe1, 0xec, 0xed, 0xee, 0xef, 0xf0,
    0xf1, 0xf3, 0xf4, 0xf5, 0xff,
];

/// The rows that a text is tried in: their name, and an image of nothing but one of them.
type Kind = (&'static str, fn(&[u8]) -> Vec<u8>);
const STRING: Kind = ("string", |text| gen::strings(text, 1));
const NAME: Kind = ("name", gen::lone_name);

struct Row {
    kind: &'static str,
    length: usize,
    texts: u64,
    well_formed: u64,
}

pub struct Texts {
    sides: [(&'static str, Verdict); 2],
    rows: Vec<Row>,
    differences: u64,
    /// What was said of the first text that was judged differently.
    first: Option<String>,
}

impl Texts {
    pub fn new(library: Verdict) -> Self {
        let sides = [("the library", library), ("the second reading", second::readable as Verdict)];
        Texts { sides, rows: vec![], differences: 0, first: None }
    }

    /// All of one to three bytes as a string's, of four those with a range's end or a byte beside it in each place; all of one
    /// and two bytes as a name's.
    pub fn judge(&mut self) {
        let (every, ends): (Vec<u8>, Vec<u8>) = ((0..=255).collect(), ends());
        (1..=3).for_each(|length| self.of_bytes(STRING, length, &every));
        self.of_bytes(STRING, 4, &ends);
        (1..=2).for_each(|length| self.of_bytes(NAME, length, &every));
    }

    /// Every text of so many of these bytes, in one image.
    fn of_bytes(&mut self, (kind, image): Kind, length: usize, bytes: &[u8]) {
        let mut row = Row { kind, length, texts: 0, well_formed: 0 };
        let mut image = image(&vec![0; length]);
        for number in 0..bytes.len().pow(length as u32) {
            let mut rest = number;
            // The texts come first in an image.
            for byte in &mut image[..length] {
                *byte = bytes[rest % bytes.len()];
                rest /= bytes.len();
            }
            let well_formed = std::str::from_utf8(&image[..length]).is_ok();
            for (side, verdict) in self.sides {
                if verdict(&image) != well_formed {
                    self.differences += 1;
                    let said = if well_formed { "unreadable" } else { "readable" };
                    let tell = || format!("{kind} {}: {side} says {said}", text::hex(&image[..length]));
                    self.first.get_or_insert_with(tell);
                }
            }
            row.texts += 1;
            row.well_formed += u64::from(well_formed);
        }
        self.rows.push(row);
    }

    pub fn agree(&self) -> bool {
        self.differences == 0
    }
}

/// The ends, and a byte beside each.
fn ends() -> Vec<u8> {
    let beside = |byte: &u8| ENDS.iter().any(|end| end.abs_diff(*byte) <= 1);
    (0..=255).filter(beside).collect()
}

impl fmt::Display for Texts {
    fn fmt(&self, f: &mut fmt::Formatter<'_>) -> fmt::Result {
        writeln!(f, "row     bytes      texts  well-formed")?;
        let (mut texts, mut well_formed) = (0, 0);
        for row in &self.rows {
            writeln!(f, "{:6}{:7}{:11}{:13}", row.kind, row.length, row.texts, row.well_formed)?;
            texts += row.texts;
            well_formed += row.well_formed;
        }
        writeln!(f, "{texts} texts, {well_formed} well-formed, {} differences", self.differences)?;
        self.first.iter().try_for_each(|said| writeln!(f, "DIFFERENCE, the first: {said}"))
    }
}

#[cfg(test)]
mod tests {
    use super::*;

    /// The second reading alone, on both kinds of rows.
    fn at_the_ends(library: Verdict) -> Texts {
        let (mut texts, ends) = (Texts::new(library), ends());
        (1..=4).for_each(|length| texts.of_bytes(STRING, length, &ends));
        texts.of_bytes(NAME, 3, &ends);
        texts
    }

    #[test]
    fn the_second_reading_is_from_utf8() {
        let texts = at_the_ends(second::readable);
        assert!(texts.agree(), "{texts}");
        assert!(texts.rows.iter().all(|row| row.well_formed > 0));
    }

    #[test]
    fn as_many_are_well_formed_as_there_are_characters() {
        let (mut texts, every) = (Texts::new(second::readable), (0..=255).collect::<Vec<u8>>());
        for kind in [STRING, NAME] {
            texts.of_bytes(kind, 1, &every);
            texts.of_bytes(kind, 2, &every);
        }
        // 128 characters have one byte, 1,920 have two.
        let counts: Vec<u64> = texts.rows.iter().map(|row| row.well_formed).collect();
        assert_eq!((texts.differences, counts), (0, vec![128, 128 * 128 + 1_920, 128, 128 * 128 + 1_920]));
    }

    #[test]
    fn a_slip_is_found() {
        let texts = at_the_ends(|_| true);
        assert!(!texts.agree() && texts.first.is_some_and(|said| said.starts_with("string 80: the library")));
    }
}
