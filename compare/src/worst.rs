//! How long the verdict takes at its worst: names that are alike, and strings that are one long text.

use std::hint::black_box;
use std::time::Instant;

use crate::gen::{alike, strings, End};
use crate::library::Verdict;
use crate::second;

const RUNS: usize = 11;

/// As many strings as can be, and the most bytes of text that an image has beside their rows and the trailer.
const STRINGS: usize = 1_024;
const TEXT: usize = 65_536 - 8 * STRINGS - 24;

/// All of them, as lines of text.
pub fn times(library: Verdict) -> String {
    names(library) + &texts(library)
}

/// Both images, each by three ways.
fn names(library: Verdict) -> String {
    let mut lines = format!("1,024 names of 255 bytes, alike but for their ends: ms, best and median of {RUNS} runs\n");
    for (label, end) in [("ends of one byte", End::OneByte), ("ends of no sum", End::NoSum)] {
        let image = alike(end, false);
        let (ours, middle) = time(library, &image);
        lines += &format!("{label}: library {ours:.3} {middle:.3}");
        for (name, verdict) in [("second reading", second::readable as Verdict), ("plain pairs", plain_pairs)] {
            let (best, middle) = time(verdict, &image);
            lines += &format!(", {name} {best:.3} {middle:.3} (library {:.2} of it)", ours / best);
        }
        lines.push('\n');
    }
    lines
}

/// Characters of one to four bytes, as many as fit, by two ways.
fn texts(library: Verdict) -> String {
    let mut lines = format!("1,024 strings that are the same text: ms, best and median of {RUNS} runs\n");
    for character in ["a", "é", "中", "😀"] {
        let text = character.repeat(TEXT / character.len());
        let image = strings(text.as_bytes(), STRINGS);
        let (ours, middle) = time(library, &image);
        lines += &format!("{} bytes, {} a character: library {ours:.3} {middle:.3}", text.len(), character.len());
        let (best, middle) = time(from_utf8, &image);
        lines += &format!(", from_utf8 {best:.3} {middle:.3} (library {:.2} of it)\n", ours / best);
    }
    lines
}

/// Best and median, in milliseconds.
fn time(verdict: Verdict, image: &[u8]) -> (f64, f64) {
    let mut runs: Vec<f64> = (0..RUNS)
        .map(|_| {
            let begun = Instant::now();
            assert!(black_box(verdict(black_box(image))), "an image that is readable");
            begun.elapsed().as_secs_f64() * 1e3
        })
        .collect();
    runs.sort_by(f64::total_cmp);
    (runs[0], runs[RUNS / 2])
}

/// Only whether the names' texts differ: every pair, by Rust's own comparison.
fn plain_pairs(image: &[u8]) -> bool {
    let texts: Vec<&[u8]> = row_texts(image, 0, 16).collect();
    (0..texts.len()).all(|place| texts[..place].iter().all(|earlier| *earlier != texts[place]))
}

/// Only whether the strings' texts are UTF-8, by Rust's own function.
fn from_utf8(image: &[u8]) -> bool {
    row_texts(image, 1, 8).all(|text| std::str::from_utf8(text).is_ok())
}

/// The texts of an image with sections in order: of names (0) or strings (1), by the bytes of a row.
fn row_texts(image: &[u8], section: usize, row: usize) -> impl Iterator<Item = &[u8]> {
    let word = |at: usize| u32::from_le_bytes(image[at..at + 4].try_into().unwrap()) as usize;
    let start = image.len() - 24 + 4 * section;
    (word(start)..word(start + 4)).step_by(row).map(move |row| &image[word(row)..][..word(row + 4)])
}
