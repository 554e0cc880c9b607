//! Models whose texts leave ASCII behind, and changes to an image's texts and to the rows that have them.

use super::damage::{put, word};
use super::halves;
use super::model::{assemble, Model, NONE};
use super::rich::{rich, Rich};
use super::rng::Rng;

/// The most bytes of a name.
const LONGEST: usize = 255;

/// The ends of what two, three and four bytes can say, and what is in no alphabet: noncharacters, marks, what is unassigned.
const CHARACTERS: [char; 16] = [
    '\u{80}',
    '\u{7ff}',
    '\u{800}',
    '\u{d7ff}',
    '\u{e000}',
    '\u{ffff}',
    '\u{10000}',
    '\u{10ffff}',
    '\u{e9}',
    '\u{301}',
    '\u{378}',
    '\u{feff}',
    '\u{fffd}',
    '\u{fffe}',
    '\u{1f600}',
    '\u{fffff}',
];

/// Characters of two, three and four bytes, by their numbers.
const RANGES: [(usize, usize); 3] = [(0x80, 0x7ff), (0x800, 0xffff), (0x1_0000, 0x10_ffff)];

/// A rich model, or one about qualified names, in other letters; aimed at a number.
pub fn any(rng: &mut Rng, aim: u32) -> Rich {
    let mut rich = if rng.chance(50) { halves::any(rng, aim) } else { rich(rng, Some(aim), 0) };
    translate(rng, &mut rich.model);
    rich
}

/// Writes most letters of names and strings by others. Names that differed still do, and a namespace, a dot and a name are
/// still the name that they were, but for names that would be too long and stay.
fn translate(rng: &mut Rng, model: &mut Model) {
    let letters = alphabet(rng);
    let written =
        |text: &[u8]| text.iter().map(|letter| letters[usize::from(*letter)]).collect::<String>().into_bytes();
    for name in &mut model.names {
        let text = written(&name.text);
        if text.len() <= LONGEST {
            name.text = text;
        }
    }
    for text in &mut model.strings {
        *text = written(text);
    }
}

/// What each byte of ASCII is written by: itself, as a dot always is, or a longer character that is no other's.
fn alphabet(rng: &mut Rng) -> Vec<char> {
    let mut letters: Vec<char> = (0..128).map(char::from).collect();
    for letter in 0..128 {
        if letters[letter] != '.' && rng.chance(75) {
            let mut by = character(rng);
            while letters.contains(&by) {
                by = character(rng);
            }
            letters[letter] = by;
        }
    }
    letters
}

fn character(rng: &mut Rng) -> char {
    let (least, most) = *rng.pick(&RANGES);
    let number = rng.between(least, most) as u32;
    // A surrogate is no character.
    char::from_u32(number).filter(|_| rng.chance(80)).unwrap_or(*rng.pick(&CHARACTERS))
}

/// Bytes of the texts that are in no row become anything.
pub fn fill_free(rng: &mut Rng, image: &mut [u8]) {
    let mut free = vec![true; sections(image)[0]];
    for row in rows(image) {
        let (start, length) = (word(image, row) as usize, word(image, row + 4) as usize);
        free[start..start + length].fill(false);
    }
    for at in (0..free.len()).filter(|at| free[*at]) {
        image[at] = rng.next() as u8;
    }
}

/// Changes bytes of the texts, or where rows' texts begin and end.
pub fn disturb(rng: &mut Rng, image: &mut [u8]) {
    for _ in 0..*rng.pick(&[1, 1, 1, 2]) {
        if rng.chance(40) {
            let at = rng.below(sections(image)[0]);
            image[at] = match rng.below(3) {
                0 => rng.next() as u8,
                1 => 128 + rng.below(128) as u8,
                _ => image[at] ^ 1 << rng.below(8),
            };
        } else {
            let row = *rng.pick(&rows(image));
            let step = (rng.between(1, 3) as u32).wrapping_mul(*rng.pick(&[1, u32::MAX]));
            // The text is moved; ends elsewhere; begins elsewhere.
            let [start, length] = *rng.pick(&[[step, 0], [0, step], [step, step.wrapping_neg()]]);
            for (at, step) in [(row, start), (row + 4, length)] {
                put(image, at, word(image, at).wrapping_add(step));
            }
        }
    }
}

/// Where the names, the strings and the pool start.
fn sections(image: &[u8]) -> [usize; 3] {
    [24, 20, 16].map(|back| word(image, image.len() - back) as usize)
}

/// Where the rows are that have a text.
fn rows(image: &[u8]) -> Vec<usize> {
    let [names, strings, pool] = sections(image);
    (names..strings).step_by(16).chain((strings..pool).step_by(8)).collect()
}

/// An image of nothing but strings, each of them the same text.
pub fn strings(text: &[u8], rows: usize) -> Vec<u8> {
    assemble(text.to_vec(), &[], &[0, text.len() as u32].repeat(rows), &[], &[])
}

/// An image of nothing but a name.
pub fn lone_name(text: &[u8]) -> Vec<u8> {
    assemble(text.to_vec(), &[0, text.len() as u32, NONE, NONE], &[], &[], &[])
}

#[cfg(test)]
mod tests {
    use super::*;
    use crate::case::Case;
    use crate::judge::{By, Judge};
    use crate::second::{self, Call, DETAIL_BYTES};

    #[test]
    fn any_is_readable_and_the_rust_is_asked() {
        let (mut judge, mut numbers) = (Judge::default(), [0; 25]);
        for seed in 0..1_000 {
            let Rich { model, row } = any(&mut Rng::new(seed), *Rng::new(seed).pick(&[0, 7, 16, 20]));
            assert!(model.names.iter().any(|name| !name.text.is_ascii()));
            let image = model.plain_image().into();
            let case = Case { call: Call::ProjectImpl, image, row, output: 65_536, detail: DETAIL_BYTES };
            let judged = judge.judge(&case).unwrap();
            assert!(judged.by == By::Rust || judged.by == By::Count);
            numbers[judged.whole.answer.number as usize] += 1;
        }
        assert!([0, 7, 16, 20].iter().all(|number| numbers[*number] > 50), "{numbers:?}");
    }

    #[test]
    fn free_bytes_are_free_and_some_disturbed_images_are_readable() {
        let mut readable = 0;
        for seed in 0..1_000 {
            let mut rng = Rng::new(seed);
            let mut image = any(&mut rng, 0).model.loose_image(&mut rng);
            fill_free(&mut rng, &mut image);
            assert!(second::readable(&image));
            disturb(&mut rng, &mut image);
            readable += usize::from(second::readable(&image));
        }
        assert!((100..600).contains(&readable), "{readable}");
    }
}
