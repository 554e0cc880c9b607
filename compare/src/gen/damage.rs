//! Damaged copies of an image: bits, bytes, words, lengths, moved sections, rows that overlap.

use super::model::NONE;
use super::rng::Rng;

pub fn damage(rng: &mut Rng, image: &mut Vec<u8>) {
    for _ in 0..*rng.pick(&[1, 1, 1, 2, 3]) {
        once(rng, image);
    }
}

fn once(rng: &mut Rng, image: &mut Vec<u8>) {
    if image.len() < 32 {
        return;
    }
    let at = rng.below(image.len());
    let trailer = image.len() - 24;
    match rng.below(12) {
        0 => image[at] ^= 1 << rng.below(8),
        1 => image[at] = rng.next() as u8,
        2..=4 => {
            // A word of the pool or of the rows.
            let names = word(image, trailer) as usize;
            if names + 4 <= trailer {
                let count = (trailer - names) / 4;
                let at = names + 4 * rng.below(count);
                let value = interesting(rng, word(image, at));
                put(image, at, value);
            }
        }
        5 => image.truncate(at),
        6 => image.extend((0..rng.between(1, 8)).map(|_| rng.next() as u8).collect::<Vec<u8>>()),
        7 => {
            // A word of the trailer.
            let at = trailer + 4 * rng.below(6);
            let value = interesting(rng, word(image, at));
            put(image, at, value);
        }
        8 => {
            // A whole number of rows moved from one section to its neighbour.
            let at = trailer + 4 * rng.below(4);
            let (old, step) = (word(image, at), *rng.pick(&[4u32, 8, 16, 48]));
            put(image, at, if rng.chance(50) { old.wrapping_add(step) } else { old.wrapping_sub(step) });
        }
        9 => {
            // Two sections change places in the trailer.
            let (one, other) = (trailer + 4 * rng.below(4), trailer + 4 * rng.below(4));
            let (a, b) = (word(image, one), word(image, other));
            put(image, one, b);
            put(image, other, a);
        }
        10 => {
            // A definition or name row starts a little later or earlier, over its neighbour.
            let (names, strings, definitions) =
                (word(image, trailer), word(image, trailer + 4), word(image, trailer + 12));
            let (start, end, size, column) = if rng.chance(50) {
                (definitions as usize, trailer, 8, 4)
            } else {
                (names as usize, strings as usize, 16, 4 * rng.below(2))
            };
            if start < end && end <= trailer && end - start >= size {
                let at = start + size * rng.below((end - start) / size) + column;
                let step = rng.between(1, 3) as u32;
                let old = word(image, at);
                put(image, at, if rng.chance(50) { old.wrapping_add(step) } else { old.wrapping_sub(step) });
            }
        }
        _ => {
            // Bytes taken out or put in, with the image's length kept true.
            let at = rng.below(trailer);
            if rng.chance(50) {
                image.drain(at..(at + 4).min(trailer));
            } else {
                image.splice(at..at, [0, 0, 0, 0]);
            }
            let length = image.len();
            put(image, length - 4, length as u32);
        }
    }
}

fn interesting(rng: &mut Rng, old: u32) -> u32 {
    match rng.below(6) {
        0 => old.wrapping_add(1),
        1 => old.wrapping_sub(1),
        2 => NONE - rng.below(2) as u32,
        3 => *rng.pick(&[8, 16, 48, 49, 50, 62, 63, 64, 65, 66, 68, 75, 76, 80, 255, 256, 1_024]),
        _ => rng.below(12) as u32,
    }
}

pub fn word(image: &[u8], at: usize) -> u32 {
    u32::from_le_bytes(image[at..at + 4].try_into().unwrap())
}

pub fn put(image: &mut [u8], at: usize, word: u32) {
    image[at..at + 4].copy_from_slice(&word.to_le_bytes());
}
