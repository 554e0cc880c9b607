//! Words, and how many of them a type has.

/// An image's bound of the words of one type.
const MOST_WORDS: usize = 64;

/// Little-endian words; bytes behind the last whole one are left out.
pub fn of_bytes(bytes: &[u8]) -> Vec<u32> {
    bytes.chunks_exact(4).map(|word| word.iter().rev().fold(0, |sum, byte| sum << 8 | u32::from(*byte))).collect()
}

/// How many words the resolved type has that these begin with, or nothing where they begin with none. Output words
/// give a type no length: it tells its own end.
pub fn run_length(words: &[u32]) -> Option<usize> {
    let mut at = 0;
    // Parts that are still to come.
    let mut parts = 1_usize;
    while parts > 0 {
        let (own, inner) = match *words.get(at)? {
            // Primitive and Semantic.
            0..=13 | 32..=37 => (1, 0),
            // SubByte: signed, bits.
            16 => (3, 0),
            // Named: a definition number.
            48 => (2, 0),
            // FixedArray: its length's two words, the inner type.
            66 => (3, 1),
            // Map and Result.
            68 | 69 => (1, 2),
            // Optional, Array, Set, Vec2 to Mat4.
            64..=75 => (1, 1),
            // BitsInline: a count, so many names.
            80 => ((*words.get(at + 1)? as usize).saturating_add(2), 0),
            _ => return None,
        };
        at = at.checked_add(own).filter(|at| *at <= MOST_WORDS)?;
        parts = parts - 1 + inner;
    }
    (at <= words.len()).then_some(at)
}

#[cfg(test)]
mod tests {
    use super::*;

    #[test]
    fn a_type_tells_its_own_end() {
        let types: [&[u32]; 8] = [
            &[1],
            &[37],
            &[16, 1, 7],
            &[48, u32::MAX],
            &[66, 4, 0, 64, 1],
            &[68, 13, 69, 65, 1, 48, 3],
            &[75, 11],
            &[80, 2, 5, 6],
        ];
        for words in types {
            assert_eq!(run_length(words), Some(words.len()));
            assert_eq!(run_length(&[words, &[1, 1]].concat()), Some(words.len()));
            for short in 0..words.len() {
                assert_eq!(run_length(&words[..short]), None);
            }
        }
    }

    #[test]
    fn what_is_no_type_has_no_length() {
        for words in [[14, 0], [15, 0], [49, 0], [50, 0], [76, 0], [80, u32::MAX], [u32::MAX, 0]] {
            assert_eq!(run_length(&words), None);
        }
        assert_eq!(run_length(&[[64; 63].as_slice(), &[1]].concat()), Some(64));
        assert_eq!(run_length(&[[64; 64].as_slice(), &[1]].concat()), None);
    }
}
