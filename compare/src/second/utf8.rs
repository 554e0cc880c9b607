//! "well-formed UTF-8 as the Unicode Standard defines it: no overlong forms, no surrogates, nothing above U+10FFFF", by each
//! character's number.

/// The least number that needs a first byte and so many more.
const LEAST: [u32; 4] = [0, 0x80, 0x800, 0x1_0000];

pub fn well_formed(text: &[u8]) -> bool {
    let mut rest = text;
    while !rest.is_empty() {
        match behind_character(rest) {
            Some(behind) => rest = behind,
            None => return false,
        }
    }
    true
}

/// What stands behind a text's first character; none where that is no character, or is cut.
fn behind_character(text: &[u8]) -> Option<&[u8]> {
    let (first, rest) = text.split_first()?;
    // How many bytes follow, and what the first byte has of the number.
    let (more, high) = match first {
        0x00..=0x7f => (0, *first),
        0xc0..=0xdf => (1, first - 0xc0),
        0xe0..=0xef => (2, first - 0xe0),
        0xf0..=0xf7 => (3, first - 0xf0),
        _ => return None,
    };
    let (following, behind) = rest.split_at_checked(more)?;
    let mut number = u32::from(high);
    for byte in following {
        // A following byte is 10 and six bits of the number.
        if byte / 64 != 2 {
            return None;
        }
        number = 64 * number + u32::from(byte % 64);
    }
    let surrogate = (0xd800..=0xdfff).contains(&number);
    (number >= LEAST[more] && !surrogate && number <= 0x10_ffff).then_some(behind)
}
