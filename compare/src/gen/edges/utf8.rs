//! Edges of the rule that texts are UTF-8: each row's text alone, a name's and a string's, used or not.

use super::halves::asking;
use super::{literal, Edges, U8};
use crate::gen::damage::{put, word};
use crate::gen::model::{Model, NONE};
use crate::gen::rich::Rich;
use crate::gen::tiny::{tiny, with_body, F, IMPL, MESSAGE, P, T, TRAIT, X};

/// Just outside of what characters can be: overlong, surrogates, above U+10FFFF, never a first byte, cut.
const BAD: [&[u8]; 12] = [
    &[0xc0, 0x80],
    &[0xc1, 0xbf],
    &[0xe0, 0x9f, 0xbf],
    &[0xed, 0xa0, 0x80],
    &[0xed, 0xbf, 0xbf],
    &[0xf0, 0x8f, 0xbf, 0xbf],
    &[0xf4, 0x90, 0x80, 0x80],
    &[0xf5, 0x80, 0x80, 0x80],
    &[0x80],
    &[0xc2],
    &[0xe1, 0x80],
    &[0xf1, 0x80, 0x80],
];

/// The ends of what they can be.
const GOOD: [&[u8]; 9] = [
    &[0x7f],
    &[0xc2, 0x80],
    &[0xdf, 0xbf],
    &[0xe0, 0xa0, 0x80],
    &[0xed, 0x9f, 0xbf],
    &[0xee, 0x80, 0x80],
    &[0xef, 0xbf, 0xbf],
    &[0xf0, 0x90, 0x80, 0x80],
    &[0xf4, 0x8f, 0xbf, 0xbf],
];

/// U+0000, U+FEFF, U+FFFE and one that is unassigned; U+FFFF is one of the ends.
const ODD: [&[u8]; 4] = [&[0x00], &[0xef, 0xbb, 0xbf], &[0xef, 0xbf, 0xbe], &[0xcd, 0xb8]];

/// Characters of two to four bytes of which each following byte is one less than it can be, or one more.
const FOLLOWED: [&[u8]; 3] = [&[0xc2, 0x80], &[0xe1, 0x80, 0x80], &[0xf1, 0x80, 0x80, 0x80]];

/// One of each class of what is no character.
const CLASSES: [(&str, &[u8]); 7] = [
    ("lone", &[0xbf]),
    ("overlong", &[0xe0, 0x80, 0xaf]),
    ("surrogate", &[0xed, 0xa1, 0x8c]),
    ("beyond", &[0xf4, 0xbf, 0xbf, 0xbf]),
    ("never-used", &[0xff]),
    ("cut", &[0xf0, 0x9f, 0x98]),
    ("second-byte", &[0xe1, 0xc0, 0x80]),
];

impl Edges {
    pub(super) fn utf8(&mut self) {
        self.characters();
        self.following_bytes();
        self.places_in_a_text();
        self.whole_texts();
        self.unused_rows();
        self.beside_rows();
        self.other_alphabets();
        self.told_names();
    }

    /// As a function's name.
    fn as_name(&mut self, label: &str, text: &[u8]) {
        self.rich(format!("utf8-{label}-name-{}", dashed(text)), &named(text));
    }

    /// As a string that a body binds.
    fn as_string(&mut self, label: &str, text: &[u8]) {
        self.rich(format!("utf8-{label}-string-{}", dashed(text)), &with_string(text));
    }

    fn characters(&mut self) {
        for (label, texts) in [("bad", BAD.as_slice()), ("good", &GOOD)] {
            for text in texts {
                self.as_name(label, text);
                self.as_string(label, text);
            }
        }
        ODD.iter().for_each(|text| self.as_name("good", text));
    }

    fn following_bytes(&mut self) {
        for character in FOLLOWED {
            for place in 1..character.len() {
                let with = |byte: u8| [&character[..place], &[byte], &character[place + 1..]].concat();
                self.as_name("bad", &with(0x7f));
                self.as_string("bad", &with(0xc0));
            }
        }
    }

    /// At the start, in the middle and at the end of a text that is good but for it.
    fn places_in_a_text(&mut self) {
        for (class, bytes) in CLASSES {
            for (place, before, behind) in [("start", "", "é中"), ("middle", "é", "中"), ("end", "é中", "")] {
                let text = [before.as_bytes(), bytes, behind.as_bytes()].concat();
                self.rich(format!("utf8-bad-{class}-at-{place}"), &named(&text));
            }
        }
    }

    /// Names as long as can be, and strings that are all there is.
    fn whole_texts(&mut self) {
        self.rich("utf8-good-name-of-255", &named("中".repeat(85).as_bytes()));
        let cut = [&"中".repeat(84), "😀"].concat();
        self.add("utf8-bad-name-of-255-cut", named(&cut.as_bytes()[..255]).model.shared_image(cut.as_bytes()), IMPL);
        let long = "中".repeat(86);
        for (label, last) in [("good", "é".as_bytes()), ("bad", b"\xff")] {
            let texts = [b"fMTpx", long.as_bytes(), last].concat();
            self.add(format!("utf8-{label}-string-is-all-texts"), with_string(&texts).model.shared_image(&texts), IMPL);
        }
    }

    /// Rows that nothing refers to; and 2 before 3.
    fn unused_rows(&mut self) {
        let (mut name, mut string) = (tiny(), tiny());
        name.model.add_name(b"caf\xe9".to_vec(), NONE);
        string.model.strings.push(b"caf\xe9".to_vec());
        self.rich("utf8-bad-unused-name", &name);
        self.rich("utf8-bad-unused-string", &string);
        self.rich("utf8-bad-row-of-a-message", &Rich { row: MESSAGE, ..name });
        self.rich("utf8-good-row-of-a-message", &Rich { row: MESSAGE, ..named("é".as_bytes()) });
    }

    /// What stands beside a row's text does not count for it.
    fn beside_rows(&mut self) {
        for (label, part) in [("ends", &"中".as_bytes()[..2]), ("begins", &"中".as_bytes()[1..])] {
            for (kind, rich) in [("name", named(part)), ("string", with_string(part))] {
                self.add(
                    format!("utf8-bad-{kind}-{label}-in-a-character"),
                    rich.model.shared_image("中".as_bytes()),
                    IMPL,
                );
            }
        }
        // A first byte before a row and one that could follow behind it, and what is in no text.
        let free = [b"\xff\xc3", "é".as_bytes(), b"\x80\xed\xa0\x80\xf0\x9f"].concat();
        self.add("utf8-good-free-bytes", named("é".as_bytes()).model.shared_image(&free), IMPL);
        let mut overlap = named("é中".as_bytes());
        overlap.model.names[P as usize].text = "中😀".into();
        overlap.model.strings = ["中", "é中😀", "😀"].map(Vec::from).into();
        self.add("utf8-good-rows-overlap", overlap.model.shared_image("é中😀".as_bytes()), IMPL);
        self.add("utf8-good-empty-in-characters", empty_in_characters(), IMPL);
    }

    /// Texts are bytes still: nothing is composed or decomposed, and qualified names are joined by a dot's byte.
    fn other_alphabets(&mut self) {
        let mut both = named("é".as_bytes());
        both.model.names[P as usize].text = "e\u{301}".into();
        self.rich("utf8-good-composed-and-decomposed", &both);
        let (left, right) = (format!("{}n", "é".repeat(63)), format!("n{}", "中".repeat(42)));
        for (label, row, halves, found) in [
            ("", "né.中😀", ("né", "中😀"), TRAIT),
            ("-of-255", &format!("{left}.{right}"), (&left, &right), TRAIT),
            ("-decomposed", "ne\u{301}.中😀", ("né", "中😀"), NONE),
        ] {
            self.rich(format!("utf8-good-qualified{label}"), &asking(&[(row, TRAIT)], &[(halves.0, halves.1, found)]));
        }
    }

    /// Refusals that tell names, in the words that the Rust prints.
    fn told_names(&mut self) {
        let texts = |rich: Rich| {
            let names = [(F, "ƒ"), (T, "Черта"), (P, "参数"), (X, "😀")];
            names.iter().fold(rich, |rich, (row, text)| renamed(rich, *row, text.as_bytes()))
        };
        let body = |statement: &[u32]| texts(with_body(&[(P, vec![U8])], None, vec![statement.to_vec()]));
        self.rich("utf8-good-unknown-local", &body(&[3, 7, X, 6, 5, T]));
        let bits = [&[1, X, 1, 80, 2, P, X], literal(0, 1).as_slice()].concat();
        self.rich("utf8-good-bit-names", &body(&bits));
        let mut other = texts(tiny());
        other.model.impl_mut(IMPL).functions[0].params[0].0 = X;
        self.rich("utf8-good-parameter-names", &other);
    }
}

fn dashed(text: &[u8]) -> String {
    text.iter().map(|byte| format!("{byte:02x}")).collect::<Vec<String>>().join("-")
}

fn renamed(mut rich: Rich, row: u32, text: &[u8]) -> Rich {
    rich.model.names[row as usize].text = text.to_vec();
    rich
}

/// A function of this name.
fn named(text: &[u8]) -> Rich {
    renamed(tiny(), F, text)
}

/// A body that binds this string.
fn with_string(text: &[u8]) -> Rich {
    let mut rich = with_body(&[(P, vec![U8])], None, vec![vec![1, X, 0, 4, 1]]);
    rich.model.strings[1] = text.to_vec();
    rich
}

/// Empty strings at every place of a name's characters, and at the end of the texts.
fn empty_in_characters() -> Vec<u8> {
    let text = "é中😀";
    let Rich { model: Model { names, defs, .. }, .. } = named(text.as_bytes());
    let strings = vec![vec![]; text.len() + 1];
    let mut image = Model { names, strings, defs }.plain_image();
    let trailer = image.len() - 24;
    let (end, rows) = (word(&image, trailer), word(&image, trailer + 4) as usize);
    for (row, start) in (0..text.len() as u32).chain([end]).enumerate() {
        put(&mut image, rows + 8 * row, start);
    }
    image
}

#[cfg(test)]
mod tests {
    use super::*;
    use crate::case::Case;
    use crate::gen::edges;
    use crate::judge::{By, Judge};
    use crate::second::{Call, DETAIL_BYTES};

    #[test]
    fn they_are_unreadable_as_their_labels_tell() {
        let (mut judge, mut counts) = (Judge::default(), [0, 0]);
        for edge in edges().into_iter().filter(|edge| edge.label.starts_with("utf8-")) {
            let broken = edge.label.starts_with("utf8-bad-");
            for call in [Call::ProjectImpl, Call::ExpectedSignatures] {
                let image = edge.image.as_slice().into();
                let case = Case { call, image, row: edge.row, output: 4_096, detail: DETAIL_BYTES };
                let judged = judge.judge(&case).unwrap_or_else(|said| panic!("{}: {said}", edge.label));
                assert_eq!(judged.whole.answer.number == 2, broken, "{}", edge.label);
                assert_eq!(judged.by == By::Rust, !broken && edge.row == IMPL, "{}", edge.label);
            }
            counts[usize::from(broken)] += 1;
        }
        assert!(counts.iter().all(|count| *count > 30));
    }
}
