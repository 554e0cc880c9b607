//! Edges of qualified names: which row has the namespace's text, a dot and the name's. Rows that could be taken for one another
//! have different definitions.

use super::{Edges, U8};
use crate::gen::model::{Def, Model, Words, NONE};
use crate::gen::rich::Rich;
use crate::gen::tiny::{with_body, F, IMPL, M, MESSAGE, P, TRAIT, X};

/// The first definition behind the tiny model's.
const OTHER: u32 = IMPL + 1;

/// What a label of an edge that finds no row ends with.
pub const NOTHING: &str = "-nothing";

impl Edges {
    pub(super) fn halves(&mut self) {
        self.dots();
        self.near_rows();
        self.lengths();
        self.places();
        self.overlaps();
        self.inside();
    }

    /// Names by text and definition; then what is asked for, by halves and the definition that it stands for.
    fn qualified(&mut self, label: &str, names: &[(&str, u32)], asked: &[(&str, &str, u32)]) {
        let found = asked.iter().all(|(.., definition)| *definition != NONE);
        self.rich(format!("halves-{label}{}", if found { "" } else { NOTHING }), &asking(names, asked));
    }

    /// Rows that are not the one that is asked for: without that one, and with it behind them.
    fn near(&mut self, label: &str, others: &[&str], left: &str, right: &str) {
        let joined = format!("{left}.{right}");
        let mut names: Vec<(&str, u32)> = others.iter().copied().zip(OTHER..).collect();
        self.qualified(label, &names, &[(left, right, NONE)]);
        names.push((&joined, TRAIT));
        self.qualified(label, &names, &[(left, right, TRAIT)]);
    }

    /// Dots in the halves: within, at their ends, and nothing else.
    fn dots(&mut self) {
        self.qualified(
            "dots-within",
            &[("a.b", MESSAGE), ("b.c", IMPL), ("a.b.c", TRAIT)],
            &[("a.b", "c", TRAIT), ("a", "b.c", TRAIT)],
        );
        self.qualified(
            "three-dots",
            &[("a.b", MESSAGE), ("a.b.c", IMPL), ("a.b.c.d", TRAIT)],
            &[("a", "b.c.d", TRAIT), ("a.b", "c.d", TRAIT), ("a.b.c", "d", TRAIT)],
        );
        self.qualified(
            "dots-at-ends",
            &[("a.b", OTHER), (".a.b", MESSAGE), ("a.b.", TRAIT), ("a..b", IMPL)],
            &[(".a", "b", MESSAGE), ("a", "b.", TRAIT), ("a.", "b", IMPL), ("a", ".b", IMPL)],
        );
        self.qualified(
            "dots-only",
            &[(".", MESSAGE), ("..", IMPL), ("...", TRAIT), ("....", OTHER)],
            &[(".", ".", TRAIT), (".", "..", OTHER), ("..", ".", OTHER)],
        );
    }

    /// Rows that are nearly the one that is asked for.
    fn near_rows(&mut self) {
        self.qualified("rows-of-half-and-dot", &[(".x", MESSAGE), ("p.", TRAIT), (".", IMPL)], &[("p", "x", NONE)]);
        self.near("among-near-rows", &[".x", "p.", "px", "p-x", "p.xx", "pp.x", "x.p"], "p", "x");
        self.near("row-goes-on-behind", &["p.xx"], "p", "x");
        self.near("row-goes-on-before", &["pp.x"], "p", "x");
        self.near("row-stops-short", &["p", "p."], "p", "x");
        let bytes = (0..128).filter(|byte| *byte != b'.').map(char::from);
        let rows: Vec<String> = bytes.map(|byte| format!("p{byte}x")).collect();
        let rows: Vec<&str> = rows.iter().map(String::as_str).collect();
        self.near("every-byte-for-the-dot", &rows, "p", "x");
        self.qualified("exchanged", &[("p.x", TRAIT), ("x.p", MESSAGE)], &[("p", "x", TRAIT), ("x", "p", MESSAGE)]);
    }

    /// Joined texts as long as a row's can be, and longer.
    fn lengths(&mut self) {
        let halves = |left: usize, right: usize| ("a".repeat(left), "b".repeat(right));
        for (left, right) in [(127, 127), (1, 253), (253, 1)] {
            let (a, b) = halves(left, right);
            self.qualified(&format!("{left}-and-{right}"), &[(&format!("{a}.{b}"), TRAIT)], &[(&a, &b, TRAIT)]);
        }
        // No row can be so long. Rows are the first 255 bytes, the last 255, and as many as the length is modulo 256.
        for (left, right) in [(127, 128), (128, 127), (128, 128), (255, 255)] {
            let (a, b) = halves(left, right);
            let joined = format!("{a}.{b}");
            let cuts = [&joined[..255], &joined[joined.len() - 255..], &joined[..joined.len() % 256]];
            let names: Vec<(&str, u32)> = cuts.into_iter().filter(|cut| !cut.is_empty()).zip(OTHER..).collect();
            self.qualified(&format!("{left}-and-{right}"), &names, &[(&a, &b, NONE)]);
        }
        let (a, b) = halves(127, 127);
        let but_for = |place: usize| {
            let mut row = format!("{a}.{b}");
            row.replace_range(place..=place, "c");
            row
        };
        let rows = [0, 126, 127, 128, 254].map(but_for);
        self.near("255-but-for-one-byte", &rows.each_ref().map(String::as_str), &a, &b);
    }

    /// Where the row stands, and what it is besides.
    fn places(&mut self) {
        let mut ends = asking(&[("x.p", TRAIT)], &[("p", "x", MESSAGE), ("x", "p", TRAIT)]);
        let first = &mut ends.model.names[F as usize];
        (first.text, first.def) = (b"p.x".to_vec(), MESSAGE);
        self.rich("halves-first-and-last-row", &ends);
        self.qualified("row-between-its-halves", &[("a", MESSAGE), ("a.b", TRAIT), ("b", IMPL)], &[("a", "b", TRAIT)]);
        self.qualified(
            "one-name-in-both",
            &[("a", MESSAGE), ("a.a", TRAIT), ("a.a.a", IMPL)],
            &[("a", "a", TRAIT), ("a.a", "a", IMPL), ("a", "a.a", IMPL)],
        );
        let mut last = asking(&[], &[("p", "x", TRAIT)]);
        for place in last.model.names.len()..1_023 {
            last.model.add_name([place / 32, place % 32].map(|digit| 64 + digit as u8).to_vec(), NONE);
        }
        last.model.add_name(b"p.x".to_vec(), TRAIT);
        self.add("halves-row-1023", last.model.shared_image(b""), IMPL);
    }

    /// Halves that are parts of the row's own bytes, which are the last of the texts; halves that overlap; and the bytes alone,
    /// without a row.
    fn overlaps(&mut self) {
        for (label, texts, names, asked) in [
            ("texts-overlap", "fMTp.x", &[("p.x", TRAIT)][..], ("p", "x", TRAIT)),
            ("texts-of-halves-overlap", "fMTpxabcab.bc", &[("ab.bc", TRAIT)], ("ab", "bc", TRAIT)),
            ("texts-without-row-nothing", "fMTp.x", &[("p.", MESSAGE), (".x", TRAIT)], ("p", "x", NONE)),
        ] {
            let Rich { mut model, row } = asking(names, &[asked]);
            model.strings.clear();
            self.add(format!("halves-{label}"), model.shared_image(texts.as_bytes()), row);
        }
    }

    /// Inside other types, and as a return.
    fn inside(&mut self) {
        let both = |model: &mut Model| {
            model.add_name(b"p.x".to_vec(), TRAIT);
            model.add_name(b"x.p".to_vec(), MESSAGE);
        };
        self.expression("halves-in-containers", &[68, 64, 49, P, X, 49, X, P], both);
        // A half is no type parameter, although it has the name of one.
        self.expression("halves-in-alias", &[50, M, 49, P, X], |model| {
            both(model);
            let row = model.add_def(Def::Alias(vec![P], vec![68, 48, P, 49, X, P]));
            model.names[M as usize].def = row;
        });
        self.expression("halves-in-map-nothing", &[68, 49, P, X, 49, X, P], |model| {
            model.add_name(b"p.x".to_vec(), TRAIT);
        });
        let mut returned = with_body(&[(P, vec![U8])], Some(vec![48, MESSAGE]), vec![vec![2, 1, 6]]);
        both(&mut returned.model);
        returned.model.trait_of(IMPL).functions[0].returns = vec![2, 49, X, P];
        self.rich("halves-in-return", &returned);
    }
}

/// A trait function with qualified names for parameters, and an implementation with what they stand for. Halves that are no names
/// of the list stand before it, without a definition.
pub(super) fn asking(names: &[(&str, u32)], asked: &[(&str, &str, u32)]) -> Rich {
    let expected: Vec<(u32, Words)> = asked.iter().map(|(.., definition)| (P, vec![48, *definition])).collect();
    let mut rich = with_body(&expected, None, vec![vec![3, 7, X, 6, 7, X, 6]]);
    let halves = asked.iter().flat_map(|(left, right, _)| [(*left, NONE), (*right, NONE)]);
    let halves = halves.filter(|(half, _)| names.iter().all(|(text, _)| text != half));
    for (text, definition) in halves.chain(names.iter().copied()) {
        define(&mut rich.model, text, definition);
    }
    for (place, (left, right, _)) in asked.iter().enumerate() {
        let [left, right] = [left, right].map(|half| rich.model.row_of(half.as_bytes()).expect("a half is a name"));
        rich.model.trait_of(IMPL).functions[0].params[place].1 = vec![49, left, right];
    }
    rich
}

/// Gives a name its definition; both are added where they are not there.
fn define(model: &mut Model, text: &str, definition: u32) {
    let row = model.row_of(text.as_bytes()).unwrap_or_else(|| model.add_name(text.into(), NONE));
    model.names[row as usize].def = definition;
    while definition != NONE && model.defs.len() <= definition as usize {
        model.add_def(Def::Other);
    }
}

#[cfg(test)]
mod tests {
    use super::*;
    use crate::case::Case;
    use crate::gen::edges;
    use crate::judge::{By, Judge};
    use crate::second::{Call, DETAIL_BYTES};

    #[test]
    fn they_are_accepted_or_poison_as_their_labels_tell() {
        let (mut judge, mut counts) = (Judge::default(), [0, 0]);
        for edge in edges().into_iter().filter(|edge| edge.label.starts_with("halves-")) {
            let nothing = edge.label.ends_with(NOTHING);
            let expected = if nothing { (7, F, NONE) } else { (0, NONE, NONE) };
            for call in [Call::ProjectImpl, Call::ExpectedSignatures] {
                let image = edge.image.as_slice().into();
                let case = Case { call, image, row: edge.row, output: 4_096, detail: DETAIL_BYTES };
                let judged = judge.judge(&case).unwrap_or_else(|said| panic!("{}: {said}", edge.label));
                let answer = judged.whole.answer;
                assert_eq!((answer.number, answer.function, answer.second), expected, "{}", edge.label);
                assert!(judged.by == By::Rust, "{}", edge.label);
            }
            counts[usize::from(nothing)] += 1;
        }
        assert!(counts.iter().all(|count| *count > 10));
    }
}
