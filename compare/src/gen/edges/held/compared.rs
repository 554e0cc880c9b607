//! Types that are compared: equal, different in one word alone, or with other counts. Signatures first, then values in each context.
//! No type begins another, since a type's words tell where it ends; these come as near to it as can be.

use super::full::{optionals, A_MESSAGE};
use super::{Edges, POISON, U8};
use crate::gen::model::{Def, Words, NONE};
use crate::gen::tiny::{with_body, F, IMPL, M, MESSAGE, P, T, X};

const U16: u32 = 2;

/// Of 64 words.
fn widest() -> Words {
    optionals(63, &[U8])
}

/// With another word in a place.
fn but_for(place: usize, word: u32) -> Words {
    let mut run = widest();
    run[place] = word;
    run
}

impl Edges {
    pub(super) fn compared_types(&mut self) {
        self.in_one_word();
        self.other_counts();
        self.in_signatures();
        self.in_values();
    }

    /// The trait wants one type for the parameter, the implementation has another.
    fn parameters(&mut self, label: &str, wanted: &[u32], found: &[u32]) {
        let mut rich = with_body(&[(P, wanted.to_vec())], None, vec![]);
        rich.model.impl_mut(IMPL).functions[0].params[0].1 = found.to_vec();
        self.rich(format!("held-{}-{label}", if wanted == found { "same" } else { "differ" }), &rich);
    }

    /// Likewise for the return.
    fn returns(&mut self, label: &str, wanted: &[u32], found: &[u32]) {
        let mut rich = with_body(&[], Some(wanted.to_vec()), vec![vec![2, 1, 7, X, 6]]);
        rich.model.defs[MESSAGE as usize] = Def::Message(vec![(X, wanted.to_vec())]);
        rich.model.impl_mut(IMPL).functions[0].returns = Some(found.to_vec());
        self.rich(format!("held-{}-{label}-return", if wanted == found { "same" } else { "differ" }), &rich);
    }

    fn in_one_word(&mut self) {
        for (label, place, word) in [("first", 0, 65), ("middle", 31, 75), ("last", 63, U16)] {
            self.parameters(&format!("64-{label}"), &widest(), &but_for(place, word));
        }
        self.parameters("64", &widest(), &widest());
        self.returns("64", &widest(), &widest());
        self.returns("64-first", &widest(), &but_for(0, 65));
        self.returns("64-last", &widest(), &but_for(63, U16));
        // Bits as many as can be; a length's low and high word.
        let bits = |last: u32| [vec![80, 62], vec![F; 61], vec![last]].concat();
        self.parameters("64-bits-last", &bits(F), &bits(M));
        self.parameters("length-low", &[66, 48, NONE, U8], &[66, 49, NONE, U8]);
        self.returns("length-low", &[66, 48, NONE, U8], &[66, 49, NONE, U8]);
        self.parameters("length-high", &[66, 48, NONE, U8], &[66, 48, 0, U8]);
        for (label, wanted, found) in [
            ("one-word", &[U8][..], &[U16][..]),
            ("first-of-two", &[64, U8], &[65, U8]),
            ("last-of-two", &[64, U8], &[64, U16]),
        ] {
            self.parameters(label, wanted, found);
        }
    }

    fn other_counts(&mut self) {
        for (label, short, long) in [
            // Zeros are what a held type has behind its words.
            ("by-zeros", &[64, 0][..], &[64, 64, 0][..]),
            ("by-map", &[68, 0, 0], &[68, 0, 64, 0]),
            ("by-bits", &[80, 0], &[80, 1, 0]),
            ("by-one-word", &optionals(62, &[0]), &optionals(63, &[0])),
        ] {
            self.parameters(&format!("{label}-longer"), short, long);
            self.returns(&format!("{label}-shorter"), long, short);
        }
    }

    /// What is found may have poison; what is expected cannot.
    fn in_signatures(&mut self) {
        self.parameters("poison-found", &A_MESSAGE, &POISON);
        self.parameters("64-poison-found", &optionals(62, &A_MESSAGE), &optionals(62, &POISON));
        self.returns("poison-found", &[68, U8, 48, 0], &[68, U8, 48, NONE]);
    }

    /// Fields f and m of these types, and a body.
    fn of_fields(&mut self, label: &str, one: &[u32], other: &[u32], body: &[Words]) {
        let mut rich = with_body(&[], None, body.to_vec());
        rich.model.defs[MESSAGE as usize] = Def::Message(vec![(F, one.to_vec()), (M, other.to_vec())]);
        self.rich(format!("held-{label}"), &rich);
    }

    /// In each context that compares: an assignment, a let, a return, a binary and a unary expression.
    fn in_values(&mut self) {
        let typed = |run: &[u32], value: &[u32]| [&[1, T, 1], run, value].concat();
        let (first, middle, last) = (but_for(0, 65), but_for(31, 75), but_for(63, U16));
        let assign = vec![3, 7, F, 6, 7, M, 6];
        self.of_fields("differ-64-first-assigned", &widest(), &first, &[assign.clone()]);
        self.of_fields("differ-64-middle-assigned", &widest(), &middle, &[assign.clone()]);
        self.of_fields("differ-64-last-assigned", &widest(), &last, &[assign.clone()]);
        self.of_fields("differ-longer-assigned", &optionals(2, &[0]), &optionals(3, &[0]), &[assign.clone()]);
        self.of_fields("differ-shorter-assigned", &optionals(3, &[0]), &optionals(2, &[0]), &[assign.clone()]);
        self.of_fields("differ-64-first-let", &first, &[U8], &[typed(&widest(), &[7, F, 6])]);
        self.of_fields("differ-64-last-let", &last, &[U8], &[typed(&widest(), &[7, F, 6])]);
        self.of_fields("differ-64-last-binary", &widest(), &last, &[vec![1, T, 0, 10, 4, 7, F, 6, 7, M, 6]]);
        self.of_fields("differ-64-last-unary", &last, &[U8], &[typed(&widest(), &[11, 0, 7, F, 6])]);
        for (label, run) in [("first", &first), ("last", &last)] {
            let mut rich = with_body(&[], Some(widest()), vec![vec![2, 1, 7, F, 6]]);
            rich.model.defs[MESSAGE as usize] = Def::Message(vec![(F, run.clone())]);
            self.rich(format!("held-differ-64-{label}-returned"), &rich);
        }
        let same = [typed(&widest(), &[7, F, 6]), vec![3, 7, M, 6, 5, T], vec![3, 7, F, 6, 7, M, 6]];
        self.of_fields("same-64-values", &widest(), &widest(), &same);
        self.of_fields("local-64-compared", &widest(), &widest(), &[vec![1, T, 0, 10, 4, 7, F, 6, 7, M, 6]]);
    }
}
