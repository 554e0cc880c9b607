//! Types of 64 words, with poison in their last two or among them, and of 65.

use super::{aliased, argument, around, declared, given, Edges, A, GOOD, NOTHING, POISON, U8};
use crate::gen::model::{TraitFn, Words, NONE};
use crate::gen::rich::Rich;
use crate::gen::tiny::{F, IMPL, M, P, T, X};

/// So many words around a leaf: Optionals, or Maps with the leaf behind or before all else.
const FULL: [(&str, fn(usize, &[u32]) -> Words); 3] =
    [("optionals", optionals), ("seconds", seconds), ("firsts", firsts)];

/// A good name, as a type expression.
pub(super) const A_MESSAGE: [u32; 2] = [48, M];

impl Edges {
    pub(super) fn full_types(&mut self) {
        self.of_64();
        self.grown_to_64();
        self.of_65();
    }

    fn of_64(&mut self) {
        let returned = |run: &[u32]| declared(&[], &around(&[1], run, &[]));
        for (label, full) in FULL {
            self.poison(&format!("64-{label}"), &declared(&[&full(62, &NOTHING)], &[0]));
            self.poison(&format!("64-{label}-argument"), &argument(&full(62, &POISON)));
            self.poison(&format!("64-{label}-resolved-return"), &returned(&full(62, &POISON)));
            self.clean(&format!("64-{label}"), declared(&[&full(62, &A_MESSAGE)], &[0]));
        }
        self.clean("64-seconds-argument", argument(&seconds(62, &GOOD)));
        self.clean("64-seconds-resolved-return", returned(&seconds(62, &GOOD)));
        // Before all else, and behind as many bits as there is room for.
        self.poison("64-before-optionals", &argument(&around(&[68], &POISON, &optionals(60, &[U8]))));
        self.poison("64-behind-59-bits", &argument(&around(&[68, 80, 59], &[F; 59], &POISON)));
        self.clean("64-argument-unused", given(declared(&[&[U8]], &[0]), &[T], &[&seconds(62, &POISON)]));
        let dropped = aliased(declared(&[&[50, A, 48, T]], &[0]), &[&[U8]]);
        self.clean("64-argument-dropped", given(dropped, &[T], &[&seconds(62, &POISON)]));
        self.clean("64-length-last", argument(&optionals(60, &[66, 48, NONE, U8])));
    }

    /// 32 words of the expression around an argument of 32; and an alias that has its argument twice.
    fn grown_to_64(&mut self) {
        for (label, full) in FULL {
            let grown = |leaf: &[u32]| given(declared(&[&full(32, &[48, T])], &[0]), &[T], &[&full(30, leaf)]);
            self.poison(&format!("64-{label}-substituted"), &grown(&POISON));
            if label == "seconds" {
                self.clean(&format!("64-{label}-substituted"), grown(&GOOD));
            }
        }
        let twice = |leaf: &[u32]| {
            let expression = around(&[64, 50, A], &optionals(29, leaf), &[]);
            aliased(declared(&[&expression], &[0]), &[&[68, 48, P, 48, P]])
        };
        self.poison("64-twice-in-alias", &twice(&NOTHING));
        self.clean("64-twice-in-alias", twice(&A_MESSAGE));
        self.poison("64-last-in-target", &behind_argument(60));
    }

    /// 8, although there is poison: it comes before 7 in a function, and a type that is dropped counts.
    fn of_65(&mut self) {
        let of_argument =
            |params: &[&[u32]], returns: &[u32]| given(declared(params, returns), &[T], &[&seconds(62, &POISON)]);
        let around_it: &[u32] = &[64, 48, T];
        let twice = around(&[64, 64, 50, A], &optionals(29, &NOTHING), &[]);
        for (label, rich) in [
            ("around-argument", of_argument(&[around_it], &[0])),
            ("map-of-argument", given(declared(&[&[68, U8, 48, T]], &[0]), &[T], &[&seconds(61, &POISON)])),
            ("substituted", given(declared(&[&seconds(33, &[48, T])], &[0]), &[T], &[&seconds(30, &POISON)])),
            ("dropped", aliased(of_argument(&[&[50, A, 64, 48, T]], &[0]), &[&[U8]])),
            ("last-in-target", behind_argument(61)),
            ("twice-in-alias", aliased(declared(&[&twice], &[0]), &[&[68, 48, P, 48, P]])),
            ("parameter-behind-poison", of_argument(&[&NOTHING, around_it], &[0])),
            ("parameter-before-poison", of_argument(&[around_it, &NOTHING], &[0])),
            ("return-behind-poison", of_argument(&[&NOTHING], &[2, 64, 48, T])),
        ] {
            self.rich(format!("held-65-{label}"), &rich);
        }
        let mut later = of_argument(&[&NOTHING], &[0]);
        let second = TraitFn { name: M, params: vec![(P, around_it.to_vec())], returns: vec![0] };
        later.model.trait_of(IMPL).functions.push(second);
        self.poison("function-before-65", &later);
    }
}

pub(super) fn optionals(words: usize, leaf: &[u32]) -> Words {
    [&vec![64; words], leaf].concat()
}

fn seconds(words: usize, leaf: &[u32]) -> Words {
    [[68, U8].repeat(words / 2), optionals(words % 2, leaf)].concat()
}

fn firsts(words: usize, leaf: &[u32]) -> Words {
    [vec![68; words / 2], optionals(words % 2, leaf), vec![U8; words / 2]].concat()
}

/// Map<argument, nothing> by an alias: so many Optionals around u8, and three words more.
fn behind_argument(optional: usize) -> Rich {
    aliased(declared(&[&around(&[50, A], &optionals(optional, &[U8]), &[])], &[0]), &[&[68, 48, P, 48, X]])
}
