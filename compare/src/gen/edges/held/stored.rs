//! Types that the pool has resolved: type arguments, used and not, and resolved returns.

use super::inside::ALL;
use super::{argument, around, declared, given, Edges, GOOD, POISON, U8};
use crate::gen::model::{TraitFn, NONE};
use crate::gen::tiny::{F, IMPL, M, P, T};

impl Edges {
    pub(super) fn poison_stored(&mut self) {
        self.used_arguments();
        self.unused_arguments();
        self.resolved_returns();
    }

    fn used_arguments(&mut self) {
        for (label, before, behind) in [
            ("itself", &[][..], &[][..]),
            ("optional", &[64], &[]),
            ("fixed-array", &[66, 3, 0], &[]),
            ("map-first", &[68], &[U8]),
            ("map-second", &[68, U8], &[]),
            ("result-of-maps", &[69, 68, U8, U8, 68, U8, 64], &[]),
            ("all-containers", ALL, &[U8]),
        ] {
            self.poison(&format!("argument-{label}"), &argument(&around(before, &POISON, behind)));
        }
        let inside = given(declared(&[&[68, U8, 64, 48, T]], &[0]), &[T], &[&[68, 48, NONE, U8]]);
        self.poison("argument-inside-both", &inside);
        // One of two, and the last of as many as there can be.
        let uses = |param: u32, arguments: &[&[u32]]| given(declared(&[&[48, param]], &[0]), &[T, M], arguments);
        self.poison("argument-first-of-two", &uses(T, &[&POISON, &[U8]]));
        self.poison("argument-second-of-two", &uses(M, &[&[U8], &POISON]));
        let eight = [&[&GOOD[..]; 7][..], &[&POISON]].concat();
        self.poison("argument-last-of-8", &given(declared(&[&[48, M]], &[0]), &[F, F, F, F, F, F, F, M], &eight));
        self.poison("argument-of-first-equal-name", &given(declared(&[&[48, T]], &[0]), &[T, T], &[&POISON, &[U8]]));
        let mut later = argument(&[68, U8, 48, NONE]);
        let first = TraitFn { name: M, params: vec![(P, vec![U8])], returns: vec![0] };
        later.model.trait_of(IMPL).functions.insert(0, first);
        self.poison("argument-in-second-function", &later);
        self.poison("argument-in-return", &given(declared(&[], &[2, 64, 48, T]), &[T], &[&POISON]));
    }

    fn unused_arguments(&mut self) {
        let uses = |run: &[u32], arguments: &[&[u32]]| given(declared(&[run], &[0]), &[T, M], arguments);
        self.clean("argument-unused", given(declared(&[&[U8]], &[1, U8]), &[T], &[&POISON]));
        self.clean("argument-unused-deep", given(declared(&[&[U8]], &[0]), &[T], &[&[68, U8, 64, 48, NONE]]));
        self.clean("argument-first-unused", uses(&[64, 48, M], &[&POISON, &[U8]]));
        self.clean("argument-second-unused", uses(&[64, 48, T], &[&[U8], &POISON]));
        let eight = [&[&POISON[..]; 7][..], &[&GOOD]].concat();
        self.clean("argument-seven-unused", given(declared(&[&[48, M]], &[0]), &[F, F, F, F, F, F, F, M], &eight));
        self.clean("argument-of-second-equal-name", given(declared(&[&[48, T]], &[0]), &[T, T], &[&[U8], &POISON]));
    }

    fn resolved_returns(&mut self) {
        for (label, before, behind) in [
            ("array", &[65][..], &[][..]),
            ("fixed-array", &[66, 48, NONE], &[]),
            ("map-first", &[68], &[U8]),
            ("map-second", &[68, U8], &[]),
            ("result-of-maps", &[69, 68, U8, U8, 68], &[U8]),
            ("all-containers", ALL, &[U8]),
        ] {
            let run = around(before, &POISON, behind);
            self.poison(&format!("resolved-return-{label}"), &declared(&[&[U8]], &[&[1], run.as_slice()].concat()));
        }
        self.clean("resolved-return", declared(&[&[U8]], &[1, 69, 68, U8, 48, 0, 68, 48, 9, U8]));
        let beside = given(declared(&[&[U8]], &[1, 64, 48, 0]), &[T], &[&[64, 48, NONE]]);
        self.clean("resolved-return-beside-argument", beside);
    }
}
