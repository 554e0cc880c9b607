//! Types that rest in the locals, with poison and without, and are compared and written out from there.

use super::full::optionals;
use super::{around, literal, Edges, POISON, U8};
use crate::gen::model::{Def, ImplFn, Model, TraitFn, Words, NONE};
use crate::gen::rich::Rich;
use crate::gen::tiny::{with_body, F, IMPL, M, MESSAGE, P, T, X};

/// Poison in a Map's second part and in its first; and no poison, alike but for that word.
const SECOND: [u32; 4] = [68, U8, 48, NONE];
const FIRST: [u32; 4] = [68, 48, NONE, U8];
const NEITHER: [u32; 4] = [68, U8, 48, 0];

/// `self.x`, `self.m` and a local.
const SELF_X: [u32; 3] = [7, X, 6];
const SELF_M: [u32; 3] = [7, M, 6];
const OF_T: [u32; 2] = [5, T];

fn untyped(name: u32, value: &[u32]) -> Words {
    [&[1, name, 0], value].concat()
}

fn typed(name: u32, run: &[u32], value: &[u32]) -> Words {
    [&[1, name, 1], run, value].concat()
}

fn assign(field: u32, value: &[u32]) -> Words {
    [&[3, 7, field, 6], value].concat()
}

/// A function without parameters; fields x and m of these types.
fn with_fields(x: &[u32], m: &[u32], body: &[Words]) -> Rich {
    let mut rich = with_body(&[], None, body.to_vec());
    rich.model.defs[MESSAGE as usize] = Def::Message(vec![(X, x.to_vec()), (M, m.to_vec())]);
    rich
}

impl Edges {
    pub(super) fn types_of_locals(&mut self) {
        self.bound_poison();
        self.other_types();
        self.many_rows();
        self.rows_of_functions();
    }

    fn local(&mut self, label: &str, rich: &Rich) {
        self.rich(format!("held-local-{label}"), rich);
    }

    /// Bound without a type and with it, and assigned to a field of that type.
    fn bound_poison(&mut self) {
        let full = optionals(62, &POISON);
        for (label, run) in
            [("poison", &POISON[..]), ("poison-second", &SECOND), ("poison-first", &FIRST), ("64-poison-last", &full)]
        {
            let body = [untyped(T, &SELF_X), typed(P, run, &OF_T), assign(M, &[5, P]), assign(X, &OF_T)];
            self.local(label, &with_fields(run, run, &body));
        }
        let length = [66, 48, NONE, U8];
        let body = [typed(T, &length, &SELF_X), untyped(P, &OF_T), assign(M, &[5, P])];
        self.local("length-like-poison", &with_fields(&length, &length, &body));
    }

    /// Types that differ from the bound one, and operators that take neither.
    fn other_types(&mut self) {
        let bound = untyped(T, &SELF_X);
        let cases: [(&str, &[u32], &[u32], Words); 12] = [
            ("poison-to-none", &SECOND, &NEITHER, assign(M, &OF_T)),
            ("none-to-poison", &NEITHER, &SECOND, assign(M, &OF_T)),
            ("second-to-first", &SECOND, &FIRST, assign(M, &OF_T)),
            ("poison-to-optional", &POISON, &[64, 48, NONE], assign(M, &OF_T)),
            ("poison-under-other", &FIRST, &[U8], typed(P, &SECOND, &OF_T)),
            ("poison-under-u8", &POISON, &[U8], typed(P, &[U8], &OF_T)),
            ("poison-equals-poison", &SECOND, &SECOND, untyped(P, &[&[10, 4], &OF_T[..], &SELF_M].concat())),
            ("poison-equals-none", &SECOND, &NEITHER, untyped(P, &[&[10, 4], &OF_T[..], &SELF_M].concat())),
            ("minus-poison", &POISON, &[U8], untyped(P, &[11, 0, 5, T])),
            ("not-poison", &FIRST, &[U8], untyped(P, &[11, 1, 5, T])),
            ("int-under-poison", &POISON, &[U8], typed(P, &POISON, &literal(0, 5))),
            ("self-under-poison", &POISON, &[U8], typed(P, &POISON, &[6])),
        ];
        for (label, x, m, statement) in cases {
            self.local(label, &with_fields(x, m, &[bound.clone(), statement]));
        }
        let mut returned = with_fields(&SECOND, &[U8], &[bound, [&[2, 1], &OF_T[..]].concat()]);
        returned.model.trait_of(IMPL).functions[0].returns = around(&[1], &NEITHER, &[]);
        returned.model.impl_mut(IMPL).functions[0].returns = Some(NEITHER.into());
        self.local("poison-returned", &returned);
    }

    /// Long and short types in rows beside each other, and as many rows as there can be.
    fn many_rows(&mut self) {
        let (long, poison) = (optionals(63, &[U8]), optionals(62, &POISON));
        let params = [(P, long.clone()), (F, vec![U8])];
        let lets = [untyped(T, &SELF_X), untyped(M, &[5, F]), typed(X, &long, &[5, P])];
        let back = [assign(X, &OF_T), vec![2, 1, 5, X]];
        let mut beside = with_body(&params, Some(long.clone()), [&lets[..], &back].concat());
        beside.model.defs[MESSAGE as usize] = Def::Message(vec![(X, poison)]);
        self.local("64-words-in-rows", &beside);

        let mut rich = with_body(&[], None, vec![]);
        let names: Vec<u32> = (0..64).map(|row| rich.model.add_name(format!("_{row}").into(), NONE)).collect();
        let params: Vec<(u32, Words)> = names[..32].iter().map(|name| (*name, vec![64, U8])).collect();
        let lets = names[32..].iter().enumerate().map(|(place, name)| match place % 2 {
            0 => untyped(*name, &[5, names[place]]),
            _ => untyped(*name, &SELF_X),
        });
        let body: Vec<Words> = lets.chain([assign(X, &[5, names[63]]), assign(M, &[5, names[62]])]).collect();
        rich.model.defs[MESSAGE as usize] = Def::Message(vec![(X, FIRST.into()), (M, vec![64, U8])]);
        rich.model.trait_of(IMPL).functions[0].params = params.clone();
        let function = &mut rich.model.impl_mut(IMPL).functions[0];
        (function.params, function.body) = (params, Some(body));
        self.local("64-rows", &rich);
    }

    /// Each function has locals of its own: shorter types in the same rows, and names that are not known any more.
    fn rows_of_functions(&mut self) {
        let long = optionals(62, &POISON);
        let first = [untyped(T, &SELF_X), assign(X, &OF_T)];
        for (label, second) in [
            ("short-behind-long", vec![untyped(T, &SELF_M), typed(P, &SECOND, &OF_T), assign(M, &[5, P])]),
            ("of-other-function", vec![assign(X, &OF_T)]),
        ] {
            let mut rich = with_fields(&long, &SECOND, &first);
            add_function(&mut rich.model, second);
            self.local(label, &rich);
        }
    }
}

/// A second function, M, without parameters.
fn add_function(model: &mut Model, body: Vec<Words>) {
    model.trait_of(IMPL).functions.push(TraitFn { name: M, params: vec![], returns: vec![0] });
    model.impl_mut(IMPL).functions.push(ImplFn { name: M, params: vec![], returns: None, body: Some(body) });
}
