//! Words that look like poison and are none: lengths, bits' names and their count, bits of a width, definition numbers, name rows,
//! and words behind a type's last. And poison behind such words, which a reader that takes them for nodes passes over.

use super::{aliased, argument, around, declared, given, Edges, A, GOOD, U8};
use crate::gen::model::{Def, ImplDef, ImplFn, Model, TraitDef, TraitFn, Words, NONE};
use crate::gen::rich::Rich;
use crate::gen::tiny::{tiny, F, M, MESSAGE, P, T, X};

/// A fixed array of u8 whose length has poison's words.
const LENGTH: [u32; 4] = [66, 48, NONE, U8];

impl Edges {
    pub(super) fn looks_like_poison(&mut self) {
        self.lengths_of_arrays();
        self.before_lengths();
        self.bits();
        self.definition_numbers();
        self.name_rows();
        self.words_behind();
    }

    /// In every part of every container, and from everywhere a type comes from.
    fn lengths_of_arrays(&mut self) {
        let one_part = [64, 65, 67, 70, 71, 72, 73, 74, 75].map(|code| around(&[code], &LENGTH, &[]));
        self.clean("length-in-one-part", declared(&one_part.each_ref().map(Words::as_slice), &[0]));
        let two_parts = [(68, true), (68, false), (69, true), (69, false)].map(|(code, first)| match first {
            true => around(&[code], &LENGTH, &[U8]),
            false => around(&[code, U8], &LENGTH, &[]),
        });
        self.clean("length-in-two-parts", declared(&two_parts.each_ref().map(Words::as_slice), &[0]));
        self.clean("length-of-length", declared(&[&around(&[66, 48, NONE], &LENGTH, &[])], &[0]));
        self.clean(
            "length-otherwise",
            declared(&[&[66, NONE, 48, U8], &[66, NONE, NONE, U8], &[66, 48, 48, U8]], &[0]),
        );
        self.clean("length-in-return", declared(&[], &around(&[2, 68, U8], &LENGTH, &[])));
        self.clean("length-in-resolved-return", declared(&[], &around(&[1], &LENGTH, &[])));
        self.clean("length-in-resolved-return-deep", declared(&[], &around(&[1, 68, 64], &LENGTH, &LENGTH)));
        self.clean("length-in-argument", argument(&LENGTH));
        self.clean("length-in-argument-deep", argument(&around(&[68, 64], &LENGTH, &LENGTH)));
        self.clean("length-in-alias", aliased(declared(&[&[50, A, U8]], &[0]), &[&[66, 48, NONE, 48, P]]));
        self.clean(
            "length-in-alias-argument",
            aliased(declared(&[&around(&[50, A], &LENGTH, &[])], &[0]), &[&[68, U8, 48, P]]),
        );
        // Poison behind lengths that, taken for codes, would swallow it.
        for (label, low, high) in
            [("48-0", 48, 0), ("0-48", 0, 48), ("66-0", 66, 0), ("none-48", NONE, 48), ("0-80", 0, 80)]
        {
            self.poison(&format!("behind-length-{label}"), &argument(&[66, low, high, 48, NONE]));
        }
        self.poison("behind-length-0-66-expression", &declared(&[&[66, 0, 66, 48, X]], &[0]));
    }

    /// What stands before a length shifts a reader that takes its last word for a code onto the length's words.
    fn before_lengths(&mut self) {
        for (label, before) in [("sub-byte-48", &[16, 0, 48][..]), ("definition-48", &[48, 48])] {
            let run = around(&[68], before, &LENGTH);
            self.clean(&format!("{label}-before-length"), argument(&run));
            self.clean(&format!("{label}-before-length-return"), declared(&[], &around(&[1], &run, &[])));
            self.poison(&format!("behind-{label}"), &argument(&around(&[68], before, &[48, NONE])));
        }
        self.poison("behind-sub-byte-48-expression", &declared(&[&[68, 16, 0, 48, 48, X]], &[0]));
    }

    /// Bits whose last name row is 48, and bits with 48 names.
    fn bits(&mut self) {
        let one = vec![80, 3, 46, 47, 48];
        let many = [vec![80, 48], vec![48; 48]].concat();
        for (label, bits) in [("bits-48", &one), ("48-bits", &many)] {
            let run = around(&[68], bits, &LENGTH);
            self.clean(&format!("{label}-before-length"), named_to_48(declared(&[&run], &[0])));
            self.clean(&format!("{label}-before-length-argument"), named_to_48(argument(&run)));
            self.poison(&format!("behind-{label}"), &named_to_48(declared(&[&around(&[68], bits, &[48, X])], &[0])));
            self.poison(&format!("behind-{label}-argument"), &named_to_48(argument(&around(&[68], bits, &[48, NONE]))));
        }
        self.poison("behind-bits-0", &argument(&[68, 80, 0, 48, NONE]));
    }

    /// Definition numbers that are codes, or nearly NONE. In a resolved type they may be any word.
    fn definition_numbers(&mut self) {
        self.clean("definition-48-in-map", argument(&[68, 48, 48, 48, 48]));
        for (label, numbers) in [
            ("that-are-codes", [16, 64, 66, 68, 80]),
            ("near-none", [NONE - 1, NONE >> 1, NONE >> 16, NONE >> 24, NONE << 16]),
        ] {
            let (params, numbers) = ([F, M, T, P, X], numbers.map(|number| [48, number]));
            let uses = params.map(|param| [65, 48, param]);
            let all = declared(&uses.each_ref().map(|run| run.as_slice()), &[0]);
            self.clean(
                &format!("definitions-{label}"),
                given(all, &params, &numbers.each_ref().map(|run| run.as_slice())),
            );
        }
        // Such a number taken for a code would swallow the poison behind it.
        for code in [64, 66, 68, 80] {
            self.poison(&format!("behind-definition-{code}"), &argument(&[68, 48, code, 48, NONE]));
        }
        // By a name, and by its alias.
        let mut rows = declared(&[&[68, 48, M, 48, M], &[48, P]], &[0]);
        rows.model.defs.resize(49, Def::Other);
        rows.model.names[M as usize].def = 48;
        rows.model.names[P as usize].alias = Some(vec![48, 66]);
        self.clean("definition-48-by-name", rows);
    }

    /// A type expression's name row is no definition number.
    fn name_rows(&mut self) {
        let mut of_row = named_to_48(declared(&[&[48, 48], &[68, 48, 48, 48, 48]], &[2, 48, 48]));
        of_row.model.names[48].def = MESSAGE;
        self.clean("name-row-48", of_row);
        self.clean("name-row-48-is-parameter", given(named_to_48(declared(&[&[64, 48, 48]], &[0])), &[48], &[&[U8]]));
        self.poison("name-row-48", &named_to_48(declared(&[&[64, 48, 48]], &[0])));
    }

    /// The last word of a type is 48, and the next of the pool, with which something else begins, is NONE.
    fn words_behind(&mut self) {
        let mut named = named_to_48(tiny()).model;
        named.names[48].def = MESSAGE;
        for (label, model, run, returns) in [
            ("definition-48", tiny().model, &[48, 48][..], &[1, 48, 48][..]),
            ("sub-byte-48", tiny().model, &[16, 0, 48], &[1, 16, 0, 48]),
            ("name-row-48", named, &GOOD, &[2, 48, 48]),
        ] {
            self.rich(format!("held-clean-{label}-before-none"), &before_none(model, run, returns));
        }
    }
}

/// With names up to row 48.
fn named_to_48(mut rich: Rich) -> Rich {
    let texts = (b'0'..=b'z').map(|byte| vec![byte]).filter(|text| rich.model.row_of(text).is_none());
    for text in texts.take(49 - rich.model.names.len()).collect::<Vec<Vec<u8>>>() {
        rich.model.add_name(text, NONE);
    }
    rich
}

/// A message whose field has a type, and a trait whose function returns it. Behind each stands an implementation of no trait, which
/// begins with NONE; the last is the trait's.
fn before_none(mut model: Model, run: &[u32], returns: &[u32]) -> Rich {
    let implementation = |of: u32, functions: Vec<ImplFn>| {
        Def::Impl(ImplDef { of, trait_name: T, target: GOOD.into(), arguments: vec![], functions })
    };
    let declared = TraitFn { name: F, params: vec![], returns: returns.to_vec() };
    let body = Some(vec![vec![2, 1, 7, X, 6]]);
    let function = ImplFn { name: F, params: vec![], returns: Some(run.to_vec()), body };
    model.defs = vec![
        Def::Message(vec![(X, run.to_vec())]),
        implementation(NONE, vec![]),
        Def::Trait(TraitDef { name: T, params: vec![], functions: vec![declared] }),
        implementation(NONE, vec![]),
        implementation(2, vec![function]),
    ];
    model.names[T as usize].def = 2;
    Rich { model, row: 4 }
}
