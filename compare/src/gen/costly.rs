//! Images that cost much for their size: each kind takes one bound of document 01 as far as the bytes allow. Both sides
//! accept them.

use super::large;
use super::model::{Def, ImplDef, ImplFn, Model, TraitDef, TraitFn, Words, NONE};
use super::rng::Rng;
use super::types;

/// A model that grows with a number from 0, up to the kind's bounds.
type Kind = fn(usize) -> Option<Model>;

/// The row to ask.
pub const ROW: u32 = 2;

/// Names that every model has: a field of i64, a function's parameter, two fields' names besides.
const FIELD: u32 = 0;
const PARAM: u32 = 1;
const OTHER: u32 = 2;
const TRAIT: u32 = 3;

const I64: u32 = 8;

const NAMES: usize = 1_024;
const FUNCTIONS: usize = 64;
const PARAMS: usize = 32;
const STATEMENTS: usize = 256;
const FIELDS: usize = 256;

pub const KINDS: [(&str, Kind); 8] = [
    ("1,024 names", names),
    ("1,024 names of one number", alike),
    ("bodies of 256 statements", statements),
    ("256 fields", fields),
    ("nesting 32", nesting),
    ("types of 64 words", types_of_64),
    ("alias expansion of 1,024 visits", visits),
    ("qualified names", qualified),
];

/// The largest image of a kind within so many bytes, if there is one.
pub fn costly(kind: Kind, bytes: usize) -> Option<Vec<u8>> {
    let image = |scale: usize| kind(scale).map(|model| model.plain_image()).filter(|image| image.len() <= bytes);
    let (mut fits, mut past) = (0, 1);
    while image(past).is_some() {
        (fits, past) = (past, 2 * past);
    }
    while past - fits > 1 {
        let middle = (fits + past) / 2;
        if image(middle).is_some() {
            fits = middle;
        } else {
            past = middle;
        }
    }
    (fits > 0).then(|| image(fits)).flatten()
}

/// A message, a trait and an implementation of it, without functions.
fn base() -> Model {
    let mut model = Model::default();
    for text in ["f", "p", "o", "t"] {
        model.add_name(text.into(), NONE);
    }
    model.add_def(Def::Message(vec![(FIELD, vec![I64])]));
    let of = model.add_def(Def::Trait(TraitDef { name: TRAIT, params: vec![], functions: vec![] }));
    let functions = vec![];
    model.add_def(Def::Impl(ImplDef { of, trait_name: TRAIT, target: vec![48, 0], arguments: vec![], functions }));
    model
}

/// One more function: parameters as the trait writes them and as they are, and a body.
fn function(model: &mut Model, params: Vec<(Words, Words)>, body: Vec<Words>) {
    let name = model.names.len();
    let name = model.add_name(format!("g{name}").into(), NONE);
    let (written, types): (Vec<_>, Vec<_>) = params.into_iter().map(|(by, is)| ((PARAM, by), (PARAM, is))).unzip();
    model.trait_of(ROW).functions.push(TraitFn { name, params: written, returns: vec![0] });
    model.impl_mut(ROW).functions.push(ImplFn { name, params: types, returns: None, body: Some(body) });
}

/// So many statements, in as few functions as can have them.
fn bodies(model: &mut Model, statements: Vec<Words>) -> Option<()> {
    for body in statements.chunks(STATEMENTS) {
        function(model, vec![], body.to_vec());
    }
    (statements.len() <= FUNCTIONS * STATEMENTS).then_some(())
}

/// So many parameters, in as few functions as can have them.
fn signatures(model: &mut Model, params: Vec<(Words, Words)>) -> Option<()> {
    for params in params.chunks(PARAMS) {
        function(model, params.to_vec(), vec![]);
    }
    (params.len() <= FUNCTIONS * PARAMS && model.names.len() <= NAMES).then_some(())
}

/// self.f = self.f
fn assign() -> Words {
    vec![3, 7, FIELD, 6, 7, FIELD, 6]
}

/// More names, then longer ones, with one function.
fn named(scale: usize, text: impl Fn(usize) -> String) -> Option<Model> {
    let mut model = base();
    function(&mut model, vec![], vec![assign()]);
    let (count, longer) = (scale.min(NAMES - model.names.len()), scale.saturating_sub(NAMES));
    for name in 0..count {
        model.add_name(format!("{}{}", "_".repeat(longer), text(name)).into(), NONE);
    }
    model.names.iter().all(|name| name.text.len() < 256).then_some(model)
}

fn names(scale: usize) -> Option<Model> {
    let letter = |place: usize| char::from(b'A' + (place % 26) as u8);
    named(scale, |name| [name / 676, name / 26, name].map(letter).iter().collect())
}

/// "Aa" and "BB" are one number to base 31, and so is whatever is made of them.
fn alike(scale: usize) -> Option<Model> {
    named(scale, |name| (0..10).map(|bit| if name >> bit & 1 == 0 { "Aa" } else { "BB" }).collect())
}

fn statements(scale: usize) -> Option<Model> {
    let mut model = base();
    bodies(&mut model, vec![assign(); scale])?;
    Some(model)
}

/// As many fields as statements; the one that is asked for stands first, and the last of a name wins.
fn fields(scale: usize) -> Option<Model> {
    let mut model = base();
    if let Def::Message(fields) = &mut model.defs[0] {
        fields.resize(FIELDS.min(scale), (OTHER, vec![I64]));
    }
    bodies(&mut model, vec![assign(); scale])?;
    Some(model)
}

/// Sums to the left and to the right, and a number negated over and over; a field is two levels.
fn nesting(scale: usize) -> Option<Model> {
    let field = [7, FIELD, 6];
    let values = [
        [[10, 0].repeat(30), field.repeat(31)].concat(),
        [[[10, 0].as_slice(), &field].concat().repeat(30), field.to_vec()].concat(),
        [[10, 0].repeat(31), [0, 1, 0].repeat(32)].concat(),
        [[11, 0].repeat(30), field.to_vec()].concat(),
    ];
    let statements = values.into_iter().cycle().take(scale).map(|value| [vec![3, 7, FIELD, 6], value].concat());
    let mut model = base();
    bodies(&mut model, statements.collect())?;
    Some(model)
}

/// Types in one another, and types of many parts, by turns.
fn types_of_64(scale: usize) -> Option<Model> {
    let mut rng = Rng::new(64);
    let mut model = base();
    let params = (0..scale).map(|place| {
        let run = if place % 2 == 0 { [vec![64; 63], vec![I64]].concat() } else { types::of_words(&mut rng, 64) };
        (run.clone(), run)
    });
    let params = params.collect();
    signatures(&mut model, params)?;
    Some(model)
}

fn visits(scale: usize) -> Option<Model> {
    let mut rng = Rng::new(8);
    let mut model = base();
    // Optional<B9<i64>>, with B9's own expansion as long as it can be.
    let (name, visits) = *large::ladder(&mut rng, &mut model, 9).last()?;
    let written = [vec![64; large::VISITS - 2 - visits], vec![50, name, I64]].concat();
    let resolved = [vec![64; large::VISITS - 2 - visits], vec![I64]].concat();
    signatures(&mut model, vec![(written, resolved); scale])?;
    Some(model)
}

/// Each namespace with each name is a name; all are asked for, over and over where there is room.
fn qualified(scale: usize) -> Option<Model> {
    const SIDE: usize = 29;
    let mut model = base();
    let count = scale.min(SIDE * SIDE);
    let halves = |model: &mut Model, letter: char, count: usize| -> Vec<u32> {
        (0..count).map(|place| model.add_name(format!("{letter}{place}").into(), NONE)).collect()
    };
    let left = halves(&mut model, 'l', count.div_ceil(SIDE));
    let right = halves(&mut model, 'r', count.min(SIDE));
    for place in 0..count {
        model.add_name(format!("l{}.r{}", place / SIDE, place % SIDE).into(), 0);
    }
    let asked = (0..scale).map(|place| place % count);
    let params = asked.map(|place| (vec![49, left[place / SIDE], right[place % SIDE]], vec![48, 0]));
    signatures(&mut model, params.collect())?;
    Some(model)
}

#[cfg(test)]
mod tests {
    use super::*;
    use crate::case::Case;
    use crate::second::{Call, DETAIL_BYTES};

    #[test]
    fn both_sides_accept_them() {
        for (label, kind) in KINDS {
            let mut last = 0;
            for bytes in [1_024, 4_096, 16_384, 65_536] {
                let image = costly(kind, bytes).unwrap_or_else(|| panic!("{label} has an image of {bytes} bytes"));
                assert!(image.len() > last, "{label} grows");
                last = image.len();
                let loaded = oracle::load(&image).unwrap_or_else(|why| panic!("{label} is loaded: {why}"));
                assert_eq!(loaded.accepts_impl(ROW), Some(true), "{label} at {bytes}");
                let case =
                    Case { call: Call::ProjectImpl, image: image.into(), row: ROW, output: 0, detail: DETAIL_BYTES };
                assert!(super::super::needed(&case).is_some(), "{label} at {bytes}");
            }
        }
    }
}
