//! Rich models that use every construct of document 01, aimed at one number.

use super::body::Scope;
use super::large;
use super::model::{Def, ImplDef, ImplFn, Model, Name, TraitDef, TraitFn, Words, NONE};
use super::rng::Rng;
use super::types::{self, Vocabulary, VOID};
use crate::second::{self, Call};

/// A model and one of its implementations.
#[derive(Clone)]
pub struct Rich {
    pub model: Model,
    pub row: u32,
}

/// A model whose implementation's answer should be a number from 0 to 23 but 1 to 3, or anything (None). With bulk it
/// has so many functions more.
pub fn rich(rng: &mut Rng, aim: Option<u32>, bulk: usize) -> Rich {
    let mut rich = bare(rng);
    if bulk > 0 {
        swell(rng, &mut rich.model, rich.row, bulk);
    }
    aimed(rng, &mut rich, aim);
    rich
}

/// A model whose implementations have no functions yet.
pub fn bare(rng: &mut Rng) -> Rich {
    let model = skeleton(rng);
    let row = *rng.pick(&implementations(&model));
    Rich { model, row }
}

fn implementations(model: &Model) -> Vec<u32> {
    (0..model.defs.len() as u32).filter(|row| matches!(model.defs[*row as usize], Def::Impl(_))).collect()
}

/// Gives the implementations their functions, and one of them what its number needs.
pub fn aimed(rng: &mut Rng, rich: &mut Rich, aim: Option<u32>) {
    let Rich { model, row } = rich;
    match aim {
        Some(7) => poison(rng, model, *row),
        Some(8) => large::too_large(rng, model, *row),
        Some(0) if rng.chance(6) => large::just_fits(rng, model, *row),
        _ => {}
    }
    for other in implementations(model) {
        implement(rng, model, other, if other == *row { aim } else { Some(0) });
    }
    if let Some(number) = aim {
        break_head(rng, model, *row, number);
    }
}

/// A model that should be accepted, with so many functions more, whose implementation stands in more rows until the image
/// has about so many bytes.
pub fn repeated(rng: &mut Rng, bulk: usize, bytes: usize) -> Rich {
    let mut rich = rich(rng, Some(0), bulk);
    let implementation = rich.model.defs[rich.row as usize].clone();
    let alone = rich.model.plain_image().len();
    rich.model.defs.push(implementation.clone());
    let each = rich.model.plain_image().len() - alone;
    let more = bytes.saturating_sub(alone + each) / each;
    rich.model.defs.extend(std::iter::repeat_n(implementation, more));
    rich
}

/// Names, strings, messages, aliases, traits, and implementations that have no function yet.
fn skeleton(rng: &mut Rng) -> Model {
    let mut model = Model::default();
    for _ in 0..rng.between(6, 20) {
        model.fresh_name(rng, NONE);
    }
    for _ in 0..rng.below(4) {
        let halves: Vec<&Name> = (0..2).map(|_| rng.pick(&model.names)).collect();
        let text = [halves[0].text.as_slice(), b".", halves[1].text.as_slice()].concat();
        if text.len() < 256 && model.names.iter().all(|name| name.text != text) {
            model.add_name(text, NONE);
        }
    }
    if rng.chance(2) {
        let text = (0..rng.between(250, 255)).map(|_| 32 + rng.below(95) as u8).collect();
        model.add_name(text, NONE);
    }
    for _ in 0..*rng.pick(&[0, 1, 1, 2, 2, 3, 3, 4]) {
        let text = (0..rng.below(6)).map(|_| 32 + rng.below(95) as u8).collect();
        model.strings.push(text);
    }

    let mut kinds = vec![1, 3, 4];
    kinds.extend((0..rng.below(7)).map(|_| *rng.pick(&[0, 1, 2, 2, 2, 3, 4])));
    rng.shuffle(&mut kinds);
    model.defs = kinds.iter().map(|_| Def::Other).collect();
    for row in 0..model.defs.len() as u32 {
        for _ in 0..*rng.pick(&[0, 1, 1, 1, 1, 2]) {
            let name = rng.below(model.names.len());
            model.names[name].def = row;
        }
    }
    for name in 0..model.names.len() {
        if rng.chance(30) {
            model.names[name].alias = Some(alias_type(rng, &model));
        }
    }

    // Aliases first, each over those before it, so that they end; then what refers to them.
    for (row, kind) in kinds.iter().enumerate() {
        if *kind == 2 {
            let params: Vec<u32> =
                (0..*rng.pick(&[1, 1, 1, 1, 1, 1, 0, 2, 3])).map(|_| any_name(rng, &model)).collect();
            let words = Vocabulary::of(&model);
            let target = words.expression(rng, &model, &params, 2);
            model.defs[row] = Def::Alias(params, target);
        }
    }
    let words = Vocabulary::of(&model);
    for (row, kind) in kinds.iter().enumerate() {
        match kind {
            1 => {
                let fields = (0..rng.below(5)).map(|_| {
                    let ty = if rng.chance(60) { types::simple(rng) } else { types::resolved(rng, &model, 2) };
                    (any_name(rng, &model), ty)
                });
                model.defs[row] = Def::Message(fields.collect());
            }
            3 => model.defs[row] = Def::Trait(trait_def(rng, &model, &words)),
            _ => {}
        }
    }
    let rows = |wanted: u32| {
        (0..).zip(&kinds).filter(move |(_, kind)| **kind == wanted).map(|(row, _)| row).collect::<Vec<u32>>()
    };
    for row in rows(4) {
        let of = *rng.pick(&rows(3));
        let count = match &model.defs[of as usize] {
            Def::Trait(def) => def.params.len(),
            _ => 0,
        };
        model.defs[row as usize] = Def::Impl(ImplDef {
            of,
            trait_name: any_name(rng, &model),
            target: vec![48, *rng.pick(&rows(1))],
            arguments: (0..count).map(|_| types::resolved(rng, &model, 2)).collect(),
            functions: vec![],
        });
    }
    model
}

/// Makes a model large: names, strings, fields, functions.
fn swell(rng: &mut Rng, model: &mut Model, row: u32, bulk: usize) {
    for _ in 0..4 * bulk {
        model.fresh_name(rng, NONE);
        let text = (0..rng.below(20)).map(|_| 32 + rng.below(95) as u8).collect();
        model.strings.push(text);
    }
    let words = Vocabulary::of(model);
    let target = model.impl_mut(row).target[1] as usize;
    let fields: Vec<(u32, Words)> =
        (0..3 * bulk).map(|_| (any_name(rng, model), types::resolved(rng, model, 2))).collect();
    if let Def::Message(old) = &mut model.defs[target] {
        old.extend(fields);
    }
    let params = model.trait_of(row).params.clone();
    let mut more = trait_functions(rng, model, &words, &params, bulk);
    // With so many, each return must be one that a body can have.
    more.retain(|function| {
        function.returns.len() <= 2 || Some(&function.returns[1..]) == function.params.last().map(|param| &param.1[..])
    });
    let of = model.trait_of(row);
    for function in more {
        if of.functions.iter().all(|other| other.name != function.name) {
            of.functions.push(function);
        }
    }
}

fn any_name(rng: &mut Rng, model: &Model) -> u32 {
    rng.below(model.names.len()) as u32
}

/// Aliases of every kind: a primitive, Void, Named to a row, past the rows or to poison, anything else.
pub fn alias_type(rng: &mut Rng, model: &Model) -> Words {
    match rng.below(10) {
        0..=3 => vec![rng.below(13) as u32],
        4 => vec![VOID],
        5 | 6 => vec![48, rng.below(model.defs.len()) as u32],
        7 => vec![48, *rng.pick(&[NONE, model.defs.len() as u32, 77])],
        _ => types::resolved(rng, model, 2),
    }
}

fn trait_def(rng: &mut Rng, model: &Model, words: &Vocabulary) -> TraitDef {
    let params: Vec<u32> = (0..*rng.pick(&[0, 0, 1, 1, 1, 2, 2, 3, 8])).map(|_| any_name(rng, model)).collect();
    let count = rng.below(5);
    let functions = trait_functions(rng, model, words, &params, count);
    TraitDef { name: any_name(rng, model), params, functions }
}

/// Functions with different names, as many as there are names for.
fn trait_functions(rng: &mut Rng, model: &Model, words: &Vocabulary, params: &[u32], count: usize) -> Vec<TraitFn> {
    let mut names: Vec<u32> = (0..model.names.len() as u32).collect();
    rng.shuffle(&mut names);
    names.truncate(count);
    let functions = names.into_iter().map(|name| {
        let arguments: Vec<(u32, Words)> =
            (0..rng.below(5)).map(|_| (any_name(rng, model), words.expression(rng, model, params, 3))).collect();
        // Mostly returns that some expression of a body can have.
        let returns = match (rng.below(20), arguments.last()) {
            (0..=5, _) => vec![0],
            (6, _) => vec![1, VOID],
            (7, _) => vec![2, VOID],
            (8..=10, _) => [vec![1], types::simple(rng)].concat(),
            (11, _) => [vec![1], types::resolved(rng, model, 2)].concat(),
            (12, _) => [vec![2], words.expression(rng, model, params, 2)].concat(),
            (13..=16, Some((_, expression))) => [vec![2], expression.clone()].concat(),
            _ => [vec![2], types::simple(rng)].concat(),
        };
        TraitFn { name, params: arguments, returns }
    });
    functions.collect()
}

/// Number 7: one parameter or return of the implementation's trait becomes poison.
fn poison(rng: &mut Rng, model: &mut Model, row: u32) {
    let words = Vocabulary::of(model);
    let params = model.trait_of(row).params.clone();
    let run = if rng.chance(15) { vec![48, NONE] } else { words.poisoned(rng, model, &params) };
    let of = ensure_function(rng, model, row);
    let place = rng.below(of.functions.len());
    let function = &mut of.functions[place];
    if run == [48, NONE] {
        // A resolved return can be poison by itself.
        function.returns = if rng.chance(50) { vec![1, 48, NONE] } else { vec![1, 64, 48, NONE] };
    } else if function.params.is_empty() || rng.chance(30) {
        function.returns = [vec![2], run].concat();
    } else {
        let param = rng.below(function.params.len());
        function.params[param].1 = run;
    }
}

/// The implementation's trait, which has a function at least.
pub fn ensure_function<'a>(rng: &mut Rng, model: &'a mut Model, row: u32) -> &'a mut TraitDef {
    if model.trait_of(row).functions.is_empty() {
        let name = model.fresh_name(rng, NONE);
        model.trait_of(row).functions.push(TraitFn { name, params: vec![], returns: vec![0] });
    }
    model.trait_of(row)
}

/// A signature as the trait expects it, or as it is written where it cannot be had.
pub type Signature = (u32, Vec<(u32, Words)>, Option<Words>);

/// Gives an implementation its functions: good ones, but for the one that is to be refused with 13 to 23.
pub fn implement(rng: &mut Rng, model: &mut Model, row: u32, aim: Option<u32>) {
    if matches!(aim, Some(9..=23)) || matches!(aim, Some(6)) && rng.chance(80) {
        ensure_function(rng, model, row);
    }
    let signatures = expected(model, row);
    let ImplDef { target, .. } = model.impl_mut(row).clone();
    let fields = match &model.defs[target[1] as usize] {
        Def::Message(fields) => fields.clone(),
        _ => vec![],
    };
    let faulty = rng.below(signatures.len().max(1));
    let mut functions = vec![];
    for (place, (name, params, returns)) in signatures.into_iter().enumerate() {
        let mut scope = Scope {
            locals: params.clone(),
            fields: &fields,
            target: &target,
            returns: returns.clone(),
            names: model.names.len(),
            strings: model.strings.len(),
        };
        let body = match aim {
            None => scope.any_body(rng),
            Some(number @ 13..=23) if place == faulty => scope.faulty_body(rng, number),
            _ => scope.good_body(rng),
        };
        // Void is none as a return, on both sides.
        let returns = returns.or_else(|| rng.chance(30).then(|| vec![VOID]));
        functions.push(ImplFn { name, params, returns, body: Some(body) });
    }
    rng.shuffle(&mut functions);
    model.impl_mut(row).functions = functions;
}

/// The signatures that the trait expects, by asking; the generator judges nothing, so it may ask the second reading.
pub fn expected(model: &mut Model, row: u32) -> Vec<Signature> {
    let (mut output, mut detail) = (vec![0; 65_536], [0; second::DETAIL_BYTES]);
    let image = model.plain_image();
    let answer = second::answer(Call::ExpectedSignatures, &image, row, &mut output, &mut detail);
    if answer.number != 0 {
        let functions = &model.trait_of(row).functions;
        return functions.iter().map(|function| (function.name, vec![], None)).collect();
    }
    let mut words =
        output[..answer.length as usize].chunks(4).map(|bytes| u32::from_le_bytes(bytes.try_into().unwrap()));
    let mut word = || words.next().unwrap();
    (0..word())
        .map(|_| {
            let name = word();
            let params = (0..word()).map(|_| (word(), run(&mut word))).collect();
            let returns = (word() == 1).then(|| run(&mut word));
            (name, params, returns)
        })
        .collect()
}

/// A resolved type's words, taken from where they come.
fn run(word: &mut impl FnMut() -> u32) -> Words {
    let mut words = vec![word()];
    let (own, parts) = match words[0] {
        16 => (2, 0),
        48 => (1, 0),
        66 => (2, 1),
        68 | 69 => (0, 2),
        64..=75 => (0, 1),
        80 => {
            words.push(word());
            (words[1], 0)
        }
        _ => (0, 0),
    };
    words.extend((0..own).map(|_| word()));
    for _ in 0..parts {
        words.extend(run(word));
    }
    words
}

/// What is wrong outside of bodies: numbers 4 to 6 and 9 to 12.
fn break_head(rng: &mut Rng, model: &mut Model, row: u32, number: u32) {
    let rows = model.defs.len() as u32;
    let other = rng.below(rows as usize) as u32;
    let other_is = |wanted: fn(&Def) -> bool| wanted(&model.defs[other as usize]);
    let (is_trait, is_message) =
        (other_is(|def| matches!(def, Def::Trait(_))), other_is(|def| matches!(def, Def::Message(_))));
    let stranger = if number == 10 { model.fresh_name(rng, NONE) } else { 0 };
    let simple = types::simple(rng);
    let names = model.names.len();
    let def = model.impl_mut(row);
    let place = rng.below(def.functions.len().max(1));
    match number {
        4 => {
            def.of = if is_trait { *rng.pick(&[NONE, rows, row]) } else { *rng.pick(&[other, other, NONE, 1_000_000]) }
        }
        5 => {
            def.target = match rng.below(5) {
                0 => vec![64, 48, other],
                1 => simple,
                2 => vec![48, *rng.pick(&[NONE, rows])],
                _ if is_message => vec![48, row],
                _ => vec![48, other],
            }
        }
        6 if def.functions.is_empty() || rng.chance(15) => {
            if def.arguments.is_empty() || def.arguments.len() < 8 && rng.chance(50) {
                def.arguments.push(simple);
            } else {
                def.arguments.pop();
            }
        }
        6 => {
            let function = &mut def.functions[place];
            let param = rng.below(function.params.len().max(1));
            match rng.below(5) {
                0 if function.params.len() < 32 => function.params.push((rng.below(names) as u32, simple)),
                1 if !function.params.is_empty() => drop(function.params.pop()),
                2 if !function.params.is_empty() => function.params[param].0 = rng.below(names) as u32,
                3 if !function.params.is_empty() => {
                    function.params[param].1 = alike(rng, &function.params[param].1, simple)
                }
                _ => {
                    function.returns = match &function.returns {
                        Some(run) if rng.chance(70) => Some(alike(rng, run, simple)),
                        Some(_) => None,
                        None => Some(simple),
                    }
                }
            }
        }
        9 => {
            let copy = def.functions[place].clone();
            let at = rng.below(def.functions.len() + 1);
            def.functions.insert(at, copy);
        }
        10 => {
            let mut copy = def.functions[place].clone();
            copy.name = stranger;
            let at = rng.below(def.functions.len() + 1);
            def.functions.insert(at, copy);
        }
        11 => drop(def.functions.remove(place)),
        12 => def.functions[place].body = None,
        _ => {}
    }
}

/// A type that prints alike but differs, where there is one; else another.
fn alike(rng: &mut Rng, run: &Words, other: Words) -> Words {
    match run[..] {
        [code @ 1..=4] if rng.chance(60) => vec![16, 0, 4 << code],
        [code @ 5..=8] if rng.chance(60) => vec![16, 1, 4 << (code - 4)],
        [16, 0, 8] => vec![1],
        _ if run.len() < 60 && rng.chance(30) => [vec![64], run.clone()].concat(),
        _ => other,
    }
}
