//! Every bound of document 01 as a change to a model: at the bound, or one past it.

use super::model::{Def, ImplFn, TraitFn, Words, NONE};
use super::rich::{ensure_function, implement, Rich};
use super::rng::Rng;
use super::types;

/// A change that brings something to its bound and `past` (0 or 1) beyond it.
pub type Bound = fn(&mut Rng, &mut Rich, past: usize);

pub const BOUNDS: [(&str, Bound); 38] = [
    ("names", names),
    ("strings", strings),
    ("definitions", definitions),
    ("trait-functions", trait_functions),
    ("impl-functions", impl_functions),
    ("trait-parameters", trait_parameters),
    ("impl-parameters", impl_parameters),
    ("call-arguments", |rng, rich, past| {
        in_body(rng, rich, [vec![8, 0, 32 + past as u32], vec![6; 32 + past]].concat())
    }),
    ("method-arguments", |rng, rich, past| {
        in_body(rng, rich, [vec![9, 0, 0, 32 + past as u32], vec![6; 33 + past]].concat())
    }),
    ("lets", lets),
    ("lets-after-return", lets_after_return),
    ("statements", statements),
    ("fields", fields),
    ("trait-type-parameters", trait_type_parameters),
    ("alias-type-parameters", alias_type_parameters),
    ("type-arguments", type_arguments),
    ("bit-names", |rng, rich, past| let_type(rng, rich, [vec![80, 62 + past as u32], vec![0; 62 + past]].concat())),
    ("bits-empty", |rng, rich, past| let_type(rng, rich, if past == 0 { vec![80, 0] } else { vec![80, NONE] })),
    ("run-let", |rng, rich, past| {
        let run = types::of_words(rng, 64 + past);
        let_type(rng, rich, run)
    }),
    ("run-alias", run_alias),
    ("run-field", run_field),
    ("run-argument", run_argument),
    ("run-target", |rng, rich, past| {
        let run = types::of_words(rng, 64 + past);
        rich.model.impl_mut(rich.row).target = run;
    }),
    ("run-impl-parameter", run_impl_parameter),
    ("run-impl-return", run_impl_return),
    ("run-trait-parameter", run_trait_parameter),
    ("run-trait-return", run_trait_return),
    ("run-alias-target", run_alias_target),
    ("nesting-unary", |rng, rich, past| in_body(rng, rich, [[11, 0].repeat(31 + past), vec![0, 1, 0]].concat())),
    ("nesting-binary", |rng, rich, past| {
        in_body(rng, rich, [[10, 0].repeat(31 + past), [0, 1, 0].repeat(32 + past)].concat())
    }),
    ("nesting-binary-right", |rng, rich, past| {
        in_body(rng, rich, [[10, 0, 0, 1, 0].repeat(31 + past), vec![0, 1, 0]].concat())
    }),
    ("nesting-field", |rng, rich, past| in_body(rng, rich, [[7, 0].repeat(31 + past), vec![6]].concat())),
    ("nesting-call", |rng, rich, past| in_body(rng, rich, [[8, 0, 1].repeat(31 + past), vec![6]].concat())),
    ("nesting-method", |rng, rich, past| in_body(rng, rich, [[9, 0, 0, 0].repeat(31 + past), vec![6]].concat())),
    ("nesting-target", |rng, rich, past| {
        add_statement(rng, rich, [vec![3], [7, 0].repeat(31 + past), vec![6], vec![6]].concat())
    }),
    ("name-length", name_length),
    ("function-twice", function_twice),
    ("name-twice", name_twice),
];

/// A name that costs nothing to find: no other name starts so.
fn cheap_name(rich: &mut Rich) -> u32 {
    let text = format!("_{}", rich.model.names.len());
    rich.model.add_name(text.into(), NONE)
}

fn names(_: &mut Rng, rich: &mut Rich, past: usize) {
    while rich.model.names.len() < 1_024 + past {
        cheap_name(rich);
    }
}

fn strings(_: &mut Rng, rich: &mut Rich, past: usize) {
    rich.model.strings.resize(1_024 + past, b"s".to_vec());
}

fn definitions(_: &mut Rng, rich: &mut Rich, past: usize) {
    rich.model.defs.resize(256 + past, Def::Other);
}

fn trait_functions(rng: &mut Rng, rich: &mut Rich, past: usize) {
    while rich.model.trait_of(rich.row).functions.len() < 64 + past {
        let name = cheap_name(rich);
        rich.model.trait_of(rich.row).functions.push(TraitFn { name, params: vec![], returns: vec![0] });
    }
    implement(rng, &mut rich.model, rich.row, Some(0));
}

fn impl_functions(_: &mut Rng, rich: &mut Rich, past: usize) {
    while rich.model.impl_mut(rich.row).functions.len() < 64 + past {
        let name = cheap_name(rich);
        let function = ImplFn { name, params: vec![], returns: None, body: None };
        rich.model.impl_mut(rich.row).functions.push(function);
    }
}

fn trait_parameters(rng: &mut Rng, rich: &mut Rich, past: usize) {
    let name = rng.below(rich.model.names.len()) as u32;
    ensure_function(rng, &mut rich.model, rich.row).functions[0].params.resize(32 + past, (name, vec![1]));
    implement(rng, &mut rich.model, rich.row, Some(0));
}

/// The implementation's first function, which it has at least.
fn function<'a>(rng: &mut Rng, rich: &'a mut Rich) -> &'a mut ImplFn {
    if rich.model.impl_mut(rich.row).functions.is_empty() {
        implement(rng, &mut rich.model, rich.row, Some(9));
    }
    &mut rich.model.impl_mut(rich.row).functions[0]
}

fn impl_parameters(rng: &mut Rng, rich: &mut Rich, past: usize) {
    function(rng, rich).params.resize(32 + past, (0, vec![1]));
}

fn body<'a>(rng: &mut Rng, rich: &'a mut Rich) -> &'a mut Vec<Words> {
    function(rng, rich).body.get_or_insert_with(Vec::new)
}

fn add_statement(rng: &mut Rng, rich: &mut Rich, statement: Words) {
    body(rng, rich).insert(0, statement);
}

/// An expression as the value of a new let.
fn in_body(rng: &mut Rng, rich: &mut Rich, expression: Words) {
    let name = cheap_name(rich);
    add_statement(rng, rich, [vec![1, name, 0], expression].concat());
}

/// A let with a written type; its value is a literal, so that types other than numbers give 20.
fn let_type(rng: &mut Rng, rich: &mut Rich, run: Words) {
    let name = cheap_name(rich);
    add_statement(rng, rich, [vec![1, name, 1], run, vec![0, 1, 0]].concat());
}

fn lets(rng: &mut Rng, rich: &mut Rich, past: usize) {
    let is_let = |statement: &&Words| statement[0] == 1;
    while body(rng, rich).iter().filter(is_let).count() < 32 + past {
        in_body(rng, rich, vec![3, 1]);
    }
}

/// Lets count where they are stored, also behind a Return.
fn lets_after_return(rng: &mut Rng, rich: &mut Rich, past: usize) {
    let later = vec![vec![1, 0, 0, 6]; 32 + past];
    *body(rng, rich) = [vec![vec![2, 0]], later].concat();
}

fn statements(rng: &mut Rng, rich: &mut Rich, past: usize) {
    let field = message(rich).first().map_or(0, |field| field.0);
    let body = body(rng, rich);
    while body.len() < 256 + past {
        body.insert(0, vec![3, 7, field, 6, 7, field, 6]);
    }
}

/// The message that the implementation is for.
fn message(rich: &mut Rich) -> &mut Vec<(u32, Words)> {
    let row = rich.model.impl_mut(rich.row).target[1];
    match &mut rich.model.defs[row as usize] {
        Def::Message(fields) => fields,
        _ => panic!("row {row} is no message"),
    }
}

fn fields(_: &mut Rng, rich: &mut Rich, past: usize) {
    message(rich).resize(256 + past, (0, vec![1]));
}

fn trait_type_parameters(_: &mut Rng, rich: &mut Rich, past: usize) {
    rich.model.trait_of(rich.row).params.resize(8 + past, 0);
    rich.model.impl_mut(rich.row).arguments.resize(8, vec![1]);
}

fn alias_type_parameters(_: &mut Rng, rich: &mut Rich, past: usize) {
    rich.model.add_def(Def::Alias(vec![0; 8 + past], vec![1]));
}

fn type_arguments(_: &mut Rng, rich: &mut Rich, past: usize) {
    rich.model.trait_of(rich.row).params.resize(8, 0);
    rich.model.impl_mut(rich.row).arguments.resize(8 + past, vec![1]);
}

fn run_alias(rng: &mut Rng, rich: &mut Rich, past: usize) {
    let name = cheap_name(rich);
    rich.model.names[name as usize].alias = Some(types::of_words(rng, 64 + past));
}

fn run_field(rng: &mut Rng, rich: &mut Rich, past: usize) {
    let run = types::of_words(rng, 64 + past);
    message(rich).push((0, run));
}

/// An argument of 64 words stands for a parameter as it is.
fn run_argument(rng: &mut Rng, rich: &mut Rich, past: usize) {
    let (param, name) = (cheap_name(rich), cheap_name(rich));
    let of = ensure_function(rng, &mut rich.model, rich.row);
    of.params.truncate(7);
    of.params.push(param);
    let count = of.params.len();
    of.functions[0].params.truncate(31);
    of.functions[0].params.push((name, vec![48, param]));
    let run = types::of_words(rng, 64 + past);
    let arguments = &mut rich.model.impl_mut(rich.row).arguments;
    arguments.resize(count - 1, vec![1]);
    arguments.push(run);
    implement(rng, &mut rich.model, rich.row, Some(0));
}

fn run_impl_parameter(rng: &mut Rng, rich: &mut Rich, past: usize) {
    let run = types::of_words(rng, 64 + past);
    let params = &mut function(rng, rich).params;
    match params.first_mut() {
        Some(param) => param.1 = run,
        None => params.push((0, run)),
    }
}

fn run_impl_return(rng: &mut Rng, rich: &mut Rich, past: usize) {
    let run = types::of_words(rng, 64 + past);
    function(rng, rich).returns = Some(run);
}

fn run_trait_parameter(rng: &mut Rng, rich: &mut Rich, past: usize) {
    let name = cheap_name(rich);
    let run = types::of_words(rng, 64 + past);
    let params = &mut ensure_function(rng, &mut rich.model, rich.row).functions[0].params;
    params.truncate(31);
    params.push((name, run));
    implement(rng, &mut rich.model, rich.row, Some(0));
}

fn run_trait_return(rng: &mut Rng, rich: &mut Rich, past: usize) {
    let run = types::of_words(rng, 64 + past);
    let form = rng.between(1, 2) as u32;
    ensure_function(rng, &mut rich.model, rich.row).functions[0].returns = [vec![form], run].concat();
    implement(rng, &mut rich.model, rich.row, Some(0));
}

fn run_alias_target(rng: &mut Rng, rich: &mut Rich, past: usize) {
    let run = types::of_words(rng, 64 + past);
    rich.model.add_def(Def::Alias(vec![0], run));
}

fn name_length(_: &mut Rng, rich: &mut Rich, past: usize) {
    rich.model.add_name(vec![b'n'; 255 + past], NONE);
}

/// At the bound two functions with different names; past it the same name.
fn function_twice(rng: &mut Rng, rich: &mut Rich, past: usize) {
    let name = cheap_name(rich);
    let mut copy = ensure_function(rng, &mut rich.model, rich.row).functions[0].clone();
    if past == 0 {
        copy.name = name;
    }
    rich.model.trait_of(rich.row).functions.truncate(63);
    rich.model.trait_of(rich.row).functions.push(copy);
    implement(rng, &mut rich.model, rich.row, Some(0));
}

fn name_twice(rng: &mut Rng, rich: &mut Rich, past: usize) {
    let mut text = rng.pick(&rich.model.names).text.clone();
    if past == 0 {
        text = [b"_", text.as_slice()].concat();
    }
    rich.model.add_name(text, NONE);
}
