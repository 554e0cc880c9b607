//! Type expressions at the limits of substitution: 1,024 visits, 64 words, cycles and doubling.

use super::model::{Def, Model, TraitFn, Words, NONE};
use super::rich::ensure_function;
use super::rng::Rng;
use super::types;

pub const VISITS: usize = 1_024;
pub const WORDS: usize = 64;

/// Number 8, in one of its ways.
pub fn too_large(rng: &mut Rng, model: &mut Model, row: u32) {
    let expression = match rng.below(8) {
        0 | 1 => {
            let past = VISITS + rng.between(1, 3);
            visits(rng, model, past)
        }
        2 | 3 => {
            let past = WORDS + rng.between(1, 3);
            words(rng, model, past)
        }
        4 => doubled(rng, model),
        5 => dropped(rng, model, WORDS + 1),
        _ => cyclic(rng, model),
    };
    place(rng, model, row, expression);
}

/// The largest that is accepted, or nearly.
pub fn just_fits(rng: &mut Rng, model: &mut Model, row: u32) {
    let expression = if rng.chance(50) {
        let least = VISITS - rng.below(3);
        visits(rng, model, least)
    } else if rng.chance(50) {
        let least = WORDS - rng.below(3);
        words(rng, model, least)
    } else {
        dropped(rng, model, WORDS)
    };
    place(rng, model, row, expression);
}

/// Puts an expression where the implementation's trait has a parameter or a return.
pub fn place(rng: &mut Rng, model: &mut Model, row: u32, expression: Words) {
    let param = model.fresh_name(rng, NONE);
    let of = ensure_function(rng, model, row);
    let place = rng.below(of.functions.len());
    let TraitFn { params, returns, .. } = &mut of.functions[place];
    if rng.chance(25) {
        *returns = [vec![2], expression].concat();
    } else {
        params.insert(rng.below(params.len() + 1), (param, expression));
    }
}

/// A one-parameter alias: the name of it, and of its parameter within its target.
pub fn alias(rng: &mut Rng, model: &mut Model, target: impl FnOnce(u32, u32) -> Words) -> u32 {
    let param = model.fresh_name(rng, NONE);
    let row = model.add_def(Def::Other);
    let name = model.fresh_name(rng, row);
    model.defs[row as usize] = Def::Alias(vec![param], target(name, param));
    name
}

/// B0<T> = T and Bn<T> = Bm<Bm<T>> with m = n - 1: the visits of the target are 1, 5, 13 and so on; the type stays T.
pub fn ladder(rng: &mut Rng, model: &mut Model, rungs: usize) -> Vec<(u32, usize)> {
    let mut ladder = vec![(alias(rng, model, |_, param| vec![48, param]), 1)];
    while ladder.len() < rungs {
        let (below, visits) = ladder[ladder.len() - 1];
        ladder.push((alias(rng, model, |_, param| vec![50, below, 50, below, 48, param]), 3 + 2 * visits));
    }
    ladder
}

/// An expression of exactly so many visits, by a ladder of aliases.
pub fn visits(rng: &mut Rng, model: &mut Model, count: usize) -> Words {
    let ladder = ladder(rng, model, 9);
    climb(rng, &ladder, count)
}

fn climb(rng: &mut Rng, ladder: &[(u32, usize)], count: usize) -> Words {
    // A Generic's visits are 1, its argument's, its target's.
    let fitting = ladder.iter().rev().find(|(_, visits)| visits + 2 <= count);
    match fitting {
        _ if count == 1 => vec![rng.below(13) as u32],
        Some((name, visits)) => [vec![50, *name], climb(rng, ladder, count - 1 - visits)].concat(),
        None => [vec![64], climb(rng, ladder, count - 1)].concat(),
    }
}

/// An expression whose type has exactly so many words, over 10, by an alias D<T> = Map<T, T>.
pub fn words(rng: &mut Rng, model: &mut Model, count: usize) -> Words {
    let double = alias(rng, model, |_, param| vec![68, 48, param, 48, param]);
    let half = rng.between(4, (count - 1) / 2);
    let rest = count - 1 - 2 * half;
    [vec![64; rest], vec![50, double], types::of_words(rng, half)].concat()
}

/// D<D<D<.. u8>>> with D<T> = Result<T, T>: too large, but not so large that a wrong answer would end the run.
fn doubled(rng: &mut Rng, model: &mut Model) -> Words {
    let double = alias(rng, model, |_, param| vec![69, 48, param, 48, param]);
    let times = rng.between(6, 14);
    [[50, double].repeat(times), vec![1]].concat()
}

/// An argument of so many words that its alias drops, beside a type of one word.
pub fn dropped(rng: &mut Rng, model: &mut Model, count: usize) -> Words {
    let argument = words(rng, model, count);
    let drops = alias(rng, model, |_, _| vec![1]);
    [vec![50, drops], argument].concat()
}

/// Aliases that never end.
pub fn cyclic(rng: &mut Rng, model: &mut Model) -> Words {
    let name = match rng.below(5) {
        0 => alias(rng, model, |name, param| vec![50, name, 48, param]),
        1 => alias(rng, model, |name, param| vec![64, 50, name, 48, param]),
        2 => alias(rng, model, |name, param| vec![50, name, 50, name, 48, param]),
        3 => alias(rng, model, |name, param| vec![68, 48, param, 50, name, 48, param]),
        _ => {
            let one = alias(rng, model, |_, param| vec![48, param]);
            let two = alias(rng, model, |_, param| vec![50, one, 48, param]);
            let back = model.names[one as usize].def as usize;
            if let Def::Alias(params, target) = &mut model.defs[back] {
                *target = vec![50, two, 48, params[0]];
            }
            one
        }
    };
    vec![50, name, 1]
}
