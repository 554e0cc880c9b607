//! Models about held types: poison at any depth, words that look like it, types as long as can be and types that differ in one
//! word, wherever a type stands.

use super::halves;
use super::large::{self, WORDS};
use super::model::{Def, Model, Words, NONE};
use super::rich::{aimed, bare, ensure_function, Rich};
use super::rng::Rng;
use super::tiny::tiny;
use super::types::{Vocabulary, ONE_PART};

/// A row of this number has a name that looks like the code of Named.
const NAMED: usize = 48;

/// Low and high words of lengths that look like poison, or like what could swallow it.
const LENGTHS: [[u32; 2]; 8] =
    [[48, NONE], [48, NONE], [48, NONE], [NONE, 48], [0, 48], [66, 0], [48, 48], [NONE, NONE]];

/// A model aimed at a number. Under 0 what the trait expects often has poison, or differs in one word from what is found.
pub fn any(rng: &mut Rng, aim: u32) -> Rich {
    let mut rich = if rng.chance(30) { tiny() } else { bare(rng) };
    if rng.chance(40) {
        while rich.model.names.len() <= NAMED {
            rich.model.fresh_name(rng, NONE);
        }
    }
    fields(rng, &mut rich);
    arguments(rng, &mut rich);
    let poisoned = aim == 0 && rng.chance(30);
    for count in 0..rng.between(1, 3) {
        let expression = expression(rng, &mut rich, poisoned && count == 0);
        halves::place(rng, &mut rich.model, rich.row, expression);
    }
    if rng.chance(20) {
        let run = resolved(rng, &rich.model, if poisoned { 50 } else { 5 });
        let functions = &mut ensure_function(rng, &mut rich.model, rich.row).functions;
        let place = rng.below(functions.len());
        functions[place].returns = [vec![1], run.clone()].concat();
        add_field(rng, &mut rich, run);
    }
    aimed(rng, &mut rich, Some(aim));
    if aim == 0 && rng.chance(30) {
        differ(rng, &mut rich);
    }
    rich
}

/// As many words as a type can have or nearly, one time in three.
fn size(rng: &mut Rng) -> usize {
    *rng.pick(&[WORDS, WORDS, WORDS - 1, 2, 3, 4, 6, 9, 16])
}

/// Containers around a leaf, of so many words with it; as often as not the leaf is the last.
fn around(rng: &mut Rng, leaf: &[u32], words: usize, beside: impl Fn(&mut Rng) -> Words) -> Words {
    let (mut before, mut behind, last) = (vec![], vec![], rng.chance(50));
    loop {
        let room = words.saturating_sub(before.len() + leaf.len() + behind.len());
        let other = beside(rng);
        match rng.below(5) {
            _ if room == 0 => return [&before, leaf, &behind].concat(),
            0 if room > 2 => before.extend([&[66], rng.pick(&LENGTHS).as_slice()].concat()),
            1 if !last && room > other.len() => {
                before.push(68 + rng.below(2) as u32);
                behind = [other, behind].concat();
            }
            2 if room > other.len() => {
                before.push(68 + rng.below(2) as u32);
                before.extend(other);
            }
            _ => before.push(*rng.pick(&ONE_PART)),
        }
    }
}

/// A type beside, resolved or not, whose words look like poison or like codes.
fn beside(rng: &mut Rng, names: usize) -> Words {
    let last = (names - 1).min(NAMED) as u32;
    match rng.below(8) {
        0 => vec![66, 48, NONE, 1],
        1 => vec![16, rng.below(2) as u32, *rng.pick(&[48, 64])],
        2 => vec![80, 1, last],
        3 => [vec![80, 3], (0..2).map(|_| rng.below(names) as u32).collect(), vec![last]].concat(),
        _ => vec![rng.below(14) as u32],
    }
}

/// A resolved type; with poison so many times of a hundred.
fn resolved(rng: &mut Rng, model: &Model, poison: usize) -> Words {
    let any = rng.below(model.defs.len()) as u32;
    let leaf = match rng.chance(poison) {
        true => vec![48, NONE],
        false => vec![48, *rng.pick(&[any, any, 48, 64, 66, 80])],
    };
    let (words, names) = (size(rng), model.names.len());
    around(rng, &leaf, words, |rng| match rng.chance(20) {
        true => vec![48, *rng.pick(&[any, 48, 66, 80])],
        false => beside(rng, names),
    })
}

/// More fields of the message: some of one type, and of one that differs in a word.
fn fields(rng: &mut Rng, rich: &mut Rich) {
    let run = resolved(rng, &rich.model, 60);
    let other = one_word_off(rng, &run, rich.model.names.len());
    let runs: Vec<Words> = (0..rng.between(1, 3)).map(|_| rng.pick(&[&run, &run, &other]).to_vec()).collect();
    for run in runs {
        add_field(rng, rich, run);
    }
}

fn add_field(rng: &mut Rng, rich: &mut Rich, run: Words) {
    let name = rich.model.fresh_name(rng, NONE);
    let target = rich.model.impl_mut(rich.row).target[1] as usize;
    if let Def::Message(fields) = &mut rich.model.defs[target] {
        fields.push((name, run));
    }
}

/// Other type arguments, and at times one more.
fn arguments(rng: &mut Rng, rich: &mut Rich) {
    if rich.model.trait_of(rich.row).params.len() < 8 && rng.chance(60) {
        let param = rich.model.fresh_name(rng, NONE);
        rich.model.trait_of(rich.row).params.push(param);
        rich.model.impl_mut(rich.row).arguments.push(vec![1]);
    }
    for place in 0..rich.model.impl_mut(rich.row).arguments.len() {
        if rng.chance(50) {
            let run = resolved(rng, &rich.model, 30);
            rich.model.impl_mut(rich.row).arguments[place] = run;
        }
    }
}

/// A type expression that has poison or, but for what a type argument brings, none: as it is, or by an alias that keeps it, drops
/// other poison, or has it in its target.
fn expression(rng: &mut Rng, rich: &mut Rich, poisoned: bool) -> Words {
    let (words, names) = (Vocabulary::of(&rich.model), rich.model.names.len());
    let params = rich.model.trait_of(rich.row).params.clone();
    let any_poison = words.poison.first().map_or(vec![48, 0], |_| rng.pick(&words.poison).clone());
    if !poisoned && !params.is_empty() && rng.chance(40) {
        // An argument may have 64 words itself.
        let (param, room) = (*rng.pick(&params), *rng.pick(&[2, 2, 2, 3, 5]));
        return around(rng, &[48, param], room, |rng| beside(rng, names));
    }
    let leaf = match words.named.as_slice() {
        _ if poisoned => any_poison.clone(),
        [] => vec![1],
        named => vec![48, *rng.pick(named)],
    };
    let whole = size(rng);
    let make = |rng: &mut Rng, leaf: &[u32], words: usize| around(rng, leaf, words, |rng| beside(rng, names));
    match rng.below(5) {
        0 => {
            // In the target the argument's words stand for the two of its parameter.
            let part = rng.between(2, whole.clamp(2, WORDS - 2));
            let argument = make(rng, &leaf, part);
            let alias = large::alias(rng, &mut rich.model, |_, param| vec![48, param]);
            let row = rich.model.names[alias as usize].def as usize;
            if let Def::Alias(params, target) = &mut rich.model.defs[row] {
                *target = make(rng, &[48, params[0]], (whole + 2).saturating_sub(argument.len()));
            }
            [vec![50, alias], argument].concat()
        }
        1 if !poisoned => {
            let dropped = make(rng, &any_poison, whole.min(WORDS - 2));
            let target = make(rng, &leaf, 4);
            let alias = large::alias(rng, &mut rich.model, |_, _| target);
            [vec![50, alias], dropped].concat()
        }
        2 => {
            let argument = beside(rng, names);
            let target = make(rng, &leaf, whole.saturating_sub(1 + argument.len()).min(WORDS - 3));
            let alias = large::alias(rng, &mut rich.model, |_, param| [vec![68, 48, param], target].concat());
            [vec![50, alias], argument].concat()
        }
        _ => make(rng, &leaf, whole),
    }
}

/// A type that differs in one word from what it was or should be: a parameter's or a return's, often the longest; or a field's, which
/// a body binds.
fn differ(rng: &mut Rng, rich: &mut Rich) {
    let (name, names) = (rich.model.fresh_name(rng, NONE), rich.model.names.len());
    let target = rich.model.impl_mut(rich.row).target[1] as usize;
    let fields = match &rich.model.defs[target] {
        Def::Message(fields) => fields.clone(),
        _ => vec![],
    };
    let functions = &mut rich.model.impl_mut(rich.row).functions;
    let place = rng.below(functions.len());
    if let (Some(body), Some((field, run)), true) = (&mut functions[place].body, fields.last(), rng.chance(40)) {
        let written = one_word_off(rng, run, names);
        body.insert(0, [vec![1, name, 1], written, vec![7, *field, 6]].concat());
        return;
    }
    let mut runs: Vec<&mut Words> = functions
        .iter_mut()
        .flat_map(|function| function.params.iter_mut().map(|param| &mut param.1).chain(&mut function.returns))
        .collect();
    if rng.chance(50) {
        runs.sort_by_key(|run| run.len());
    } else {
        rng.shuffle(&mut runs);
    }
    if let Some(run) = runs.pop() {
        *run = one_word_off(rng, run, names);
    }
}

/// The type with another word in its first place that can have one, its last, or any.
fn one_word_off(rng: &mut Rng, run: &[u32], names: usize) -> Words {
    let others = others(run, names);
    let (any, last) = (rng.below(others.len().max(1)), others.len().saturating_sub(1));
    let mut run = run.to_vec();
    // Bits without names have no such word.
    if let Some((at, word)) = others.get(*rng.pick(&[0, last, any])) {
        run[*at] = *word;
    }
    run
}

/// For each word that can be another with all else kept, such a word.
fn others(run: &[u32], names: usize) -> Vec<(usize, u32)> {
    let (mut others, mut at) = (vec![], 0);
    while at < run.len() {
        let behind = |step: usize| run[at + step];
        let (own, found): (usize, Vec<(usize, u32)>) = match run[at] {
            code @ 0..=13 => (1, vec![(0, (code + 1) % 14)]),
            16 => (3, vec![(1, 1 - behind(1)), (2, behind(2) % 64 + 1)]),
            code @ 32..=37 => (1, vec![(0, 32 + (code - 31) % 6)]),
            48 => (2, vec![(1, behind(1).wrapping_add(1)), (1, if behind(1) == NONE { 0 } else { NONE })]),
            66 => (3, vec![(1, behind(1).wrapping_add(1)), (2, !behind(2))]),
            code @ (68 | 69) => (1, vec![(0, 137 - code)]),
            80 => {
                let count = behind(1) as usize;
                (2 + count, (2..2 + count).map(|step| (step, (behind(step) + 1) % names as u32)).collect())
            }
            code => {
                let place = ONE_PART.iter().position(|other| *other == code).unwrap_or(0);
                (1, vec![(0, ONE_PART[(place + 1) % ONE_PART.len()])])
            }
        };
        others.extend(found.into_iter().map(|(step, word)| (at + step, word)));
        at += own;
    }
    others
}

#[cfg(test)]
mod tests {
    use super::*;
    use crate::second::{self, Call, DETAIL_BYTES};

    #[test]
    fn any_is_readable_and_often_accepted_poison_or_different() {
        let mut counts = [0; 25];
        for seed in 0..1_000 {
            let Rich { model, row } = any(&mut Rng::new(seed), 0);
            let (mut output, mut detail) = (vec![0; 65_536], [0; DETAIL_BYTES]);
            let answer = second::answer(Call::ProjectImpl, &model.plain_image(), row, &mut output, &mut detail);
            counts[answer.number as usize] += 1;
        }
        assert_eq!(counts[2], 0);
        assert!([(0, 200), (7, 200), (6, 50), (20, 50)].iter().all(|(at, least)| counts[*at] > *least), "{counts:?}");
    }

    #[test]
    fn containers_have_the_words_that_they_are_asked_for() {
        for seed in 0..1_000 {
            let mut rng = Rng::new(seed);
            let words = rng.between(2, WORDS);
            let run = around(&mut rng, &[48, NONE], words, |rng| beside(rng, 60));
            assert_eq!(run.len(), words);
            let other = one_word_off(&mut rng, &run, 60);
            assert_eq!(run.iter().zip(&other).filter(|(one, other)| one != other).count(), 1);
        }
    }
}
