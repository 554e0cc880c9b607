//! Models about qualified names: names of few letters with dots among them, so that two of them joined are often a name, or nearly.

use super::large;
use super::model::{Model, Words, NONE};
use super::rich::{aimed, alias_type, bare, ensure_function, Rich};
use super::rng::Rng;
use super::tiny::tiny;
use super::types::{container, Vocabulary};

/// The most bytes of a name.
const LONGEST: usize = 255;

/// What names are made of, and what may stand for a dot.
const LETTERS: &[u8] = b"ab.";
const NO_DOTS: &[u8] = b"-/\0\x7fab";

/// A model whose trait has qualified names, aimed at a number. They stand for something, but under 0 one of them often need not.
pub fn any(rng: &mut Rng, aim: u32) -> Rich {
    let mut rich = if rng.chance(30) { tiny() } else { bare(rng) };
    let made = add_names(rng, &mut rich.model);
    let halves = Halves { words: Vocabulary::of(&rich.model), made };
    let free = aim == 0 && rng.chance(65);
    for count in 0..rng.between(1, 4) {
        let name = if free && count == 0 { halves.any(rng, &rich.model) } else { halves.resolving(rng) };
        let expression = halves.around(rng, &mut rich.model, name);
        place(rng, &mut rich.model, rich.row, expression);
    }
    aimed(rng, &mut rich, Some(aim));
    rich
}

/// Short names, at times two long ones; then some of all these joined, or nearly. The halves that were joined.
fn add_names(rng: &mut Rng, model: &mut Model) -> Vec<[u32; 2]> {
    for _ in 0..rng.between(3, 12) {
        let text = (0..rng.between(1, 5)).map(|_| *rng.pick(LETTERS)).collect();
        add(rng, model, text);
    }
    let long = rng.chance(30).then(|| long_halves(rng).map(|half| add(rng, model, half)));
    let times = rng.between(2, 10);
    let join = |_| {
        let halves = long.filter(|_| rng.chance(40)).unwrap_or_else(|| any_two(rng, model));
        let [left, right] = halves.map(|half| model.names[half as usize].text.clone());
        let text = nearly(rng, &left, &right);
        add(rng, model, text);
        [left, right]
    };
    let joined: Vec<[Vec<u8>; 2]> = (0..times).map(join).collect();
    // A row may stand before its halves, and be the first of all.
    let (last, place) = (model.names.len() - 1, rng.below(model.names.len()));
    model.names.swap(last, if rng.chance(20) { 0 } else { place });
    joined.iter().map(|halves| halves.each_ref().map(|half| model.row_of(half).expect("a half is a name"))).collect()
}

fn any_two(rng: &mut Rng, model: &Model) -> [u32; 2] {
    [0; 2].map(|_| rng.below(model.names.len()) as u32)
}

/// Halves that together with a dot have about as many bytes as a name can have, or as many as can be.
fn long_halves(rng: &mut Rng) -> [Vec<u8>; 2] {
    let joined = *rng.pick(&[254, 255, 255, 255, 256, 256, 257, 511]);
    let (least, most) = ((joined - 1usize).saturating_sub(LONGEST).max(1), (joined - 2).min(LONGEST));
    let any = rng.between(least, most);
    let left = *rng.pick(&[least, most, (joined - 1) / 2, joined / 2, any]);
    [left, joined - 1 - left].map(|length| (0..length).map(|_| *rng.pick(LETTERS)).collect())
}

/// A namespace, a dot and a name, or nearly; cut where that is longer than a name can be.
fn nearly(rng: &mut Rng, left: &[u8], right: &[u8]) -> Vec<u8> {
    let mut text = [left, b".", right].concat();
    let (place, letter) = (rng.below(text.len()), *rng.pick(LETTERS));
    match rng.below(16) {
        0 | 1 => text[left.len()] = *rng.pick(NO_DOTS),
        2 => text[place] = letter,
        3 => drop(text.pop()),
        4 => drop(text.remove(0)),
        5 => text.push(letter),
        6 => text.insert(0, letter),
        _ => {}
    }
    if text.len() > LONGEST {
        let cuts = [LONGEST, (text.len() % (LONGEST + 1)).max(1)];
        text.truncate(*rng.pick(&cuts));
    }
    text
}

/// The name of a text. A new one has a definition, an alias, both or none.
fn add(rng: &mut Rng, model: &mut Model, text: Vec<u8>) -> u32 {
    if let Some(row) = model.row_of(&text) {
        return row;
    }
    let def = if rng.chance(65) { rng.below(model.defs.len()) as u32 } else { NONE };
    let alias = rng.chance(40).then(|| alias_type(rng, model));
    let row = model.add_name(text, def);
    model.names[row as usize].alias = alias;
    row
}

/// What qualified names are made of.
struct Halves {
    words: Vocabulary,
    made: Vec<[u32; 2]>,
}

impl Halves {
    /// One that stands for something, where there is one.
    fn resolving(&self, rng: &mut Rng) -> Words {
        match self.words.qualified.as_slice() {
            [] => self.made(rng),
            found => {
                let (left, right) = *rng.pick(found);
                vec![49, left, right]
            }
        }
    }

    /// One for which there is a row, or nearly.
    fn made(&self, rng: &mut Rng) -> Words {
        [&[49], rng.pick(&self.made).as_slice()].concat()
    }

    fn any(&self, rng: &mut Rng, model: &Model) -> Words {
        if rng.chance(70) {
            self.made(rng)
        } else {
            [&[49], any_two(rng, model).as_slice()].concat()
        }
    }

    /// A qualified name as it is, in a container, or as the argument of an alias, whose target may hold another.
    fn around(&self, rng: &mut Rng, model: &mut Model, name: Words) -> Words {
        match rng.below(10) {
            0 | 1 => container(rng, |_| name.clone()),
            2 if !self.words.generic.is_empty() => [vec![50, *rng.pick(&self.words.generic)], name].concat(),
            3 | 4 => {
                let other = self.resolving(rng);
                let alias = large::alias(rng, model, |_, param| [vec![68, 48, param], other].concat());
                [vec![50, alias], name].concat()
            }
            5 => {
                let alias = large::alias(rng, model, |_, param| [vec![69], name, vec![48, param]].concat());
                [vec![50, alias], self.resolving(rng)].concat()
            }
            _ => name,
        }
    }
}

/// Puts an expression where the implementation's trait has a parameter, and now and then where it has a return too.
pub fn place(rng: &mut Rng, model: &mut Model, row: u32, expression: Words) {
    let param = model.fresh_name(rng, NONE);
    let functions = &mut ensure_function(rng, model, row).functions;
    let place = rng.below(functions.len());
    let function = &mut functions[place];
    if rng.chance(20) {
        function.returns = [vec![2], expression.clone()].concat();
    }
    function.params.insert(rng.below(function.params.len() + 1), (param, expression));
}

#[cfg(test)]
mod tests {
    use super::*;
    use crate::second::{self, Call, DETAIL_BYTES};

    #[test]
    fn any_is_readable_and_often_accepted_and_often_poison() {
        let mut counts = [0; 25];
        for seed in 0..1_000 {
            let Rich { model, row } = any(&mut Rng::new(seed), 0);
            let (mut output, mut detail) = (vec![0; 65_536], [0; DETAIL_BYTES]);
            let answer = second::answer(Call::ProjectImpl, &model.plain_image(), row, &mut output, &mut detail);
            counts[answer.number as usize] += 1;
        }
        assert_eq!(counts[2], 0);
        assert!(counts[0] > 300 && counts[7] > 300, "{counts:?}");
    }
}
