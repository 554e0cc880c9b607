//! Type expressions whose substitution nests as deep as 1,024 visits can: cycles, and aliases that end. What a call needs of
//! its caller's stack is needed by these.

use super::large;
use super::model::{Def, Model, Words, NONE};
use super::rng::Rng;

const U8: u32 = 1;

/// The words of a run.
const RUN: usize = large::WORDS;

/// What may stand around a part.
#[derive(Clone, Copy, PartialEq, Eq)]
pub enum Around {
    Optional,
    FixedArray,
    /// The first part of a Map, whose second is still to come.
    First,
    /// The second part of a Map.
    Second,
    /// The argument of the alias that is being made.
    Itself,
    /// The argument of another alias: B<T> = T.
    Same,
    /// The argument of another alias: B<T> = Optional<T>.
    Wrapping,
}

impl Around {
    /// With its name in a label.
    pub const ALL: [(&'static str, Around); 7] = [
        ("optional", Around::Optional),
        ("fixed", Around::FixedArray),
        ("first", Around::First),
        ("second", Around::Second),
        ("itself", Around::Itself),
        ("same", Around::Same),
        ("wrapping", Around::Wrapping),
    ];

    /// Those that an expression which ends can have: a run has no more visits of these than words.
    pub const ENDING: [(&'static str, Around); 5] =
        [Self::ALL[0], Self::ALL[1], Self::ALL[2], Self::ALL[3], Self::ALL[5]];

    pub fn words(self) -> usize {
        match self {
            Around::Optional => 1,
            Around::FixedArray => 3,
            _ => 2,
        }
    }

    /// The visits of one that can end, beside those of the part.
    fn visits(self) -> usize {
        match self {
            Around::Optional | Around::FixedArray => 1,
            _ => 2,
        }
    }
}

/// As many of these, over and over, as a run holds around so many words.
pub fn filled(around: &[Around], inner: usize) -> Vec<Around> {
    let mut words = inner;
    let fits = |one: &Around| {
        words += one.words();
        words <= RUN
    };
    around.iter().copied().cycle().take_while(fits).collect()
}

/// The words of `A<T>`, around which a cycle's target stands, and with those of an alias that drops its argument.
pub const CYCLE: usize = 4;
pub const DROPPED: usize = 6;

/// The aliases that stand around, each made where it is first wanted.
struct Others {
    param: u32,
    same: Option<u32>,
    wrapping: Option<u32>,
}

impl Others {
    fn new(param: u32) -> Self {
        Others { param, same: None, wrapping: None }
    }

    /// An expression with these around it, the outermost first, in an alias of this name.
    fn around(&mut self, rng: &mut Rng, model: &mut Model, name: u32, around: &[Around], inner: &[u32]) -> Words {
        let (mut before, mut behind) = (vec![], vec![]);
        let param = self.param;
        for one in around {
            match one {
                Around::Optional => before.push(64),
                Around::FixedArray => before.extend([66, 3, 0]),
                Around::First => {
                    before.push(68);
                    behind.push(U8);
                }
                Around::Second => before.extend([68, U8]),
                Around::Itself => before.extend([50, name]),
                Around::Same => {
                    let other = *self.same.get_or_insert_with(|| alias(rng, model, param, |_| vec![48, param]));
                    before.extend([50, other]);
                }
                Around::Wrapping => {
                    let other = *self.wrapping.get_or_insert_with(|| alias(rng, model, param, |_| vec![64, 48, param]));
                    before.extend([50, other]);
                }
            }
        }
        [&before, inner, &behind].concat()
    }
}

/// An alias with this parameter; its target may hold its own name.
fn alias(rng: &mut Rng, model: &mut Model, param: u32, target: impl FnOnce(u32) -> Words) -> u32 {
    let row = model.add_def(Def::Other);
    let name = model.fresh_name(rng, row);
    model.defs[row as usize] = Def::Alias(vec![param], target(name));
    name
}

/// Aliases in a ring, each with what stands around the next: they never end.
pub fn cycle(rng: &mut Rng, model: &mut Model, ring: &[Vec<Around>]) -> Words {
    let param = model.fresh_name(rng, NONE);
    let names: Vec<u32> = ring.iter().map(|_| alias(rng, model, param, |_| vec![U8])).collect();
    let mut others = Others::new(param);
    for (place, around) in ring.iter().enumerate() {
        let next = [50, names[(place + 1) % names.len()], 48, param];
        let target = others.around(rng, model, names[place], around, &next);
        let row = model.names[names[place] as usize].def as usize;
        model.defs[row] = Def::Alias(vec![param], target);
    }
    vec![50, names[0], U8]
}

/// A<T> = Map<first, A<T>>: it never ends.
pub fn cycle_behind(rng: &mut Rng, model: &mut Model, first: &[u32]) -> Words {
    let param = model.fresh_name(rng, NONE);
    let name = alias(rng, model, param, |name| [&[68], first, &[50, name, 48, param]].concat());
    vec![50, name, U8]
}

/// An expression of exactly so many visits that ends with one word: each alias drops an argument, which holds these around the
/// next alias. The last has what is left, in Optionals.
pub fn ending(rng: &mut Rng, model: &mut Model, around: &[Around], visits: usize) -> Words {
    let param = model.fresh_name(rng, NONE);
    let drops = alias(rng, model, param, |_| vec![U8]);
    let mut others = Others::new(param);
    // The argument that is dropped, the next alias and its argument, and the target of the one that drops.
    let level = 4 + around.iter().map(|one| one.visits()).sum::<usize>();
    // `C<u8>` and its argument, then the targets.
    let (levels, rest) = ((visits - 3) / level, (visits - 3) % level + 1);
    let mut next = alias(rng, model, param, |_| last(drops, &[48, param], rest));
    for _ in 0..levels {
        let target = others.around(rng, model, NONE, around, &[50, next, 48, param]);
        next = alias(rng, model, param, |_| [vec![50, drops], target].concat());
    }
    vec![50, next, U8]
}

/// A target of so many visits around a leaf, with at most one word more than the leaf's.
fn last(drops: u32, leaf: &[u32], visits: usize) -> Words {
    match visits {
        1 | 2 => [&vec![64; visits - 1], leaf].concat(),
        _ => [&[50, drops], vec![64; visits - 3].as_slice(), leaf].concat(),
    }
}

/// More aliases than these would be more definitions than an image has, with those of `tiny`.
const SECONDS: usize = 248;

/// As many second parts of Maps as a run holds.
const GROUP: usize = 31;

/// An expression of exactly so many visits that ends, as deep as it can be: each alias holds the next in a Map's second part, and
/// only where a run is full is it dropped. The innermost leaf is the alias's parameter where no other is given.
pub fn ending_in_seconds(rng: &mut Rng, model: &mut Model, visits: usize, leaf: Option<&[u32]>) -> Words {
    let param = model.fresh_name(rng, NONE);
    let drops = alias(rng, model, param, |_| vec![U8]);
    let cost = |levels: usize| 4 * levels + 2 * (levels / GROUP);
    // `C<u8>` and its argument, then the targets.
    let levels = (0..=SECONDS).rev().find(|levels| cost(*levels) + 3 <= visits).unwrap_or(0);
    let innermost = last(drops, leaf.unwrap_or(&[48, param]), visits - 2 - cost(levels));
    let mut next = alias(rng, model, param, |_| innermost);
    for level in 1..=levels {
        let target = vec![68, U8, 50, next, 48, param];
        let dropped = if level % GROUP == 0 { vec![50, drops] } else { vec![] };
        next = alias(rng, model, param, |_| [dropped, target].concat());
    }
    vec![50, next, U8]
}

/// A cycle of up to three aliases, or an expression that ends with about 1,024 visits.
pub fn any(rng: &mut Rng, model: &mut Model) -> Words {
    if rng.chance(50) {
        let ring: Vec<Vec<Around>> =
            (0..*rng.pick(&[1, 1, 2, 3])).map(|_| any_around(rng, &Around::ALL, CYCLE)).collect();
        cycle(rng, model, &ring)
    } else {
        let around = any_around(rng, &Around::ENDING, DROPPED);
        let visits = large::VISITS - 2 + rng.below(5);
        ending(rng, model, &around, visits)
    }
}

/// One to three; up to three over and over, as many as a run holds; or as many of any kind.
fn any_around(rng: &mut Rng, kinds: &[(&str, Around)], inner: usize) -> Vec<Around> {
    let count = *rng.pick(&[1, 2, 3, RUN]);
    let around: Vec<Around> = (0..count).map(|_| rng.pick(kinds).1).collect();
    if count < RUN && rng.chance(50) {
        around
    } else {
        filled(&around, inner)
    }
}

#[cfg(test)]
mod tests {
    use super::*;
    use crate::gen::rich::rich;
    use crate::gen::tiny::{tiny, IMPL};
    use crate::second::{self, Answer, Call, DETAIL_BYTES};

    fn answer(model: &Model, row: u32) -> Answer {
        let (mut output, mut detail) = (vec![0; 65_536], [0; DETAIL_BYTES]);
        second::answer(Call::ExpectedSignatures, &model.plain_image(), row, &mut output, &mut detail)
    }

    #[test]
    fn endings_have_the_visits_that_they_are_asked_for() {
        for seed in 0..200 {
            let (mut rng, mut model) = (Rng::new(seed), tiny().model);
            let around = any_around(&mut rng, &Around::ENDING, DROPPED);
            let visits = 1_000 + rng.below(27);
            let expression = ending(&mut rng, &mut model, &around, visits);
            model.trait_of(IMPL).functions[0].params[0].1 = expression;
            let answer = answer(&model, IMPL);
            let expected = if visits > 1_024 { (8, 0) } else { (0, visits as u32) };
            assert_eq!((answer.number, answer.visits), expected, "seed {seed}");
        }
    }

    #[test]
    fn endings_in_seconds_have_them_too() {
        for visits in 1_000..1_030 {
            let (mut rng, mut model) = (Rng::new(3), tiny().model);
            let expression = ending_in_seconds(&mut rng, &mut model, visits, None);
            model.trait_of(IMPL).functions[0].params[0].1 = expression;
            let answer = answer(&model, IMPL);
            let expected = if visits > 1_024 { (8, 0) } else { (0, visits as u32) };
            assert_eq!((answer.number, answer.visits), expected, "{visits} visits");
        }
    }

    #[test]
    fn any_is_readable() {
        for seed in 0..200 {
            let mut rng = Rng::new(seed);
            let mut rich = rich(&mut rng, Some(0), 0);
            let expression = any(&mut rng, &mut rich.model);
            large::place(&mut rng, &mut rich.model, rich.row, expression);
            assert_ne!(answer(&rich.model, rich.row).number, 2, "seed {seed}");
        }
    }
}
