//! Random types and type expressions over a model's names and definitions.

use super::model::{Def, Model, Words, NONE};
use super::rng::Rng;

pub const BOOL: u32 = 0;
pub const VOID: u32 = 13;
pub const STRING: u32 = 32;

/// Container codes with one part; 66 has two words more, 68 and 69 have two parts.
pub const ONE_PART: [u32; 9] = [64, 65, 67, 70, 71, 72, 73, 74, 75];

/// A type that literals and operators are about.
pub fn simple(rng: &mut Rng) -> Words {
    match rng.below(10) {
        0..=5 => vec![rng.below(13) as u32],
        6 | 7 => sub_byte(rng),
        _ => vec![STRING],
    }
}

fn sub_byte(rng: &mut Rng) -> Words {
    let bits = *rng.pick(&[1, 2, 3, 7, 8, 9, 16, 31, 32, 33, 63, 64]);
    vec![16, rng.below(2) as u32, bits]
}

fn leaf(rng: &mut Rng, model: &Model) -> Words {
    match rng.below(12) {
        0..=6 => simple(rng),
        7 | 8 => vec![32 + rng.below(6) as u32],
        9 => vec![VOID],
        _ => {
            let count = rng.below(4);
            let mut words = vec![80, count as u32];
            words.extend((0..count).map(|_| rng.below(model.names.len()) as u32));
            words
        }
    }
}

/// A resolved type without poison.
pub fn resolved(rng: &mut Rng, model: &Model, depth: usize) -> Words {
    match rng.below(10) {
        0..=1 => vec![48, if rng.chance(90) { rng.below(model.defs.len()) as u32 } else { 300 + rng.below(9) as u32 }],
        2..=4 if depth > 0 => container(rng, |rng| resolved(rng, model, depth - 1)),
        _ => leaf(rng, model),
    }
}

/// A container of types, with as many parts as it has.
pub fn container(rng: &mut Rng, mut part: impl FnMut(&mut Rng) -> Words) -> Words {
    let mut words = match rng.below(6) {
        // A length of words that look like poison, now and then.
        0 => vec![66, *rng.pick(&[0, 1, 2, 48]), if rng.chance(75) { 0 } else { NONE }],
        1 => {
            let mut words = vec![68 + rng.below(2) as u32];
            words.extend(part(rng));
            words
        }
        _ => vec![*rng.pick(&ONE_PART)],
    };
    words.extend(part(rng));
    words
}

/// A name's definition number, else that of its Named alias.
fn looked_up(model: &Model, name: u32) -> Option<u32> {
    let row = &model.names[name as usize];
    match row.alias.as_deref() {
        _ if row.def != NONE => Some(row.def),
        Some(&[48, number]) => Some(number),
        _ => None,
    }
}

/// What type expressions can say over a model, sorted into what resolves and what is poison.
pub struct Vocabulary {
    pub named: Vec<u32>,
    pub qualified: Vec<(u32, u32)>,
    pub generic: Vec<u32>,
    pub poison: Vec<Words>,
}

impl Vocabulary {
    pub fn of(model: &Model) -> Self {
        let mut words = Vocabulary { named: vec![], qualified: vec![], generic: vec![], poison: vec![] };
        for name in 0..model.names.len() as u32 {
            let found = looked_up(model, name).filter(|number| *number != NONE);
            let primitive = matches!(model.names[name as usize].alias.as_deref(), Some([0..=VOID]));
            if found.is_some() || primitive {
                words.named.push(name);
            } else {
                words.poison.push(vec![48, name]);
            }
            match found.and_then(|number| model.defs.get(number as usize)) {
                Some(Def::Alias(params, _)) if params.len() == 1 => words.generic.push(name),
                // Poison, whatever its argument is.
                _ => words.poison.push(vec![50, name, BOOL]),
            }
            let text = &model.names[name as usize].text;
            for dot in (0..text.len()).filter(|at| text[*at] == b'.') {
                if let (Some(left), Some(right)) = (model.row_of(&text[..dot]), model.row_of(&text[dot + 1..])) {
                    if found.is_some() {
                        words.qualified.push((left, right));
                    } else {
                        words.poison.push(vec![49, left, right]);
                    }
                }
            }
        }
        if let Some(name) = words.named.first() {
            words.poison.push(vec![49, *name, *name]);
        }
        words
    }

    /// A type expression without poison, but for what a parameter's argument brings.
    pub fn expression(&self, rng: &mut Rng, model: &Model, params: &[u32], depth: usize) -> Words {
        match rng.below(16) {
            0..=3 if !params.is_empty() => vec![48, *rng.pick(params)],
            0..=5 if !self.named.is_empty() => vec![48, *rng.pick(&self.named)],
            6 if !self.qualified.is_empty() => {
                let (left, right) = *rng.pick(&self.qualified);
                vec![49, left, right]
            }
            7 | 8 if depth > 0 && !self.generic.is_empty() => {
                let mut words = vec![50, *rng.pick(&self.generic)];
                words.extend(self.expression(rng, model, params, depth - 1));
                words
            }
            9..=11 if depth > 0 => container(rng, |rng| self.expression(rng, model, params, depth - 1)),
            _ => leaf(rng, model),
        }
    }

    /// A type expression that holds poison, bare or inside.
    pub fn poisoned(&self, rng: &mut Rng, model: &Model, params: &[u32]) -> Words {
        let poison = if self.poison.is_empty() { vec![48, 0] } else { rng.pick(&self.poison).clone() };
        match rng.below(4) {
            0 => container(
                rng,
                |rng| if rng.chance(70) { poison.clone() } else { self.expression(rng, model, params, 1) },
            ),
            1 if !self.generic.is_empty() => [vec![50, *rng.pick(&self.generic)], poison].concat(),
            _ => poison,
        }
    }
}

/// A resolved type of exactly so many words, at least 1.
pub fn of_words(rng: &mut Rng, words: usize) -> Words {
    match words {
        1 => vec![rng.below(13) as u32],
        2 => vec![*rng.pick(&ONE_PART), rng.below(13) as u32],
        3 if rng.chance(30) => sub_byte(rng),
        _ if words > 4 && rng.chance(20) => [vec![66, rng.below(9) as u32, 0], of_words(rng, words - 3)].concat(),
        _ if rng.chance(50) => {
            let left = rng.between(1, words - 2);
            [vec![68 + rng.below(2) as u32], of_words(rng, left), of_words(rng, words - 1 - left)].concat()
        }
        _ => [vec![*rng.pick(&ONE_PART)], of_words(rng, words - 1)].concat(),
    }
}
