//! Values that nest as deep as an expression may, in each place that has a value.

use super::model::{Def, Words};
use super::rich::Rich;
use super::rng::Rng;
use super::tiny::{with_body, MESSAGE, P, T, X};

/// The levels that an expression may have.
pub const LEVELS: usize = 32;

/// What stands around an expression, with its operator; the other operand is a leaf.
#[derive(Clone, Copy)]
pub enum Step {
    Unary(u32),
    /// The expression is the left operand.
    Left(u32),
    Right(u32),
}

/// An expression of so many levels with these around its tip, the outermost first, over and over.
pub fn nested(steps: &[Step], levels: usize, leaf: &[u32], tip: &[u32]) -> Words {
    let (mut before, mut behind) = (vec![], vec![]);
    for step in steps.iter().cycle().take(levels - 1) {
        match *step {
            Step::Unary(operator) => before.extend([11, operator]),
            Step::Left(operator) => {
                before.extend([10, operator]);
                behind.extend(leaf);
            }
            Step::Right(operator) => {
                before.extend([10, operator]);
                before.extend(leaf);
            }
        }
    }
    [&before, tip, &behind].concat()
}

/// Where a value stands: its statement's words before it are of one of these.
pub const PLACES: [&str; 4] = ["let", "typed-let", "return", "assign"];

/// A value in a place, under a type that its parameter p and its message's field x have too.
pub fn placed(place: &str, ty: u32, value: &[u32]) -> Rich {
    let before: &[u32] = match place {
        "let" => &[1, X, 0],
        "typed-let" => &[1, X, 1, ty],
        "return" => &[2, 1],
        _ => &[3, 7, X, 6],
    };
    let returns = (place == "return").then(|| vec![ty]);
    let mut rich = with_body(&[(P, vec![ty])], returns, vec![[before, value].concat()]);
    rich.model.defs[MESSAGE as usize] = Def::Message(vec![(X, vec![ty])]);
    rich
}

/// Any such value: mostly accepted, else refused at its tip or for its type, or a level past the bound.
pub fn any(rng: &mut Rng) -> Rich {
    let (ty, unary) = *rng.pick(&[(0, 1), (4, 1), (5, 0), (8, 0), (8, 0), (10, 0), (12, 0)]);
    let steps: Vec<Step> = (0..*rng.pick(&[1, 1, 2, 3, LEVELS])).map(|_| any_step(rng, ty, unary)).collect();
    let literal: &[u32] = if ty == 0 { &[3, 1] } else { &[0, 1, 0] };
    let leaf = if rng.chance(50) { literal } else { &[5, P] };
    let tips: [&[u32]; 6] = [&[5, T], &[6], &[4, 1], &[8, T, 0], &[3, 0], &[1, 1, 1 << 31]];
    let tip = if rng.chance(70) { leaf } else { rng.pick(&tips) };
    let levels = *rng.pick(&[LEVELS, LEVELS, LEVELS, LEVELS, LEVELS - 1, LEVELS + 1]);
    let place = *rng.pick(&PLACES);
    placed(place, ty, &nested(&steps, levels, leaf, tip))
}

/// A step that keeps a type, but now and then.
fn any_step(rng: &mut Rng, ty: u32, unary: u32) -> Step {
    let binary = if ty == 0 { 4 + rng.below(2) as u32 } else { rng.below(4) as u32 };
    match rng.below(3) {
        0 if rng.chance(3) => Step::Left(rng.below(10) as u32),
        0 => Step::Unary(unary),
        1 => Step::Left(binary),
        _ => Step::Right(binary),
    }
}
