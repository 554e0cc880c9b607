//! Labelled images at the edges of document 01: every bound, code and flag, the cases of "At the edges", the trailer.

mod bodies;
mod halves;
mod held;
mod image;
mod lone;
mod reported;
mod stack;
mod traits;
mod utf8;

use super::bounds::BOUNDS;
use super::model::{assemble, Words, NONE};
use super::rich::{implement, Rich};
use super::rng::Rng;
use super::tiny::{padded, tiny, with_body, IMPL, P, X};
pub use halves::NOTHING;

pub struct Edge {
    pub label: String,
    pub image: Vec<u8>,
    pub row: u32,
}

const BOOL: u32 = 0;
const U8: u32 = 1;
const U64: u32 = 4;
const I8: u32 = 5;
const I64: u32 = 8;
const STRING: u32 = 32;

/// All of them, always the same.
pub fn edges() -> Vec<Edge> {
    let mut edges = Edges(vec![]);
    edges.whole_case();
    edges.bounds();
    edges.literals();
    edges.operators();
    edges.statements();
    edges.substitution();
    edges.heads();
    edges.codes();
    edges.texts();
    edges.trailers();
    edges.lone_bounds();
    edges.deep_cycles();
    edges.reported();
    edges.stacks();
    edges.halves();
    edges.utf8();
    edges.held();
    edges.0
}

struct Edges(Vec<Edge>);

impl Edges {
    fn add(&mut self, label: impl Into<String>, image: Vec<u8>, row: u32) {
        self.0.push(Edge { label: label.into(), image, row });
    }

    fn rich(&mut self, label: impl Into<String>, rich: &Rich) {
        self.add(label, rich.model.plain_image(), rich.row);
    }

    /// With functions that do what the trait expects.
    fn implemented(&mut self, label: impl Into<String>, mut rich: Rich, seed: u64) {
        implement(&mut Rng::new(seed), &mut rich.model, rich.row, Some(0));
        self.rich(label, &rich);
    }

    /// `fn f(p: u8)` with a body.
    fn body(&mut self, label: impl Into<String>, body: &[&[u32]]) {
        let body = body.iter().map(|statement| statement.to_vec()).collect();
        self.rich(label, &with_body(&[(P, vec![U8])], None, body));
    }

    /// `let x: type = value`, or no type.
    fn value(&mut self, label: impl Into<String>, ty: &[u32], value: &[u32]) {
        let written = if ty.is_empty() { vec![0] } else { [&[1], ty].concat() };
        self.body(label, &[&[&[1, X], written.as_slice(), value].concat()]);
    }

    /// 01's whole case, and each of its words changed.
    fn whole_case(&mut self) {
        let image = whole_case();
        self.add("whole-case", image.clone(), 2);
        for at in (5..image.len()).step_by(4) {
            let old = u32::from_le_bytes(image[at..at + 4].try_into().unwrap());
            for (how, new) in [("up", old.wrapping_add(1)), ("down", old.wrapping_sub(1))] {
                let mut changed = image.clone();
                changed[at..at + 4].copy_from_slice(&new.to_le_bytes());
                self.add(format!("whole-case-{at}-{how}"), changed, 2);
            }
        }
    }

    fn bounds(&mut self) {
        for (label, bound) in BOUNDS {
            for past in [0, 1] {
                let mut rich = tiny();
                bound(&mut Rng::new(1), &mut rich, past);
                self.rich(format!("{label}-{}", ["at", "past"][past]), &rich);
            }
        }
        let image = tiny().model.plain_image();
        self.add("image-at", padded(&image, 65_536), IMPL);
        self.add("image-past", padded(&image, 65_537), IMPL);
    }
}

fn literal(code: u32, value: i128) -> Words {
    let bits = value as u64;
    vec![code, bits as u32, (bits >> 32) as u32]
}

/// 01's whole case.
pub fn whole_case() -> Vec<u8> {
    returned(&literal(0, 5))
}

/// 01's whole case with another value in its Return.
fn returned(value: &[u32]) -> Vec<u8> {
    let before = [0, 1, 0, 1, 0, 0, 2, 1, 1, 1, 48, 0, 0, 1, 0, 0, 1, 1, 1, 1, 2, 1];
    assemble(
        b"getGM".to_vec(),
        &[0, 3, NONE, NONE, 3, 1, 1, NONE, 4, 1, 0, NONE],
        &[],
        &[&before, value].concat(),
        &[1, 0, 3, 1, 4, 8],
    )
}
