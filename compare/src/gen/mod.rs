//! Seeded cases: images that are rich, at an edge or damaged, and calls on them with buffers around each boundary.

mod alike;
mod body;
mod bounds;
mod costly;
mod damage;
mod deep;
mod edges;
mod halves;
mod held;
mod images;
mod large;
mod model;
mod nested;
mod passed;
mod rich;
mod rng;
mod tiny;
mod types;
mod utf8;

use std::collections::VecDeque;
use std::rc::Rc;

use crate::case::Case;
use crate::second::{self, Answer, Call, DETAIL_BYTES};
pub use alike::{alike, End};
pub use costly::{costly, KINDS as COSTLY, ROW as COSTLY_ROW};
#[cfg(test)]
pub use edges::whole_case;
pub use edges::{edges, Edge, NOTHING};
use images::Maker;
pub use images::{images, Source};
pub use passed::{passed, Passed, ROW as PASSED_ROW, ROWS as PASSED_ROWS};
use rng::Rng;
pub use utf8::{lone_name, strings};

/// An endless supply of cases from one seed.
pub struct Cases {
    maker: Maker,
    waiting: VecDeque<Case>,
}

impl Cases {
    pub fn new(seed: u64) -> Self {
        Cases { maker: Maker::new(seed), waiting: VecDeque::new() }
    }

    /// The same cases, with some of every family between them.
    pub fn with_families(seed: u64) -> Self {
        Cases { maker: Maker::with_families(seed), waiting: VecDeque::new() }
    }

    fn refill(&mut self) {
        let (made, rng) = self.maker.make();
        ask(rng, made.image.into(), made.row, made.rows, &mut self.waiting);
    }
}

impl Iterator for Cases {
    type Item = Case;

    fn next(&mut self) -> Option<Case> {
        while self.waiting.is_empty() {
            self.refill();
        }
        self.waiting.pop_front()
    }
}

/// Calls on one image: both of them, other rows, and lengths around each boundary.
fn ask(rng: &mut Rng, image: Rc<[u8]>, row: u32, rows: u32, cases: &mut VecDeque<Case>) {
    for call in [Call::ProjectImpl, Call::ExpectedSignatures] {
        if call == Call::ExpectedSignatures && rng.chance(60) {
            continue;
        }
        let base = Case { call, image: image.clone(), row, output: 0, detail: DETAIL_BYTES };
        let answer = plain(&base);
        let need = if answer.number == 24 { answer.length as usize } else { rng.below(64) };
        let mut lengths =
            vec![(need + *rng.pick(&[0, 0, 0, 1, 1, 2, 3, 4, 100, 4_096]), DETAIL_BYTES + *rng.pick(&[0, 0, 1, 64]))];
        if answer.number == 24 && rng.chance(35) {
            let any = rng.below(need);
            lengths.push((*rng.pick(&[0, need - 1, need - 2, need - 4, any]), DETAIL_BYTES));
        }
        if rng.chance(6) {
            lengths.push((need, *rng.pick(&[0, 1, 300, DETAIL_BYTES - 4, DETAIL_BYTES - 1])));
        }
        cases.extend(lengths.into_iter().map(|(output, detail)| Case { output, detail, ..base.clone() }));
        if rng.chance(6) {
            let any = rng.below(rows as usize) as u32;
            let row = *rng.pick(&[any, rows, rows + 1, u32::MAX, 0]);
            cases.push_back(Case { row, output: need, ..base });
        }
    }
}

/// Every edge, asked both ways with room enough and with none.
pub fn edge_cases() -> impl Iterator<Item = Case> {
    edges().into_iter().flat_map(|edge| {
        let image: Rc<[u8]> = edge.image.into();
        [Call::ProjectImpl, Call::ExpectedSignatures].into_iter().flat_map(move |call| {
            let base = Case { call, image: image.clone(), row: edge.row, output: 0, detail: DETAIL_BYTES };
            let exact = needed(&base).map(|output| Case { output, ..base.clone() });
            [Some(base), exact].into_iter().flatten()
        })
    })
}

/// Images as `edges` and `Cases` have them, each asked for some calls with lengths around every boundary.
pub fn boundary_cases(seed: u64, calls: &[Call]) -> impl Iterator<Item = Case> + '_ {
    let mut maker = Maker::with_families(seed);
    let seeded = std::iter::repeat_with(move || maker.make().0).map(|made| (made.image, made.row));
    let images = edges().into_iter().map(|edge| (edge.image, edge.row)).chain(seeded);
    images.flat_map(move |(image, row)| {
        let image: Rc<[u8]> = image.into();
        calls.iter().flat_map(move |call| at_boundaries(*call, &image, row))
    })
}

/// Output: none, one byte short, exact, one more, far more. Detail: none, one byte short, enough, one more. And
/// another row.
fn at_boundaries(call: Call, image: &Rc<[u8]>, row: u32) -> Vec<Case> {
    let base = Case { call, image: image.clone(), row, output: 0, detail: DETAIL_BYTES };
    let need = needed(&base);
    let exact = need.unwrap_or(61);
    let outputs = match need {
        Some(need) => vec![0, need - 1, need, need + 1, need + 4_096],
        None => vec![0, exact],
    };
    let details = [0, DETAIL_BYTES - 1, DETAIL_BYTES + 1];
    let lengths = outputs.into_iter().map(|output| (output, DETAIL_BYTES));
    let lengths = lengths.chain(details.map(|detail| (exact, detail)));
    let mut cases: Vec<Case> = lengths.map(|(output, detail)| Case { output, detail, ..base.clone() }).collect();
    // Another row, often no implementation's.
    let other = if image.len() % 2 == 0 { row.wrapping_add(1) } else { u32::MAX };
    cases.push(Case { row: other, output: exact, ..base });
    cases
}

/// Images of about so many bytes that both calls accept, with the row to ask.
pub fn typical(seed: u64, bytes: usize, count: usize) -> Vec<(Vec<u8>, u32)> {
    let mut rng = Rng::new(seed);
    let mut found = vec![];
    while found.len() < count {
        let bulk = rng.below(bytes / 500).min(12);
        let rich = rich::repeated(&mut rng, bulk, bytes);
        let image = rich.model.plain_image();
        if image.len().abs_diff(bytes) > bytes / 16 {
            continue;
        }
        let ask = |call| Case { call, image: image.clone().into(), row: rich.row, output: 0, detail: DETAIL_BYTES };
        if [Call::ProjectImpl, Call::ExpectedSignatures].into_iter().all(|call| needed(&ask(call)).is_some()) {
            found.push((image, rich.row));
        }
    }
    found
}

/// Cases whose aliases never end.
pub fn cyclic_cases(seed: u64) -> impl Iterator<Item = Case> {
    let mut rng = Rng::new(seed);
    std::iter::repeat_with(move || {
        let mut rich = rich::rich(&mut rng, Some(0), 0);
        let expression = large::cyclic(&mut rng, &mut rich.model);
        large::place(&mut rng, &mut rich.model, rich.row, expression);
        let call = *rng.pick(&[Call::ProjectImpl, Call::ExpectedSignatures]);
        let image = rich.model.plain_image().into();
        Case { call, image, row: rich.row, output: 0, detail: DETAIL_BYTES }
    })
}

/// Some cases with images of 4 to 16 KB; the last three are of 64 KB.
pub fn large_cases(seed: u64, count: usize) -> Vec<(String, Case)> {
    let mut rng = Rng::new(seed);
    let mut cases = vec![];
    while cases.len() < count {
        let whole = cases.len() + 3 >= count;
        let aim = *rng.pick(&[0, 0, 0, 21]);
        let bulk = if whole { 50 } else { rng.between(5, 15) };
        let rich = rich::rich(&mut rng, Some(aim), bulk);
        let mut image = rich.model.loose_image(&mut rng);
        let fits = if whole { 32_768..=65_536 } else { 4_096..=16_384 };
        if !fits.contains(&image.len()) {
            continue;
        }
        if whole {
            image = tiny::padded(&image, 65_536 - 256 * (count - 1 - cases.len()));
        }
        let call = *rng.pick(&[Call::ProjectImpl, Call::ProjectImpl, Call::ExpectedSignatures]);
        let base = Case { call, image: image.into(), row: rich.row, output: 0, detail: DETAIL_BYTES };
        let output = needed(&base).unwrap_or(16);
        cases.push((format!("large-{}", cases.len()), Case { output, ..base }));
    }
    cases
}

/// The bytes of output that a case needs, if it is accepted.
pub fn needed(case: &Case) -> Option<usize> {
    let answer = plain(case);
    (answer.number == 24).then_some(answer.length as usize)
}

/// A case's answer, for aiming only.
fn plain(case: &Case) -> Answer {
    second::answer(case.call, &case.image, case.row, &mut [], &mut [0; DETAIL_BYTES])
}
