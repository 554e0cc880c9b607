//! Fourteen images that were reported with the stack that a call on them needs, byte for byte: cycles, and values nested 32 deep.

use super::{literal, returned, Edges, BOOL};
use crate::gen::model::{assemble, NONE};
use crate::gen::nested::{nested, Step, LEVELS};

impl Edges {
    pub(super) fn reported(&mut self) {
        let around = |count: usize, before: &[u32], behind: &[u32], inner: &[u32]| {
            [&before.repeat(count), inner, &behind.repeat(count)].concat()
        };
        let cycle = [50, 1, 48, 2];
        let seconds = around(15, &[68, BOOL], &[], &cycle);
        for (label, target) in [
            ("self", cycle.to_vec()),
            ("one", around(60, &[64], &[], &cycle)),
            ("fixed", around(20, &[66, 1, 0], &[], &cycle)),
            ("two", around(30, &[68], &[BOOL], &cycle)),
            ("right", around(30, &[68, BOOL], &[], &cycle)),
            ("mixed", around(15, &[68], &[BOOL], &seconds)),
            ("args", around(30, &[50, 1], &[], &[48, 2])),
            ("argone", [vec![50, 1], around(58, &[64], &[], &cycle)].concat()),
            ("argtwo", [vec![50, 1], around(28, &[68], &[BOOL], &cycle)].concat()),
        ] {
            self.add(format!("stack-{label}"), itself(&target), 3);
        }
        let [five, unsigned] = [0, 1].map(|code| literal(code, 5));
        for (label, value) in [
            ("un0", nested(&[Step::Unary(0)], LEVELS, &[], &five)),
            ("un1", nested(&[Step::Unary(1)], LEVELS, &[], &five)),
            ("bin0", nested(&[Step::Left(0)], LEVELS, &five, &five)),
            ("bin1", nested(&[Step::Left(1)], LEVELS, &five, &five)),
            ("binu", nested(&[Step::Left(0)], LEVELS, &unsigned, &unsigned)),
        ] {
            self.add(format!("stack-{label}"), returned(&value), 2);
        }
    }
}

/// `alias A<T> = target`, `message M {}`, `trait G { fn f(p: A<u8>) }`, `impl G for M {}`.
fn itself(target: &[u32]) -> Vec<u8> {
    let rows = [[0, NONE], [1, 2], [2, NONE], [3, 0], [4, 1], [5, NONE]];
    let names = rows.map(|[start, def]| [start, 1, def, NONE]).concat();
    let pool = [&[0, 4, 0, 1, 0, 1, 5, 50, 1, 1, 0, 1, 2], target, &[1, 4, 48, 0, 0, 0]].concat();
    assemble(b"fATMGp".to_vec(), &names, &[], &pool, &[1, 0, 3, 1, 2, 11, 4, 13 + target.len() as u32])
}
