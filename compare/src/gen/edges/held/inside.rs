//! Poison in every part of every container, at several depths, of whatever makes it, in a parameter and in a return.

use super::{around, declared, Edges, NOTHING, POISON, U8};
use crate::gen::model::{Model, TraitFn, Words};
use crate::gen::tiny::{F, IMPL, M, P, T, X};

/// What makes poison: a name that stands for nothing, a Generic that is no alias, a qualified name that stands for nothing, a type
/// argument, a name whose alias is poison.
const KINDS: [&str; 5] = ["name", "generic", "qualified", "argument", "aliased-name"];

/// Every part of every container, by the words before it and behind it.
const PARTS: [(&str, &[u32], &[u32]); 14] = [
    ("optional", &[64], &[]),
    ("array", &[65], &[]),
    ("fixed-array", &[66, 3, 0], &[]),
    ("set", &[67], &[]),
    ("map-first", &[68], &[U8]),
    ("map-second", &[68, U8], &[]),
    ("result-first", &[69], &[U8]),
    ("result-second", &[69, U8], &[]),
    ("vec2", &[70], &[]),
    ("vec3", &[71], &[]),
    ("vec4", &[72], &[]),
    ("quat", &[73], &[]),
    ("mat3", &[74], &[]),
    ("mat4", &[75], &[]),
];

/// Before poison in every container, once each; behind it comes the second part of the Result.
pub(super) const ALL: &[u32] = &[64, 65, 66, 3, 0, 67, 68, U8, 69, 70, 71, 72, 73, 74, 75];

/// Deeper, and beside other containers.
const DEEP: [(&str, &[u32], &[u32]); 9] = [
    ("in-first-of-first", &[68, 68], &[U8, U8]),
    ("in-second-of-first", &[68, 68, U8], &[U8]),
    ("in-first-of-second", &[68, U8, 68], &[U8]),
    ("in-second-of-second", &[68, U8, 68, U8], &[]),
    ("in-array-in-optional", &[64, 65], &[]),
    ("in-all-containers", ALL, &[U8]),
    ("behind-a-map", &[69, 68, U8, U8, 64], &[]),
    ("before-a-map", &[69, 64], &[68, U8, U8]),
    ("between-maps", &[68, 69, 68, U8, U8], &[68, U8, U8]),
];

impl Edges {
    pub(super) fn poison_inside(&mut self) {
        for (place, (label, before, behind)) in PARTS.into_iter().enumerate() {
            let label = format!("in-{label}");
            self.made_in(KINDS[place % 5], &label, before, behind, false);
            self.made_in(KINDS[(place + 2) % 5], &label, before, behind, true);
        }
        for (place, (label, before, behind)) in DEEP.into_iter().enumerate() {
            self.made_in(KINDS[(place + 3) % 5], label, before, behind, place % 2 == 1);
        }
        self.poison("both-parts-of-map", &declared(&[&around(&[68], &NOTHING, &[49, P, X])], &[0]));
        self.one_of_many();
        self.functions();
    }

    fn made_in(&mut self, kind: &str, label: &str, before: &[u32], behind: &[u32], returned: bool) {
        let mut rich = declared(&[], &[0]);
        let run = around(before, &made(kind, &mut rich.model), behind);
        let function = &mut rich.model.trait_of(IMPL).functions[0];
        if returned {
            function.returns = [vec![2], run].concat();
        } else {
            function.params.push((P, run));
        }
        self.poison(&format!("{kind}-{label}{}", if returned { "-return" } else { "" }), &rich);
    }

    /// In one of as many parameters as there can be.
    fn one_of_many(&mut self) {
        for (label, place) in [("first", 0), ("last", 31)] {
            let mut params = vec![&[U8][..]; 32];
            params[place] = &[64, 48, X];
            self.poison(&format!("{label}-of-32-parameters"), &declared(&params, &[0]));
        }
    }

    /// The first function that has poison is named, whatever comes before it and behind it.
    fn functions(&mut self) {
        let function = |name: u32, run: &[u32]| TraitFn { name, params: vec![(P, run.to_vec())], returns: vec![0] };
        for (label, runs) in
            [("second", [&[U8][..], &[64, 48, X], &[U8]]), ("second-and-third", [&[U8], &NOTHING, &NOTHING])]
        {
            let mut rich = declared(&[], &[0]);
            rich.model.trait_of(IMPL).functions =
                [F, T, M].into_iter().zip(runs).map(|(name, run)| function(name, run)).collect();
            self.poison(&format!("{label}-function"), &rich);
        }
    }
}

/// A type expression that is poison, over a model in which it is.
fn made(kind: &str, model: &mut Model) -> Words {
    match kind {
        "name" => NOTHING.into(),
        "generic" => vec![50, M, U8],
        "qualified" => vec![49, P, X],
        "argument" => {
            model.trait_of(IMPL).params = vec![T];
            model.impl_mut(IMPL).arguments = vec![POISON.into()];
            vec![48, T]
        }
        _ => {
            model.names[F as usize].alias = Some(POISON.into());
            vec![48, F]
        }
    }
}
