//! Bounds passed alone, where the other edges pass another bound with them or try one place only.

use super::Edges;
use crate::gen::model::{TraitFn, Words, NONE};
use crate::gen::tiny::{tiny, with_body, IMPL, P, X};

impl Edges {
    /// At each bound and one past it.
    pub(super) fn lone_bounds(&mut self) {
        for (past, label) in ["at", "past"].iter().enumerate() {
            self.trait_functions(label, 64 + past);
            self.trait_parameters(label, 32 + past);
            self.nesting(label, 32 + past);
        }
    }

    /// A trait with so many functions, of which the implementation has none.
    fn trait_functions(&mut self, label: &str, count: usize) {
        let mut rich = tiny();
        let names = (0..count).map(|place| rich.model.add_name(format!("_{place}").into(), NONE));
        let functions = names.map(|name| TraitFn { name, params: vec![], returns: vec![0] }).collect();
        rich.model.trait_of(IMPL).functions = functions;
        self.rich(format!("lone-trait-functions-{label}"), &rich);
    }

    /// A trait function with more parameters than the implementation's.
    fn trait_parameters(&mut self, label: &str, count: usize) {
        let mut rich = tiny();
        rich.model.trait_of(IMPL).functions[0].params.resize(count, (P, vec![1]));
        self.rich(format!("lone-trait-parameters-{label}"), &rich);
    }

    /// An expression of so many levels in each place that has one but a let.
    fn nesting(&mut self, label: &str, levels: usize) {
        let nested: Words = [[11, 0].repeat(levels - 1), vec![6]].concat();
        for (place, before, after) in [
            ("statement", &[0][..], &[][..]),
            ("return", &[2, 1], &[]),
            ("assigned", &[3, 7, X, 6], &[]),
            ("target", &[3], &[6]),
        ] {
            let rich = with_body(&[], None, vec![[before, &nested, after].concat()]);
            self.rich(format!("lone-nesting-{place}-{label}"), &rich);
        }
    }
}
