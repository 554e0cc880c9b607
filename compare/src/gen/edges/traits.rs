//! Edges of traits: substitution, and what an implementation must match.

use super::{Edges, BOOL, I64, I8, U8};
use crate::gen::large;
use crate::gen::model::{Def, ImplFn, Model, TraitFn, Words, NONE};
use crate::gen::rng::Rng;
use crate::gen::tiny::{tiny, with_body, F, IMPL, M, MESSAGE, P, T, TRAIT, X};

impl Edges {
    /// One trait function with one parameter of a type expression, over a model that can be changed.
    pub(super) fn expression(&mut self, label: &str, expression: &[u32], change: impl FnOnce(&mut Model)) {
        let mut rich = tiny();
        change(&mut rich.model);
        rich.model.trait_of(IMPL).functions[0].params[0].1 = expression.to_vec();
        self.implemented(label, rich, 2);
    }

    /// A<T> = A<T> with as much around it as 64 words hold, and in its own argument. A Map holds the cycle as its first part, so
    /// that its second is still to come.
    pub(super) fn deep_cycles(&mut self) {
        for (label, before, after) in
            [("optionals", vec![64], vec![]), ("fixed-arrays", vec![66, 3, 0], vec![]), ("maps", vec![68], vec![U8])]
        {
            let around = |words: usize, inner: &[u32]| {
                let times = words / (before.len() + after.len());
                [&before.repeat(times), inner, &after.repeat(times)].concat()
            };
            let cycle = around(60, &[50, M, 48, T]);
            let argument = [vec![50, M], around(58, &[50, M, 48, T])].concat();
            for (place, target) in [("in", cycle), ("argument-in", argument)] {
                self.expression(&format!("alias-itself-{place}-{label}"), &[50, M, U8], |model| {
                    let row = model.add_def(Def::Alias(vec![T], target));
                    model.names[M as usize].def = row;
                });
            }
        }
    }

    pub(super) fn substitution(&mut self) {
        let sized = |edges: &mut Edges, label: &str, make: &dyn Fn(&mut Rng, &mut Model) -> Words| {
            let mut rich = tiny();
            let expression = make(&mut Rng::new(3), &mut rich.model);
            rich.model.trait_of(IMPL).functions[0].params[0].1 = expression;
            edges.implemented(label, rich, 4);
        };
        for count in [1_023, 1_024, 1_025] {
            sized(self, &format!("visits-{count}"), &|rng, model| large::visits(rng, model, count));
        }
        for count in [63, 64, 65] {
            sized(self, &format!("words-{count}"), &|rng, model| large::words(rng, model, count));
            sized(self, &format!("dropped-{count}"), &|rng, model| large::dropped(rng, model, count));
        }
        for seed in 0..6 {
            sized(self, &format!("cyclic-{seed}"), &|_, model| large::cyclic(&mut Rng::new(seed), model));
        }
        // A<T> = A<T>, then the two-sided case and the P case with Map<A<T>, T>.
        let alias = |params: Vec<u32>, target: Words| {
            move |model: &mut Model| {
                let row = model.add_def(Def::Alias(params, target));
                model.names[M as usize].def = row;
            }
        };
        self.expression("alias-itself", &[50, M, U8], alias(vec![T], vec![50, M, 48, T]));
        let doubled = [[50, M].repeat(31), vec![U8]].concat();
        self.expression("alias-doubled-31", &doubled, alias(vec![X], vec![68, 48, X, 48, X]));
        self.expression("alias-optional", &[50, M, U8], alias(vec![X], vec![64, 48, X]));
        self.expression("alias-no-parameter", &[50, M, U8], alias(vec![], vec![U8]));
        self.expression("alias-two-parameters", &[50, M, U8], alias(vec![X, P], vec![U8]));
        self.expression("alias-named-not-applied", &[48, M], alias(vec![X], vec![U8]));
        self.expression("alias-outer-not-in-view", &[50, M, 48, X], alias(vec![P], vec![48, X]));
        self.expression("generic-poison-argument-unread", &[50, X, 50, M, U8], alias(vec![T], vec![50, M, 48, T]));
        let mut map = tiny();
        let row = map.model.add_def(Def::Alias(vec![X], vec![64, 48, X]));
        map.model.names[M as usize].def = row;
        map.model.trait_of(IMPL).params = vec![T];
        map.model.trait_of(IMPL).functions[0].params[0].1 = vec![68, 50, M, 48, T, 48, T];
        map.model.impl_mut(IMPL).arguments = vec![vec![U8]];
        self.implemented("map-visits-6", map, 5);

        let aliased = |alias: &'static [u32], def: u32| {
            move |model: &mut Model| {
                model.names[M as usize].alias = Some(alias.to_vec());
                model.names[M as usize].def = def;
            }
        };
        for (label, run) in [
            ("primitive", &[I64][..]),
            ("void", &[13]),
            ("sub-byte", &[16, 0, 8]),
            ("semantic", &[32]),
            ("container", &[64, 1]),
            ("bits", &[80, 0]),
            ("named", &[48, MESSAGE]),
            ("named-past", &[48, 3]),
            ("named-poison", &[48, NONE]),
        ] {
            self.expression(&format!("named-alias-{label}"), &[48, M], aliased(run, NONE));
            self.expression(&format!("named-alias-{label}-and-definition"), &[48, M], aliased(run, TRAIT));
            self.expression(&format!("generic-alias-{label}"), &[50, M, U8], aliased(run, NONE));
            let qualified = move |model: &mut Model| {
                let row = model.add_name(b"p.x".to_vec(), NONE);
                model.names[row as usize].alias = Some(run.to_vec());
            };
            self.expression(&format!("qualified-alias-{label}"), &[49, P, X], qualified);
        }
        self.expression("named-nothing", &[48, X], |_| {});
        self.expression("qualified-nothing", &[49, P, X], |_| {});
        self.expression("qualified-definition", &[49, P, X], |model| {
            model.add_name(b"p.x".to_vec(), TRAIT);
        });
        self.expression("length-like-poison", &[66, 48, NONE, U8], |_| {});
        for (label, returns) in [
            ("void", &[1, 13][..]),
            ("void-expression", &[2, 13]),
            ("poison", &[1, 48, NONE]),
            ("poison-inside", &[1, 68, 1, 64, 48, NONE]),
            ("past-rows", &[1, 48, 9]),
            ("expression", &[2, 48, M]),
        ] {
            let mut rich = tiny();
            rich.model.trait_of(IMPL).functions[0].returns = returns.to_vec();
            self.implemented(format!("return-{label}"), rich, 6);
        }
        // The first of equal type parameters wins, and a parameter hides what its name means.
        let mut shadow = tiny();
        shadow.model.trait_of(IMPL).params = vec![M, M];
        shadow.model.trait_of(IMPL).functions[0].params[0].1 = vec![48, M];
        shadow.model.impl_mut(IMPL).arguments = vec![vec![I64], vec![BOOL]];
        self.implemented("type-parameter-shadows", shadow, 7);
    }

    pub(super) fn heads(&mut self) {
        for (label, of) in [("none", NONE), ("message", MESSAGE), ("itself", IMPL), ("past", 3)] {
            let mut rich = tiny();
            rich.model.impl_mut(IMPL).of = of;
            self.rich(format!("trait-{label}"), &rich);
        }
        for (label, target) in [
            ("trait", vec![48, TRAIT]),
            ("past", vec![48, 3]),
            ("poison", vec![48, NONE]),
            ("u8", vec![U8]),
            ("optional", vec![64, 48, MESSAGE]),
        ] {
            let mut rich = tiny();
            rich.model.impl_mut(IMPL).target = target;
            self.rich(format!("target-{label}"), &rich);
        }
        let function = |name: u32| ImplFn { name, params: vec![], returns: None, body: Some(vec![]) };
        let declared = |name: u32| TraitFn { name, params: vec![], returns: vec![0] };
        for (label, wanted, found) in [
            ("none", vec![], vec![]),
            ("order", vec![F, X], vec![X, F]),
            ("repeat-before-stranger", vec![F], vec![X, F, F]),
            ("strangers", vec![F], vec![X, P]),
            ("stranger-before-missing", vec![F], vec![X]),
            ("missing", vec![F, X, P], vec![P, F]),
        ] {
            let mut rich = tiny();
            rich.model.trait_of(IMPL).functions = wanted.into_iter().map(declared).collect();
            rich.model.impl_mut(IMPL).functions = found.into_iter().map(function).collect();
            self.rich(format!("functions-{label}"), &rich);
        }
        let mut external = tiny();
        external.model.impl_mut(IMPL).functions[0].body = None;
        self.rich("external", &external);
        let change = |edges: &mut Edges, label: &str, change: &dyn Fn(&mut ImplFn)| {
            let mut rich = tiny();
            change(&mut rich.model.impl_mut(IMPL).functions[0]);
            edges.rich(label, &rich);
        };
        change(self, "signature-count", &|function| function.params.clear());
        change(self, "signature-name", &|function| function.params[0].0 = X);
        change(self, "signature-type", &|function| function.params[0].1 = vec![16, 0, 8]);
        change(self, "signature-return", &|function| function.returns = Some(vec![U8]));
        change(self, "signature-return-void", &|function| function.returns = Some(vec![13]));
        change(self, "signature-before-external", &|function| {
            function.params.clear();
            function.body = None;
        });
        let wide = |run: Words| with_body(&[(P, run.clone())], Some(run), vec![vec![2, 1, 5, P]]);
        let (one, other) = ([vec![64; 63], vec![U8]].concat(), [vec![65; 63], vec![I8]].concat());
        for place in ["parameter", "return"] {
            let mut rich = wide(one.clone());
            let function = &mut rich.model.impl_mut(IMPL).functions[0];
            match place {
                "parameter" => function.params[0].1 = other.clone(),
                _ => function.returns = Some(other.clone()),
            }
            self.rich(format!("widest-{place}"), &rich);
        }
        let mut arguments = tiny();
        arguments.model.trait_of(IMPL).params = vec![X, P];
        self.rich("argument-counts", &arguments);
        for (label, row) in [("message", MESSAGE), ("past", 3), ("none", NONE)] {
            self.add(format!("row-{label}"), tiny().model.plain_image(), row);
        }
    }
}
