//! Edges of held types: whether poison is in one, through every substitution; where two of them differ; what rests in the locals.
//! Labels tell the answer: `held-poison-` is 7, `held-clean-` and `held-same-` are accepted, `held-65-` is 8, `held-differ-` 6 or 20;
//! `held-local-` are bodies with such types.

mod aliases;
mod compared;
mod full;
mod inside;
mod locals;
mod looks;
mod stored;

use super::{literal, Edges, U8};
use crate::gen::model::{Def, ImplFn, Words, NONE};
use crate::gen::rich::{expected, Rich};
use crate::gen::tiny::{tiny, IMPL, MESSAGE, P, T, X};

/// Poison as a resolved type has it, and a type that is none in the same words but one.
const POISON: [u32; 2] = [48, NONE];
const GOOD: [u32; 2] = [48, MESSAGE];

/// A name that stands for nothing, as a type expression.
const NOTHING: [u32; 2] = [48, X];

/// Name rows of the aliases behind the tiny model's names.
const A: u32 = 5;
const B: u32 = 6;

impl Edges {
    pub(super) fn held(&mut self) {
        self.poison_inside();
        self.poison_by_aliases();
        self.poison_stored();
        self.looks_like_poison();
        self.full_types();
        self.compared_types();
        self.types_of_locals();
    }

    /// 7, which comes before all that an implementation has.
    fn poison(&mut self, label: &str, rich: &Rich) {
        self.rich(format!("held-poison-{label}"), rich);
    }

    /// Accepted: each function has the types that are expected, binds a parameter, and returns the message's field.
    fn clean(&mut self, label: &str, mut rich: Rich) {
        for (name, params, returns) in expected(&mut rich.model, IMPL) {
            let mut body = vec![vec![1, X, 0, 5, P]; params.len().min(1)];
            if let Some(run) = &returns {
                rich.model.defs[MESSAGE as usize] = Def::Message(vec![(X, run.clone())]);
                body.push(vec![2, 1, 7, X, 6]);
            }
            rich.model.impl_mut(IMPL).functions.push(ImplFn { name, params, returns, body: Some(body) });
        }
        self.rich(format!("held-clean-{label}"), &rich);
    }
}

/// A trait function with parameters of these type expressions and a return with its form; nothing implements it.
fn declared(params: &[&[u32]], returns: &[u32]) -> Rich {
    let mut rich = tiny();
    rich.model.strings.clear();
    let function = &mut rich.model.trait_of(IMPL).functions[0];
    function.params = params.iter().map(|run| (P, run.to_vec())).collect();
    function.returns = returns.to_vec();
    rich.model.impl_mut(IMPL).functions.clear();
    rich
}

/// The trait's type parameters, and the arguments that the implementation gives for them.
fn given(mut rich: Rich, params: &[u32], arguments: &[&[u32]]) -> Rich {
    rich.model.trait_of(IMPL).params = params.to_vec();
    rich.model.impl_mut(IMPL).arguments = arguments.iter().map(|run| run.to_vec()).collect();
    rich
}

/// A parameter whose type is the trait's type parameter, and the argument for it.
fn argument(run: &[u32]) -> Rich {
    given(declared(&[&[48, T]], &[0]), &[T], &[run])
}

/// Aliases A and B of one parameter, P, by their targets.
fn aliased(mut rich: Rich, targets: &[&[u32]]) -> Rich {
    for (text, target) in ["A", "B"].iter().zip(targets) {
        let row = rich.model.add_def(Def::Alias(vec![P], target.to_vec()));
        rich.model.add_name((*text).into(), row);
    }
    rich
}

/// Words around others.
fn around(before: &[u32], inner: &[u32], behind: &[u32]) -> Words {
    [before, inner, behind].concat()
}

#[cfg(test)]
mod tests {
    use super::*;
    use crate::case::Case;
    use crate::gen::edges;
    use crate::judge::{By, Judge};
    use crate::second::{Call, DETAIL_BYTES};

    /// The numbers that a label allows, by call.
    fn told(label: &str) -> [&'static [u32]; 2] {
        match label.split('-').nth(1) {
            Some("poison") => [&[7]; 2],
            Some("clean") => [&[0]; 2],
            Some("65") => [&[8]; 2],
            Some("same") => [&[0]; 2],
            Some("differ") => [&[6, 20], &[0]],
            _ => [&[0, 16, 20, 21], &[0]],
        }
    }

    #[test]
    fn they_are_answered_as_their_labels_tell() {
        let (mut judge, mut counts) = (Judge::default(), [0; 25]);
        for edge in edges().into_iter().filter(|edge| edge.label.starts_with("held-")) {
            for (call, numbers) in [Call::ProjectImpl, Call::ExpectedSignatures].into_iter().zip(told(&edge.label)) {
                let image = edge.image.as_slice().into();
                let case = Case { call, image, row: edge.row, output: 16_384, detail: DETAIL_BYTES };
                let judged = judge.judge(&case).unwrap_or_else(|said| panic!("{}: {said}", edge.label));
                let number = judged.whole.answer.number;
                assert!(numbers.contains(&number), "{}: {number}", edge.label);
                assert_eq!(judged.by == By::Rust, number != 8, "{}", edge.label);
                counts[number as usize] += 1;
            }
        }
        assert!([(0, 60), (7, 120), (8, 10), (6, 5), (20, 5), (21, 2)].iter().all(|(at, least)| counts[*at] >= *least));
    }
}
