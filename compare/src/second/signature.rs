//! What the trait expects of an implementation's functions: numbers 6, 7 and 8.

use super::image::{Function, Image, Implementation, Run, Trait, TraitReturn};
use super::subst::{contains_poison, substitute, View};
use super::Refusal;

const VOID: u32 = 13;

/// A trait function's signature after substitution.
pub struct Signature {
    pub name: u32,
    pub params: Vec<(u32, Run)>,
    pub returns: Option<Run>,
}

/// Every expected signature in the trait's order, and "the sum over all parameter and return expressions".
pub fn expected(image: &Image, of: &Trait, implementation: &Implementation) -> Result<(Vec<Signature>, u32), Refusal> {
    let (wanted, found) = (of.params.len(), implementation.arguments.len());
    if wanted != found {
        return Err(Refusal::detailed(6, of.name, vec![0, wanted as u32, found as u32]));
    }
    let view = View { params: &of.params, arguments: &implementation.arguments };
    let mut visits = 0;
    let mut signatures = Vec::new();
    for function in &of.functions {
        let mut resolve = |expression: &Run| match substitute(image, expression, view) {
            Ok((run, count)) => {
                visits += count;
                Ok(run)
            }
            Err(_) => Err(Refusal::of(8, function.name)),
        };
        let mut params = Vec::new();
        for (name, expression) in &function.params {
            params.push((*name, resolve(expression)?));
        }
        let returns = match &function.returns {
            TraitReturn::Nothing => None,
            TraitReturn::Resolved(run) => Some(run.clone()),
            TraitReturn::Expression(expression) => Some(resolve(expression)?),
        };
        // "8 before 7 in each"
        if params.iter().map(|(_, run)| run).chain(&returns).any(|run| contains_poison(run)) {
            return Err(Refusal::of(7, function.name));
        }
        signatures.push(Signature { name: function.name, params, returns: unless_void(returns) });
    }
    Ok((signatures, visits))
}

/// "Void as a return means none."
fn unless_void(returns: Option<Run>) -> Option<Run> {
    returns.filter(|run| *run != [VOID])
}

impl Signature {
    /// "signature (count; each parameter's name, type; return)"
    pub fn check(&self, function: &Function) -> Result<(), Refusal> {
        let differs = |detail: Vec<u32>| Err(Refusal::detailed(6, self.name, detail));
        if self.params.len() != function.params.len() {
            return differs(vec![1, self.params.len() as u32, function.params.len() as u32]);
        }
        for ((name, run), (found_name, found_run)) in self.params.iter().zip(&function.params) {
            if name != found_name {
                return differs(vec![2, *name, *found_name]);
            }
            if run != found_run {
                let detail = [&[3], run.as_slice(), found_run.as_slice()].concat();
                return Err(Refusal { second: *name, ..Refusal::detailed(6, self.name, detail) });
            }
        }
        let found = unless_void(function.returns.clone());
        if self.returns != found {
            // "each 0, or 1 and run"
            let side = |run: &Option<Run>| run.as_ref().map_or(vec![0], |run| [&[1], run.as_slice()].concat());
            return differs([vec![4], side(&self.returns), side(&found)].concat());
        }
        Ok(())
    }

    /// "each has name, count, (parameter, type)s, return 0/1 and type"
    pub fn write(&self, words: &mut Vec<u32>) {
        words.extend([self.name, self.params.len() as u32]);
        for (name, run) in &self.params {
            words.push(*name);
            words.extend(run);
        }
        words.push(self.returns.is_some().into());
        words.extend(self.returns.iter().flatten());
    }
}
