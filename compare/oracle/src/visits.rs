//! Counts visits and words on the Rust's own trees: what number 8 and the visits of an answer are judged by, since
//! `substitute_type` itself counts nothing and does not stop.

use crate::ast::TypeExpr;
use crate::ir::{ResolvedType, TraitDef, TypeDef, TypeId};
use crate::loader::Loaded;

const VISITS: u32 = 1_024;
const WORDS: u32 = 64;

/// An expression needs more than it may.
struct TooLarge;

/// What an implementation's trait costs: the visits of each function in order, None for one that is too large.
pub struct Cost {
    /// A trait function's name row, and its visits.
    pub functions: Vec<(u32, Option<u32>)>,
}

impl Cost {
    /// The place of the first function that is too large.
    pub fn too_large(&self) -> Option<usize> {
        self.functions.iter().position(|(_, visits)| visits.is_none())
    }
}

impl Loaded {
    /// None where the implementation has no trait, or another count of type arguments than its trait has parameters.
    pub fn cost(&self, row: u32) -> Option<Cost> {
        let implementation = self.implementation(row)?;
        let (trait_id, of) = self.schema.registry.trait_for_impl(implementation)?;
        if of.type_params.len() != implementation.type_args.len() {
            return None;
        }
        let sizes = of.type_params.iter().map(|param| param.name.node.as_str());
        let view: Vec<(&str, u32)> = sizes.zip(implementation.type_args.iter().map(words)).collect();
        Some(Cost { functions: self.functions(trait_id, of, &view) })
    }

    fn functions(&self, trait_id: TypeId, of: &TraitDef, view: &[(&str, u32)]) -> Vec<(u32, Option<u32>)> {
        let visits = |function: &crate::ir::TraitFnDef| {
            let returns = self.schema.registry.trait_fn_return_type(trait_id, &function.name);
            let expressions = function.params.iter().map(|param| &param.unresolved_ty).chain(returns);
            expressions.map(|expression| self.visits(expression, view)).sum()
        };
        of.functions.iter().map(|function| (self.row(&function.name), visits(function))).collect()
    }

    /// The visits of one whole expression.
    fn visits(&self, expression: &TypeExpr, view: &[(&str, u32)]) -> Option<u32> {
        let mut left = VISITS;
        self.measure(expression, view, &mut left).ok().map(|_| VISITS - left)
    }

    /// The words of the type that an expression gives; each node takes one of the visits that are left.
    fn measure(&self, expression: &TypeExpr, view: &[(&str, u32)], left: &mut u32) -> Result<u32, TooLarge> {
        use TypeExpr as E;
        *left = left.checked_sub(1).ok_or(TooLarge)?;
        let registry = &self.schema.registry;
        let words = match expression {
            E::Named(name) => match view.iter().find(|(param, _)| *param == name.as_str()) {
                Some((_, words)) => *words,
                None if registry.lookup_primitive_alias(name).is_some() => 1,
                None => 2,
            },
            E::Primitive(_) | E::Semantic(_) => 1,
            E::Qualified(..) => 2,
            E::SubByte(_) => 3,
            E::BitsInline(names) => 2 + names.len() as u32,
            E::Generic(name, argument) => match registry.lookup(name).and_then(|id| registry.get(id)) {
                Some(TypeDef::GenericAlias(alias)) if alias.type_params.len() == 1 => {
                    let argument = self.measure(&argument.node, view, left)?;
                    self.measure(&alias.target_type, &[(&alias.type_params[0], argument)], left)?
                }
                _ => 2,
            },
            E::FixedArray(inner, _) => 3 + self.measure(&inner.node, view, left)?,
            E::Map(one, other) | E::Result(one, other) => {
                1 + self.measure(&one.node, view, left)? + self.measure(&other.node, view, left)?
            }
            E::Optional(inner)
            | E::Array(inner)
            | E::Set(inner)
            | E::Vec2(inner)
            | E::Vec3(inner)
            | E::Vec4(inner)
            | E::Quat(inner)
            | E::Mat3(inner)
            | E::Mat4(inner) => 1 + self.measure(&inner.node, view, left)?,
        };
        if words > WORDS {
            Err(TooLarge)
        } else {
            Ok(words)
        }
    }
}

/// The words of a resolved type as an image has it.
fn words(ty: &ResolvedType) -> u32 {
    use ResolvedType as R;
    match ty {
        R::Primitive(_) | R::Semantic(_) => 1,
        R::Named(_) => 2,
        R::SubByte(_) => 3,
        R::BitsInline(names) => 2 + names.len() as u32,
        R::FixedArray(inner, _) => 3 + words(inner),
        R::Map(one, other) | R::Result(one, other) => 1 + words(one) + words(other),
        R::Optional(inner)
        | R::Array(inner)
        | R::Set(inner)
        | R::Vec2(inner)
        | R::Vec3(inner)
        | R::Vec4(inner)
        | R::Quat(inner)
        | R::Mat3(inner)
        | R::Mat4(inner) => 1 + words(inner),
    }
}
