//! Asks the Rust, and turns its `Result` into document 01's number, names (as rows) and output words.

use crate::ast::SubByteType;
use crate::ir::{BinOp, ImplDef, ResolvedType, TypeDef, TypeId, UnaryOp};
use crate::loader::Loaded;
use crate::portable::{
    expected_signatures, project_impl, PortableExpr, PortableExprKind, PortableFunction, PortableFunctionError,
    PortableParam, PortableSignature, PortableStatement,
};
use crate::types::{PRIMITIVES, SEMANTICS};

pub const NONE: u32 = u32::MAX;

/// What the Rust says, in 01's terms. It knows nothing of 1, 2, 3, 8, 24, visits, lengths and detail words.
#[derive(Debug, Clone, PartialEq, Eq)]
pub struct Told {
    pub number: u32,
    pub function: u32,
    pub second: u32,
    /// Under 0, the output.
    pub output: Vec<u32>,
    /// Otherwise, the error's own sentence.
    pub sentence: String,
}

impl Loaded {
    /// None where the row is no implementation's: the Rust has no such question.
    pub fn project_impl(&self, row: u32) -> Option<Told> {
        let result = project_impl(&self.schema, self.implementation(row)?);
        Some(self.told(result, |words, functions| words.functions(&functions)))
    }

    /// The same for the signatures that the implementation must have.
    pub fn expected_signatures(&self, row: u32) -> Option<Told> {
        let result = expected_signatures(&self.schema, self.implementation(row)?);
        Some(self.told(result, |words, signatures| words.signatures(&signatures)))
    }

    /// The Rust's own calls with nothing made of what they give: for times. Whether they accept.
    pub fn accepts_impl(&self, row: u32) -> Option<bool> {
        Some(project_impl(&self.schema, self.implementation(row)?).is_ok())
    }

    pub fn accepts_signatures(&self, row: u32) -> Option<bool> {
        Some(expected_signatures(&self.schema, self.implementation(row)?).is_ok())
    }

    pub fn is_implementation(&self, row: u32) -> bool {
        self.implementation(row).is_some()
    }

    pub(crate) fn implementation(&self, row: u32) -> Option<&ImplDef> {
        match self.schema.registry.get(TypeId(row)) {
            Some(TypeDef::Impl(impl_def)) => Some(impl_def),
            _ => None,
        }
    }

    fn told<T>(&self, result: Result<T, PortableFunctionError>, write: impl FnOnce(&mut Words, T)) -> Told {
        match result {
            Ok(accepted) => {
                let mut words = Words { loaded: self, out: Vec::new() };
                write(&mut words, accepted);
                Told { number: 0, function: NONE, second: NONE, output: words.out, sentence: String::new() }
            }
            Err(error) => self.refusal(&error),
        }
    }

    pub(crate) fn row(&self, text: &str) -> u32 {
        self.rows[text]
    }

    fn refusal(&self, error: &PortableFunctionError) -> Told {
        use PortableFunctionError as E;
        let (number, function, second) = match error {
            E::UnknownTrait { trait_name } => (4, None, Some(trait_name)),
            E::InvalidTarget => (5, None, None),
            E::SignatureMismatch { function, .. } => (6, Some(function), None),
            E::UnresolvedType { function } => (7, Some(function), None),
            E::DuplicateFunction { function } => (9, Some(function), None),
            E::ExtraFunction { function } => (10, Some(function), None),
            E::MissingFunction { function } => (11, Some(function), None),
            E::ExternalFunction { function } => (12, Some(function), None),
            E::UnsupportedCall { function, called } => (13, Some(function), Some(called)),
            E::UnsupportedMethodCall { function, called } => (14, Some(function), Some(called)),
            E::UnsupportedExpressionStatement { function } => (15, Some(function), None),
            E::UnknownLocal { function, name } => (16, Some(function), Some(name)),
            E::UnknownField { function, field } => (17, Some(function), Some(field)),
            E::DuplicateLocal { function, name } => (18, Some(function), Some(name)),
            E::InvalidAssignmentTarget { function } => (19, Some(function), None),
            E::TypeMismatch { function, .. } => (20, Some(function), None),
            E::InvalidOperator { function, .. } => (21, Some(function), None),
            E::ReturnMismatch { function, .. } => (22, Some(function), None),
            E::StatementsAfterReturn { function } => (23, Some(function), None),
        };
        let row = |text: Option<&smol_str::SmolStr>| text.map_or(NONE, |text| self.row(text));
        Told { number, function: row(function), second: row(second), output: Vec::new(), sentence: error.to_string() }
    }
}

/// Writes 01's output words.
struct Words<'a> {
    loaded: &'a Loaded,
    out: Vec<u32>,
}

impl Words<'_> {
    fn put(&mut self, word: u32) {
        self.out.push(word);
    }

    fn long(&mut self, value: u64) {
        self.out.extend([value as u32, (value >> 32) as u32]);
    }

    fn name(&mut self, text: &str) {
        self.put(self.loaded.row(text));
    }

    fn signatures(&mut self, signatures: &[PortableSignature]) {
        self.put(signatures.len() as u32);
        for signature in signatures {
            self.signature(&signature.name, &signature.params, &signature.return_type);
        }
    }

    fn functions(&mut self, functions: &[PortableFunction]) {
        self.put(functions.len() as u32);
        for function in functions {
            self.signature(&function.name, &function.params, &function.return_type);
            self.put(function.statements.len() as u32);
            for statement in &function.statements {
                self.statement(statement);
            }
        }
    }

    fn signature(&mut self, name: &str, params: &[PortableParam], return_type: &Option<ResolvedType>) {
        self.name(name);
        self.put(params.len() as u32);
        for param in params {
            self.name(&param.name);
            self.ty(&param.ty);
        }
        self.put(return_type.is_some().into());
        if let Some(ty) = return_type {
            self.ty(ty);
        }
    }

    fn statement(&mut self, statement: &PortableStatement) {
        match statement {
            PortableStatement::Let { name, ty, value } => {
                self.put(1);
                self.name(name);
                self.ty(ty);
                self.value(value);
            }
            PortableStatement::Return(value) => {
                self.put(2);
                self.put(value.is_some().into());
                if let Some(value) = value {
                    self.value(value);
                }
            }
            PortableStatement::AssignSelfField { field, value } => {
                self.put(3);
                self.name(field);
                self.value(value);
            }
        }
    }

    fn value(&mut self, value: &PortableExpr) {
        use PortableExprKind as K;
        self.ty(&value.ty);
        match &value.kind {
            K::Int(value) => {
                self.put(0);
                self.long(*value as u64);
            }
            K::UInt(value) => {
                self.put(1);
                self.long(*value);
            }
            K::Float(value) => {
                self.put(2);
                self.long(value.to_bits());
            }
            K::Bool(value) => {
                self.put(3);
                self.put((*value).into());
            }
            K::String(text) => {
                // The loader put the row before the text.
                let row = text.split(':').next().and_then(|row| row.parse().ok());
                self.put(4);
                self.put(row.expect("a string without its row"));
            }
            K::Local(name) => {
                self.put(5);
                self.name(name);
            }
            K::SelfRef => self.put(6),
            K::SelfField(field) => {
                self.put(7);
                self.name(field);
            }
            K::Binary(operator, left, right) => {
                self.put(10);
                self.put(operator_word(*operator));
                self.value(left);
                self.value(right);
            }
            K::Unary(operator, value) => {
                self.put(11);
                self.put((*operator == UnaryOp::Not).into());
                self.value(value);
            }
        }
    }

    fn ty(&mut self, ty: &ResolvedType) {
        use ResolvedType as R;
        match ty {
            R::Primitive(primitive) => self.put(place(&PRIMITIVES, primitive)),
            R::SubByte(SubByteType { signed, bits }) => {
                self.put(16);
                self.put((*signed).into());
                self.put((*bits).into());
            }
            R::Semantic(semantic) => self.put(32 + place(&SEMANTICS, semantic)),
            R::Named(id) => {
                self.put(48);
                self.put(id.index());
            }
            R::Optional(inner) => self.parts(64, &[inner]),
            R::Array(inner) => self.parts(65, &[inner]),
            R::FixedArray(inner, length) => {
                self.put(66);
                self.long(*length);
                self.ty(inner);
            }
            R::Set(inner) => self.parts(67, &[inner]),
            R::Map(key, value) => self.parts(68, &[key, value]),
            R::Result(ok, error) => self.parts(69, &[ok, error]),
            R::Vec2(inner) => self.parts(70, &[inner]),
            R::Vec3(inner) => self.parts(71, &[inner]),
            R::Vec4(inner) => self.parts(72, &[inner]),
            R::Quat(inner) => self.parts(73, &[inner]),
            R::Mat3(inner) => self.parts(74, &[inner]),
            R::Mat4(inner) => self.parts(75, &[inner]),
            R::BitsInline(names) => {
                self.put(80);
                self.put(names.len() as u32);
                for name in names {
                    self.name(name);
                }
            }
        }
    }

    fn parts(&mut self, code: u32, parts: &[&ResolvedType]) {
        self.put(code);
        for part in parts {
            self.ty(part);
        }
    }
}

fn place<T: PartialEq>(table: &[T], item: &T) -> u32 {
    table.iter().position(|other| other == item).expect("a type that 01 does not list") as u32
}

fn operator_word(operator: BinOp) -> u32 {
    match operator {
        BinOp::Add => 0,
        BinOp::Sub => 1,
        BinOp::Mul => 2,
        BinOp::Div => 3,
        BinOp::Eq => 4,
        BinOp::Ne => 5,
        BinOp::Lt => 6,
        BinOp::Le => 7,
        BinOp::Gt => 8,
        BinOp::Ge => 9,
    }
}
