//! The stored cases, as vectors/README.md has them, and a refusal's words once more.

use crate::words;
use crate::{Context, NameRow, Operator, PortableFunctionError, ReturnDetail, SignatureDetail, TypeRun};

const CASES: &[u8] = include_bytes!("../../../../crates/replay/data/cases.bin");
const LABELS: &str = include_str!("../../../../crates/replay/data/labels.txt");

/// Number, function, second; the detail's words.
pub type Told = ([u32; 3], Vec<u32>);

pub struct Case {
    pub label: &'static str,
    pub call: u32,
    pub row: u32,
    pub image: Vec<u8>,
    pub answer: [u32; 5],
    pub output: Vec<u32>,
    pub detail: Vec<u32>,
}

impl Case {
    pub fn told(&self) -> Told {
        let [number, function, second, ..] = self.answer;
        ([number, function, second], self.detail.clone())
    }
}

fn take<'a>(file: &mut &'a [u8], length: u32) -> &'a [u8] {
    let (taken, rest) = file.split_at(length as usize);
    *file = rest;
    taken
}

pub fn cases() -> Vec<Case> {
    let mut file = CASES;
    let count = words::of_bytes(take(&mut file, 4))[0] as usize;
    let cases: Vec<Case> = LABELS
        .lines()
        .map(|label| {
            let head = words::of_bytes(take(&mut file, 48));
            Case {
                label,
                call: head[0],
                row: head[1],
                image: take(&mut file, head[4]).to_vec(),
                answer: [head[5], head[6], head[7], head[8], head[9]],
                output: words::of_bytes(take(&mut file, head[10])),
                detail: words::of_bytes(take(&mut file, head[11])),
            }
        })
        .collect();
    assert_eq!((cases.len(), file), (count, [].as_slice()));
    cases
}

/// What document 01 has for a refusal: the inverse of decoding, written from its tables.
pub fn told(refusal: &PortableFunctionError) -> Told {
    use PortableFunctionError as E;
    const NONE: NameRow = NameRow(u32::MAX);
    let (function, second, detail) = match refusal {
        E::UnknownTrait { trait_name } => (NONE, *trait_name, vec![]),
        E::SignatureMismatch { function, detail } => {
            let (second, words) = signature(detail);
            (*function, second.unwrap_or(NONE), words)
        }
        E::UnresolvedType { function }
        | E::TypeTooLarge { function }
        | E::DuplicateFunction { function }
        | E::ExtraFunction { function }
        | E::MissingFunction { function }
        | E::ExternalFunction { function }
        | E::UnsupportedExpressionStatement { function }
        | E::InvalidAssignmentTarget { function }
        | E::StatementsAfterReturn { function } => (*function, NONE, vec![]),
        E::UnsupportedCall { function, called: second }
        | E::UnsupportedMethodCall { function, called: second }
        | E::UnknownLocal { function, name: second }
        | E::UnknownField { function, field: second }
        | E::DuplicateLocal { function, name: second } => (*function, *second, vec![]),
        E::TypeMismatch { function, context, expected, actual } => {
            (*function, NONE, [&[place(&CONTEXTS, context)], expected.as_slice(), actual].concat())
        }
        E::InvalidOperator { function, operator, actual } => {
            (*function, NONE, [&[place(&OPERATORS, operator)], actual.as_slice()].concat())
        }
        E::ReturnMismatch { function, detail } => (*function, NONE, vec![place(&RETURNS, detail)]),
        E::UnreadableImage
        | E::NoImplementation
        | E::InvalidTarget
        | E::OutputTooShort { .. }
        | E::UnknownAnswer { .. }
        | E::NoThread => (NONE, NONE, vec![]),
    };
    ([refusal.number().unwrap_or(u32::MAX), function.0, second.0], detail)
}

fn signature(detail: &SignatureDetail) -> (Option<NameRow>, Vec<u32>) {
    use SignatureDetail as D;
    let maybe = |run: &Option<TypeRun>| run.as_ref().map_or(vec![0], |run| [&[1], run.as_slice()].concat());
    match detail {
        D::TypeArgumentCount { expected, found } => (None, vec![0, *expected, *found]),
        D::ParameterCount { expected, found } => (None, vec![1, *expected, *found]),
        D::ParameterName { expected, found } => (None, vec![2, expected.0, found.0]),
        D::ParameterType { parameter, expected, found } => {
            (Some(*parameter), [&[3], expected.as_slice(), found].concat())
        }
        D::Return { expected, found } => (None, [vec![4], maybe(expected), maybe(found)].concat()),
    }
}

const CONTEXTS: [Context; 8] = [
    Context::IntegerLiteral,
    Context::UnsignedLiteral,
    Context::FloatLiteral,
    Context::LocalBinding,
    Context::Return,
    Context::ReceiverFieldAssignment,
    Context::Binary,
    Context::Unary,
];

const OPERATORS: [Operator; 12] = [
    Operator::Add,
    Operator::Sub,
    Operator::Mul,
    Operator::Div,
    Operator::Eq,
    Operator::Ne,
    Operator::Lt,
    Operator::Le,
    Operator::Gt,
    Operator::Ge,
    Operator::Neg,
    Operator::Not,
];

const RETURNS: [ReturnDetail; 3] =
    [ReturnDetail::VoidGivesValue, ReturnDetail::ValueMissing, ReturnDetail::NoReturnAtEnd];

fn place<T: PartialEq>(all: &[T], one: &T) -> u32 {
    all.iter().position(|other| other == one).map_or(u32::MAX, |place| place as u32)
}
