//! A refusal from the library's words.

use crate::error::{Context, Operator, PortableFunctionError, ReturnDetail, SignatureDetail};
use crate::words::run_length;
use crate::{NameRow, TypeRun};

/// The mark of an absent name.
const NONE: u32 = u32::MAX;

/// The refusal that the answer's words and the detail's tell.
pub fn refusal(answer: [u32; 5], detail: &[u32]) -> PortableFunctionError {
    told(answer, Detail(detail)).unwrap_or(PortableFunctionError::UnknownAnswer { answer })
}

fn told(answer: [u32; 5], mut words: Detail) -> Option<PortableFunctionError> {
    use PortableFunctionError as E;
    let [number, function, second, length, _] = answer;
    let second = name(second);
    // Numbers of an image, of a call or of the room have no function.
    match number {
        2 => return Some(E::UnreadableImage),
        3 => return Some(E::NoImplementation),
        4 => return Some(E::UnknownTrait { trait_name: second? }),
        5 => return Some(E::InvalidTarget),
        24 => return Some(E::OutputTooShort { needed: length }),
        _ => {}
    }
    let function = name(function)?;
    Some(match number {
        6 => E::SignatureMismatch { function, detail: words.signature(second)? },
        7 => E::UnresolvedType { function },
        8 => E::TypeTooLarge { function },
        9 => E::DuplicateFunction { function },
        10 => E::ExtraFunction { function },
        11 => E::MissingFunction { function },
        12 => E::ExternalFunction { function },
        13 => E::UnsupportedCall { function, called: second? },
        14 => E::UnsupportedMethodCall { function, called: second? },
        15 => E::UnsupportedExpressionStatement { function },
        16 => E::UnknownLocal { function, name: second? },
        17 => E::UnknownField { function, field: second? },
        18 => E::DuplicateLocal { function, name: second? },
        19 => E::InvalidAssignmentTarget { function },
        20 => E::TypeMismatch { function, context: words.context()?, expected: words.run()?, actual: words.run()? },
        21 => E::InvalidOperator { function, operator: words.operator()?, actual: words.run()? },
        22 => E::ReturnMismatch { function, detail: words.return_detail()? },
        23 => E::StatementsAfterReturn { function },
        _ => return None,
    })
}

/// The name's row, where there is one.
fn name(word: u32) -> Option<NameRow> {
    (word != NONE).then_some(NameRow(word))
}

/// Detail words that are still to be read; each read gives nothing where they are not as document 01 has them.
struct Detail<'a>(&'a [u32]);

impl Detail<'_> {
    fn word(&mut self) -> Option<u32> {
        let (word, rest) = self.0.split_first()?;
        self.0 = rest;
        Some(*word)
    }

    fn name(&mut self) -> Option<NameRow> {
        name(self.word()?)
    }

    fn run(&mut self) -> Option<TypeRun> {
        let (run, rest) = self.0.split_at_checked(run_length(self.0)?)?;
        self.0 = rest;
        Some(run.to_vec())
    }

    /// 0, or 1 and a type.
    fn maybe_run(&mut self) -> Option<Option<TypeRun>> {
        match self.word()? {
            0 => Some(None),
            1 => self.run().map(Some),
            _ => None,
        }
    }

    fn signature(&mut self, second: Option<NameRow>) -> Option<SignatureDetail> {
        use SignatureDetail as D;
        Some(match self.word()? {
            0 => D::TypeArgumentCount { expected: self.word()?, found: self.word()? },
            1 => D::ParameterCount { expected: self.word()?, found: self.word()? },
            2 => D::ParameterName { expected: self.name()?, found: self.name()? },
            3 => D::ParameterType { parameter: second?, expected: self.run()?, found: self.run()? },
            4 => D::Return { expected: self.maybe_run()?, found: self.maybe_run()? },
            _ => return None,
        })
    }

    fn context(&mut self) -> Option<Context> {
        Some(match self.word()? {
            0 => Context::IntegerLiteral,
            1 => Context::UnsignedLiteral,
            2 => Context::FloatLiteral,
            3 => Context::LocalBinding,
            4 => Context::Return,
            5 => Context::ReceiverFieldAssignment,
            6 => Context::Binary,
            7 => Context::Unary,
            _ => return None,
        })
    }

    fn operator(&mut self) -> Option<Operator> {
        Some(match self.word()? {
            0 => Operator::Add,
            1 => Operator::Sub,
            2 => Operator::Mul,
            3 => Operator::Div,
            4 => Operator::Eq,
            5 => Operator::Ne,
            6 => Operator::Lt,
            7 => Operator::Le,
            8 => Operator::Gt,
            9 => Operator::Ge,
            10 => Operator::Neg,
            11 => Operator::Not,
            _ => return None,
        })
    }

    fn return_detail(&mut self) -> Option<ReturnDetail> {
        Some(match self.word()? {
            0 => ReturnDetail::VoidGivesValue,
            1 => ReturnDetail::ValueMissing,
            2 => ReturnDetail::NoReturnAtEnd,
            _ => return None,
        })
    }
}
