//! Why there is no output: the original's cases, and those that are added.

use std::error::Error;
use std::fmt;

use crate::{NameRow, TypeRun};

/// Why a trait implementation cannot be projected portably.
#[derive(Debug, Clone, PartialEq, Eq)]
pub enum PortableFunctionError {
    /// 2, added: a rule or a bound of the image is broken; a name or a string that is not UTF-8 breaks one.
    UnreadableImage,
    /// 3, added: the number is no implementation's row.
    NoImplementation,
    /// 4: the trait is absent or not a trait's row.
    UnknownTrait {
        /// The trait's name.
        trait_name: NameRow,
    },
    /// 5: the target is not a message.
    InvalidTarget,
    /// 6: what the trait asks for is not what the implementation has.
    SignatureMismatch {
        /// The function; for [`SignatureDetail::TypeArgumentCount`] the trait's name.
        function: NameRow,
        /// What differs.
        detail: SignatureDetail,
    },
    /// 7: a parameter or the return has a type that is not known.
    UnresolvedType {
        /// The trait's function.
        function: NameRow,
    },
    /// 8, added: one type expression needs over 1,024 visits or passes 64 words, as an alias that names itself does.
    TypeTooLarge {
        /// The trait's function.
        function: NameRow,
    },
    /// 9: the implementation has the function twice.
    DuplicateFunction {
        /// The function.
        function: NameRow,
    },
    /// 10: the trait does not have the function.
    ExtraFunction {
        /// The function.
        function: NameRow,
    },
    /// 11: the implementation does not have the function.
    MissingFunction {
        /// The function.
        function: NameRow,
    },
    /// 12: the function has no body.
    ExternalFunction {
        /// The function.
        function: NameRow,
    },
    /// 13: a free call.
    UnsupportedCall {
        /// The function.
        function: NameRow,
        /// What it calls.
        called: NameRow,
    },
    /// 14: a method call.
    UnsupportedMethodCall {
        /// The function.
        function: NameRow,
        /// The method that it calls.
        called: NameRow,
    },
    /// 15: a statement that is an expression alone.
    UnsupportedExpressionStatement {
        /// The function.
        function: NameRow,
    },
    /// 16: a local that is not known.
    UnknownLocal {
        /// The function.
        function: NameRow,
        /// The local.
        name: NameRow,
    },
    /// 17: a field that the receiver does not have, or a field of something else.
    UnknownField {
        /// The function.
        function: NameRow,
        /// The field.
        field: NameRow,
    },
    /// 18: a local that is there already.
    DuplicateLocal {
        /// The function.
        function: NameRow,
        /// The local.
        name: NameRow,
    },
    /// 19: an assignment to anything but a field of the receiver.
    InvalidAssignmentTarget {
        /// The function.
        function: NameRow,
    },
    /// 20: a value of another type than its place wants.
    TypeMismatch {
        /// The function.
        function: NameRow,
        /// The place.
        context: Context,
        /// The type that it wants.
        expected: TypeRun,
        /// The value's type.
        actual: TypeRun,
    },
    /// 21: an operator on a type that it does not take.
    InvalidOperator {
        /// The function.
        function: NameRow,
        /// The operator.
        operator: Operator,
        /// The type.
        actual: TypeRun,
    },
    /// 22: a return that is not the signature's.
    ReturnMismatch {
        /// The function.
        function: NameRow,
        /// What is wrong.
        detail: ReturnDetail,
    },
    /// 23: a statement after a return.
    StatementsAfterReturn {
        /// The function.
        function: NameRow,
    },
    /// 24 twice: the output did not fit in the room that it was said to need. The proved library never answers so.
    OutputTooShort {
        /// The bytes that are needed.
        needed: u32,
    },
    /// The library's answer is none of document 01's. The proved library never answers so.
    UnknownAnswer {
        /// Its five words.
        answer: [u32; 5],
    },
    /// The call needs a thread of its own for its stack, and the system has none.
    NoThread,
}

/// What differs between two signatures, as expected by the trait and as found in the implementation.
#[derive(Debug, Clone, PartialEq, Eq)]
pub enum SignatureDetail {
    /// Kind 0: how many type arguments.
    TypeArgumentCount {
        /// Of the trait.
        expected: u32,
        /// Of the implementation.
        found: u32,
    },
    /// Kind 1: how many parameters.
    ParameterCount {
        /// Of the trait.
        expected: u32,
        /// Of the implementation.
        found: u32,
    },
    /// Kind 2: a parameter's name.
    ParameterName {
        /// Of the trait.
        expected: NameRow,
        /// Of the implementation.
        found: NameRow,
    },
    /// Kind 3: a parameter's type.
    ParameterType {
        /// The parameter.
        parameter: NameRow,
        /// Of the trait.
        expected: TypeRun,
        /// Of the implementation.
        found: TypeRun,
    },
    /// Kind 4: the return, nothing where no value is returned.
    Return {
        /// Of the trait.
        expected: Option<TypeRun>,
        /// Of the implementation.
        found: Option<TypeRun>,
    },
}

/// The place of a value whose type is not the one that is wanted.
#[derive(Debug, Clone, Copy, PartialEq, Eq)]
pub enum Context {
    /// 0.
    IntegerLiteral,
    /// 1.
    UnsignedLiteral,
    /// 2.
    FloatLiteral,
    /// 3.
    LocalBinding,
    /// 4.
    Return,
    /// 5.
    ReceiverFieldAssignment,
    /// 6.
    Binary,
    /// 7.
    Unary,
}

/// An operator, `BinOp` and `UnaryOp` of the original in one.
#[derive(Debug, Clone, Copy, PartialEq, Eq)]
pub enum Operator {
    /// 0, `+`.
    Add,
    /// 1, `-` of two.
    Sub,
    /// 2, `*`.
    Mul,
    /// 3, `/`.
    Div,
    /// 4, `==`.
    Eq,
    /// 5, `!=`.
    Ne,
    /// 6, `<`.
    Lt,
    /// 7, `<=`.
    Le,
    /// 8, `>`.
    Gt,
    /// 9, `>=`.
    Ge,
    /// 10, `-` of one.
    Neg,
    /// 11, `!`.
    Not,
}

/// What is wrong with a return.
#[derive(Debug, Clone, Copy, PartialEq, Eq)]
pub enum ReturnDetail {
    /// 0: a void function returns a value.
    VoidGivesValue,
    /// 1: a return without the value.
    ValueMissing,
    /// 2: the body does not end with a return.
    NoReturnAtEnd,
}

impl PortableFunctionError {
    /// Document 01's number; nothing where the answer is none of its.
    pub fn number(&self) -> Option<u32> {
        Some(match self {
            Self::UnreadableImage => 2,
            Self::NoImplementation => 3,
            Self::UnknownTrait { .. } => 4,
            Self::InvalidTarget => 5,
            Self::SignatureMismatch { .. } => 6,
            Self::UnresolvedType { .. } => 7,
            Self::TypeTooLarge { .. } => 8,
            Self::DuplicateFunction { .. } => 9,
            Self::ExtraFunction { .. } => 10,
            Self::MissingFunction { .. } => 11,
            Self::ExternalFunction { .. } => 12,
            Self::UnsupportedCall { .. } => 13,
            Self::UnsupportedMethodCall { .. } => 14,
            Self::UnsupportedExpressionStatement { .. } => 15,
            Self::UnknownLocal { .. } => 16,
            Self::UnknownField { .. } => 17,
            Self::DuplicateLocal { .. } => 18,
            Self::InvalidAssignmentTarget { .. } => 19,
            Self::TypeMismatch { .. } => 20,
            Self::InvalidOperator { .. } => 21,
            Self::ReturnMismatch { .. } => 22,
            Self::StatementsAfterReturn { .. } => 23,
            Self::OutputTooShort { .. } => 24,
            Self::UnknownAnswer { .. } | Self::NoThread => return None,
        })
    }
}

// The original's sentences are left out, as document 01 says: the case with its fields is the message.
impl fmt::Display for PortableFunctionError {
    fn fmt(&self, f: &mut fmt::Formatter<'_>) -> fmt::Result {
        match self.number() {
            Some(number) => write!(f, "{number} {self:?}"),
            None => write!(f, "{self:?}"),
        }
    }
}

impl Error for PortableFunctionError {}
