//! The two proved calls of Fruscalitu. An image is a schema's bytes, a [`TypeId`] the row of one of its
//! implementations; the answer is output words with their visits, or why there are none. Every image and every number
//! has an answer: nothing here panics on bad use.
//!
//! Names are rows of the image's names, types are runs of words: both mean what document 01 says.
//!
//! The library needs 786,432 bytes of stack. On Linux a thread that has so much left makes the call itself; from any
//! other, and on other systems, the call gets a thread of its own.
//!
//! ```
//! use fruscalitu::{expected_signatures, PortableFunctionError, TypeId};
//!
//! let answer = expected_signatures(b"no image", TypeId(0));
//! assert_eq!(answer, Err(PortableFunctionError::UnreadableImage));
//! ```

mod call;
mod decode;
mod error;
#[allow(unsafe_code)]
mod linked;
mod stack;
#[cfg(test)]
mod tests;
mod words;

pub use error::{Context, Operator, PortableFunctionError, ReturnDetail, SignatureDetail};
pub use words::run_length;

/// A definition's number: its row in the image.
#[derive(Debug, Clone, Copy, PartialEq, Eq, Hash, PartialOrd, Ord)]
pub struct TypeId(pub u32);

/// A name's row in the image.
#[derive(Debug, Clone, Copy, PartialEq, Eq, Hash, PartialOrd, Ord)]
pub struct NameRow(pub u32);

/// A resolved type: its words in prefix order, at most 64.
pub type TypeRun = Vec<u32>;

/// What an accepted call gives.
#[derive(Debug, Clone, PartialEq, Eq)]
pub struct Accepted {
    /// The output words, the functions in the trait's order.
    pub words: Vec<u32>,
    /// How many type-expression nodes were read, over all parameters and returns.
    pub visits: u32,
}

/// The concrete signatures that an implementation's trait asks for.
pub fn expected_signatures(image: &[u8], number: TypeId) -> Result<Accepted, PortableFunctionError> {
    call::ask(linked::Call::ExpectedSignatures, image, number)
}

/// Validates and lowers all functions of one trait implementation.
pub fn project_impl(image: &[u8], number: TypeId) -> Result<Accepted, PortableFunctionError> {
    call::ask(linked::Call::ProjectImpl, image, number)
}
