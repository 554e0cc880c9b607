//! A case: one call with everything that its answer depends on.

use std::rc::Rc;

use crate::second::{Answer, Call};

#[derive(Clone)]
pub struct Case {
    pub call: Call,
    pub image: Rc<[u8]>,
    pub row: u32,
    /// Bytes of lent output and lent detail.
    pub output: usize,
    pub detail: usize,
}

/// A case's whole answer: the five fields and what was written to each buffer.
#[derive(Clone, PartialEq, Eq)]
pub struct Whole {
    pub answer: Answer,
    pub output: Vec<u8>,
    pub detail: Vec<u8>,
}
