//! Stands for `crate::span`: places in a source file. An image has no source, so every span is empty.

#[derive(Debug, Clone, Copy, PartialEq, Eq)]
pub struct Span;

impl Span {
    pub fn empty(_offset: u32) -> Self {
        Span
    }
}

#[derive(Debug, Clone, PartialEq)]
pub struct Spanned<T> {
    pub node: T,
    pub span: Span,
}

impl<T> Spanned<T> {
    pub fn new(node: T, span: Span) -> Self {
        Spanned { node, span }
    }
}
