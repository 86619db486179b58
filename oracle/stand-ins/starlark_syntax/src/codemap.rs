//! Where something stands in the source: here, which node of the node file it is.

use std::ops::Deref;
use std::ops::DerefMut;

/// A node number.
#[derive(Copy, Clone, Debug, Default)]
pub struct Span(pub usize);

/// The original's source text; a node file has none.
pub struct CodeMap;

#[derive(Clone)]
pub struct Spanned<T> {
    pub node: T,
    pub span: Span,
}

impl<T> Deref for Spanned<T> {
    type Target = T;

    fn deref(&self) -> &T {
        &self.node
    }
}

impl<T> DerefMut for Spanned<T> {
    fn deref_mut(&mut self) -> &mut T {
        &mut self.node
    }
}
