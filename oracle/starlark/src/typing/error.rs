//! An error that only a fault in the resolver itself could make; shown when it panics.

use std::fmt::Display;

use crate::codemap::CodeMap;
use crate::codemap::Span;

#[derive(Debug)]
pub struct InternalError {
    #[expect(dead_code)] // read by Debug
    message: String,
    #[expect(dead_code)] // read by Debug
    span: Span,
}

impl InternalError {
    pub(crate) fn msg(message: impl Display, span: Span, _codemap: &CodeMap) -> InternalError {
        InternalError {
            message: message.to_string(),
            span,
        }
    }
}
