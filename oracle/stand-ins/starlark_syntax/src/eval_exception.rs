//! An error at a place.

use crate::Error;
use crate::codemap::CodeMap;
use crate::codemap::Span;

pub struct EvalException {
    pub error: Error,
    pub span: Span,
}

impl EvalException {
    pub fn new(error: Error, span: Span, _codemap: &CodeMap) -> EvalException {
        EvalException { error, span }
    }

    pub fn into_error(self) -> Error {
        self.error
    }
}
