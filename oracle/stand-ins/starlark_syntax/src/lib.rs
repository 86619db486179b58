//! Stand-in for crate `starlark_syntax`: the syntax tree with payloads, its visitors, and
//! errors. It has no parser: trees are built from node files, and a span is a node number.

pub mod codemap;
mod error;
pub mod eval_exception;
pub mod syntax;

pub use error::Error;
pub use error::ErrorKind;
pub use error::Result;
