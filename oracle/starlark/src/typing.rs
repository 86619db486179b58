//! Types: carried along by the tree, never looked at.

pub(crate) mod error;
#[allow(dead_code, clippy::all)] // the text has more than resolving uses
pub(crate) mod interface;

pub(crate) use interface::Interface;

#[derive(Clone, Debug)]
pub(crate) struct Ty;
