//! Vaibmusan answers, for a Starlark script: which variable does each name mean, and in which slot does it live?
//!
//! The answers come from a static library whose functions are proved: [`judge`], [`spelling`], [`resolve`], [`Answers::follow`] and
//! [`listing`] do what document 01 (docs/01-scope.md) says, for any bytes. What this crate adds is not proved, only tested: it lends
//! the buffers, reads the packed records into named fields, and writes node files from trees ([`Script`]).
//!
//! A call needs up to 512 KB of stack ([`STACK`]) and nothing from the heap. Any thread of the standard library has that; [`with_stack`] is for
//! those that were made with less.
//!
//! ```
//! use vaibmusan::{resolve, Answers, Expr, Resolved, Script, Slot, Stmt};
//!
//! // offset = 0
//! // def corrections(drift):
//! //     offset = drift
//! //     return lambda stamp: stamp + offset
//! let body = Stmt::block([
//!     Stmt::assign("offset", "drift"),
//!     Stmt::plain(Expr::lambda(["stamp"], Expr::other(["stamp", "offset"]))),
//! ]);
//! let script = Script::new(Stmt::block([
//!     Stmt::assign("offset", Expr::Other(vec![])),
//!     Stmt::def("corrections", ["drift"], body),
//! ]));
//! let file = script.to_bytes()?;
//!
//! let mut answers = Answers::new();
//! let counts = resolve(&file, &mut answers)?;
//! assert_eq!((counts.bindings, counts.errors), (5, 0));
//!
//! // the lambda's `offset` is the function's own, not the module's
//! let offset = answers.idents().find(|i| i.name == "offset").unwrap();
//! let Resolved::Slot(Slot::Local(_), id) = offset.resolved else { panic!("no local") };
//! let binding = answers.binding(id).unwrap();
//! let home = answers.home(&offset).unwrap();
//! assert_eq!((home.scope.0, Slot::Local(home.slot)), (1, binding.slot));
//! assert!(binding.captured);
//! # Ok::<(), Box<dyn std::error::Error>>(())
//! ```

mod answers;
mod dismantle;
mod ffi;
mod file;
mod ids;
mod kinds;
mod limits;
mod listing;
mod lists;
mod nodes;
mod pool;
mod readers;
mod records;
mod refusal;
mod stack;
mod tree;
mod write;

pub use answers::{resolve, Answers, Counts, Raw};
pub use ids::{BindingId, LocalSlotId, ModuleSlotId, Name, ScopeId};
pub use limits::TooLarge;
pub use listing::{listing, Listing};
pub use readers::{readers, Readers};
pub use records::{
    AssignCount, Binding, CopySlotFromParent, ErrorKind, Home, ModuleEntry, NameError, NamedSlot, NodeAnswer, Resolved, Scope, Slot, Visibility,
};
pub use refusal::Refusal;
pub use stack::{with_stack, STACK};
pub use tree::{Clause, Expr, Id, Param, Stmt, Target};
pub use write::{Entry, Script};

/// Whether a file is accepted; of several faults the one with the smallest number. Number 12 is for [`resolve`] to tell.
///
/// ```
/// use vaibmusan::{judge, Refusal};
/// assert_eq!(judge(&[]), Err(Refusal::Header));
/// assert_eq!(Refusal::Header.number(), 2);
/// ```
///
/// # Errors
/// The smallest of document 01's numbers 2 to 11 whose condition holds.
pub fn judge(file: &[u8]) -> Result<(), Refusal> {
    Refusal::check(ffi::judge(file))
}

/// The spelling of a name number, as a part of the file; empty if judging refuses the file or there is no such name.
///
/// ```
/// use vaibmusan::{spelling, Script, Stmt};
/// let file = Script::new(Stmt::plain("clock")).to_bytes()?;
/// assert_eq!(spelling(&file, 0), b"clock");
/// assert_eq!(spelling(&file, 1), b"");
/// # Ok::<(), vaibmusan::TooLarge>(())
/// ```
#[must_use]
pub fn spelling(file: &[u8], name: usize) -> &[u8] {
    ffi::spelling(file, name)
}

/// The README's code, as a test.
#[cfg(doctest)]
#[doc = include_str!("../README.md")]
struct Readme;

/// The version of the linked library: a thousand times the first number, and the second.
#[must_use]
pub fn library_version() -> u64 {
    ffi::version()
}
