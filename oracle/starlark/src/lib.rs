//! Crate `starlark`, as much of it as resolves names. Five files are the original's text
//! (see ../../README.md); the others stand in for the modules that these name, under the
//! same paths, with just the items that they use.

// One crate of derive macros stands in for three crates.
extern crate derives as allocative;
extern crate derives as starlark_derive;
extern crate derives as thiserror;

pub mod door;
mod environment;
mod errors;
mod eval;
mod typing;
mod values;

use starlark_syntax::Error;
use starlark_syntax::ErrorKind;
use starlark_syntax::Result;
use starlark_syntax::codemap;
use starlark_syntax::syntax;

/// The original's paths for maps.
mod collections {
    pub(crate) use starlark_map::Hashed;
    pub(crate) use starlark_map::small_map::SmallMap;
}

pub use values::FrozenHeap;
use values::const_frozen_string;
