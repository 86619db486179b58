//! Stand-in for crate `starlark_map`: a key with its hash, and maps in insertion order.

mod hashed;
pub mod small_map;

pub use hashed::Hashed;
pub use hashed::StarlarkHasher;
