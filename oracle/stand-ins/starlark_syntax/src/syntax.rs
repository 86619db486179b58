//! The syntax tree and the walks over it. Wherever a walk meets children, it meets them in
//! the order of document 01's table.

pub mod ast;
pub mod payload_map;
pub mod top_level_stmts;
pub mod uniplate;

/// The setting of the language that resolving asks for.
pub struct Dialect {
    pub enable_load_reexport: bool,
}
