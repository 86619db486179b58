//! Modules and globals: here only their names.

#[allow(dead_code, unused_imports, clippy::all)] // the text has more than resolving uses
pub(crate) mod names;
pub(crate) mod slots;

use starlark_map::small_map::SmallMap;
use starlark_syntax::syntax::ast::Visibility;

use crate::values::FrozenStringValue;
use crate::values::FrozenValue;

pub(crate) struct Module;

impl Module {
    /// A name that begins with `_` is private.
    pub(crate) fn default_visibility(name: &str) -> Visibility {
        match name.starts_with('_') {
            true => Visibility::Private,
            false => Visibility::Public,
        }
    }
}

/// The value of each global.
pub(crate) struct Globals(pub(crate) SmallMap<FrozenStringValue, FrozenValue>);

impl Globals {
    pub(crate) fn get_frozen(&self, name: &str) -> Option<FrozenValue> {
        self.0.get(name).copied()
    }

    pub(crate) fn names(&self) -> impl Iterator<Item = FrozenStringValue> {
        self.0.keys().copied()
    }
}
