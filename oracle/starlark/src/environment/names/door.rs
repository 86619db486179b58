//! The door to the names of a module: a list whose slots may be any, as a node file gives it.

use starlark_syntax::syntax::ast::Visibility;

use super::MutableNames;
use crate::environment::slots::ModuleSlotId;
use crate::values::FrozenStringValue;

impl MutableNames {
    pub(crate) fn with_entries(
        entries: impl Iterator<Item = (FrozenStringValue, ModuleSlotId, Visibility)>,
    ) -> MutableNames {
        let names = MutableNames::new();
        for (name, slot, vis) in entries {
            names
                .0
                .borrow_mut()
                .insert_hashed(name.get_hashed(), (slot, vis));
        }
        names
    }
}
