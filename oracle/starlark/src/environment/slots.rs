//! The number of a module's slot.

#[derive(Clone, Copy, Debug, PartialEq, Eq)]
pub(crate) struct ModuleSlotId(pub(crate) u32);

impl ModuleSlotId {
    pub(crate) fn new(index: u32) -> Self {
        Self(index)
    }
}
