//! Frozen values: a global is its number, a string is interned.

pub(crate) mod any;
mod string;

pub use string::FrozenHeap;
pub(crate) use string::FrozenStringValue;

/// The position of a global in the file's list.
#[derive(Copy, Clone, Debug)]
pub(crate) struct FrozenValue(pub(crate) usize);

/// The original's answer when globals are unknown. Here every file lists them.
pub(crate) struct UnknownGlobal;

impl UnknownGlobal {
    pub(crate) fn to_frozen_value(&self) -> FrozenValue {
        unreachable!("globals are known")
    }
}

macro_rules! const_frozen_string {
    ($text:expr) => {
        $crate::values::UnknownGlobal
    };
}
pub(crate) use const_frozen_string;
