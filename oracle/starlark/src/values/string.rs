//! Interned strings: one copy of each spelling, kept with its hash until the program ends.

use std::borrow::Borrow;
use std::cell::RefCell;
use std::collections::HashSet;
use std::hash::BuildHasherDefault;
use std::hash::Hash;
use std::hash::Hasher;
use std::ops::Deref;

use starlark_map::Hashed;
use starlark_map::StarlarkHasher;

#[derive(Copy, Clone, Debug)]
pub(crate) struct FrozenStringValue(&'static Hashed<String>);

impl FrozenStringValue {
    pub(crate) fn as_str(&self) -> &'static str {
        self.0.key()
    }

    pub(crate) fn get_hashed(self) -> Hashed<FrozenStringValue> {
        Hashed::new_unchecked(self.0.hash(), self)
    }
}

impl Deref for FrozenStringValue {
    type Target = str;

    fn deref(&self) -> &str {
        self.as_str()
    }
}

impl Borrow<str> for FrozenStringValue {
    fn borrow(&self) -> &str {
        self.as_str()
    }
}

impl PartialEq for FrozenStringValue {
    fn eq(&self, other: &FrozenStringValue) -> bool {
        std::ptr::eq(self.0, other.0) || self.as_str() == other.as_str()
    }
}

impl Eq for FrozenStringValue {}

impl Hash for FrozenStringValue {
    fn hash<H: Hasher>(&self, state: &mut H) {
        self.as_str().hash(state);
    }
}

/// Where strings are interned.
#[derive(Default)]
pub struct FrozenHeap {
    interned: RefCell<HashSet<FrozenStringValue, BuildHasherDefault<StarlarkHasher>>>,
}

impl FrozenHeap {
    pub fn new() -> FrozenHeap {
        FrozenHeap::default()
    }

    pub(crate) fn alloc_str_intern(&self, text: &str) -> FrozenStringValue {
        let mut interned = self.interned.borrow_mut();
        if let Some(known) = interned.get(text) {
            return *known;
        }
        let new = FrozenStringValue(Box::leak(Box::new(Hashed::new(text.to_owned()))));
        interned.insert(new);
        new
    }
}
