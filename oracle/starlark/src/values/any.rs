//! A copyable reference to a value on the frozen heap.

use std::ops::Deref;

/// As in the original, its type says nothing about how long the value lives.
pub(crate) struct FrozenAnyValue<T>(*const T);

impl<T> Clone for FrozenAnyValue<T> {
    fn clone(&self) -> Self {
        *self
    }
}

impl<T> Copy for FrozenAnyValue<T> {}

impl<T> FrozenAnyValue<T> {
    /// # Safety
    /// `value` must live as long as the copies of this reference are used.
    pub(crate) unsafe fn new(value: &T) -> FrozenAnyValue<T> {
        FrozenAnyValue(value)
    }
}

impl<T> Deref for FrozenAnyValue<T> {
    type Target = T;

    fn deref(&self) -> &T {
        // SAFETY: `new` made its caller keep the value alive.
        unsafe { &*self.0 }
    }
}
