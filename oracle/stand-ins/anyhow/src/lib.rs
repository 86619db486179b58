//! Stand-in for crate `anyhow`: an error of any type that can be asked for its type again.

use std::error::Error as StdError;

pub struct Error(Box<dyn StdError + 'static>);

impl Error {
    pub fn new(error: impl StdError + 'static) -> Error {
        Error(Box::new(error))
    }

    pub fn downcast_ref<E: StdError + 'static>(&self) -> Option<&E> {
        self.0.downcast_ref()
    }
}
