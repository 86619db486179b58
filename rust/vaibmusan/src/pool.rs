//! The names of a file that is being written.
use crate::limits::{self, TooLarge};
use std::collections::HashMap;

/// The names in order of first use, each once.
#[derive(Default)]
pub struct Pool {
    pub names: Vec<Vec<u8>>,
    /// Bytes of all names.
    pub bytes: usize,
    numbers: HashMap<Vec<u8>, usize>,
}

impl Pool {
    /// A name's number, a new one if the name is new.
    pub fn number(&mut self, name: &[u8]) -> Result<usize, TooLarge> {
        if let Some(&number) = self.numbers.get(name) {
            return Ok(number);
        }
        let number = self.names.len();
        TooLarge::check("bytes of a name", name.len(), limits::NAME_BYTES)?;
        TooLarge::check("names", number + 1, limits::NAMES)?;
        TooLarge::check("bytes of names", self.bytes + name.len(), limits::POOL)?;
        self.bytes += name.len();
        self.names.push(name.to_vec());
        self.numbers.insert(name.to_vec(), number);
        Ok(number)
    }
}
