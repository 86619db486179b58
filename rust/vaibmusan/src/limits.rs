//! How much an accepted file may hold (document 01, numbers 3, 9 and 10, and the widths of its fields); writing checks it step by step.
use std::error::Error;
use std::fmt;

pub const NODES: usize = 2048;
pub const DEPTH: usize = 64;
pub const NAMES: usize = 1024;
pub const ENTRIES: usize = 256;
pub const GLOBALS: usize = 256;
pub const POOL: usize = 16_384;
pub const FUNCTIONS: usize = 255;
pub const NAME_BYTES: usize = 255;
pub const SLOT: usize = (1 << 15) - 1;
pub const SOURCE: usize = (1 << 24) - 1;

/// There is more of something than an accepted file may hold.
#[derive(Clone, Copy, Debug, PartialEq, Eq)]
pub struct TooLarge {
    /// What there is too much of.
    pub what: &'static str,
    /// How much there may be.
    pub most: usize,
}

impl TooLarge {
    /// `Ok` while there is no more than that.
    pub(crate) fn check(what: &'static str, count: usize, most: usize) -> Result<(), TooLarge> {
        if count <= most {
            Ok(())
        } else {
            Err(TooLarge { what, most })
        }
    }
}

impl fmt::Display for TooLarge {
    fn fmt(&self, f: &mut fmt::Formatter<'_>) -> fmt::Result {
        write!(f, "{}: more than {}", self.what, self.most)
    }
}

impl Error for TooLarge {}
