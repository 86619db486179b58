//! A key that carries its hash, so that a hash is computed once and used often.

use std::hash::Hash;
use std::hash::Hasher;

#[derive(Copy, Clone, Debug)]
pub struct Hashed<K> {
    hash: u64,
    key: K,
}

impl<K: Hash> Hashed<K> {
    pub fn new(key: K) -> Hashed<K> {
        let mut hasher = StarlarkHasher::default();
        key.hash(&mut hasher);
        Hashed::new_unchecked(hasher.finish(), key)
    }
}

impl<K> Hashed<K> {
    /// The caller says that `hash` is the hash of `key`.
    pub fn new_unchecked(hash: u64, key: K) -> Hashed<K> {
        Hashed { hash, key }
    }

    pub fn hash(&self) -> u64 {
        self.hash
    }

    pub fn key(&self) -> &K {
        &self.key
    }

    pub fn into_key(self) -> K {
        self.key
    }

    pub fn as_ref(&self) -> Hashed<&K> {
        Hashed::new_unchecked(self.hash, &self.key)
    }
}

/// The FNV-1a hash: short, and the same in every run.
pub struct StarlarkHasher(u64);

impl Default for StarlarkHasher {
    fn default() -> StarlarkHasher {
        StarlarkHasher(0xcbf2_9ce4_8422_2325)
    }
}

impl Hasher for StarlarkHasher {
    fn write(&mut self, bytes: &[u8]) {
        for &byte in bytes {
            self.0 = (self.0 ^ u64::from(byte)).wrapping_mul(0x0000_0100_0000_01b3);
        }
    }

    fn finish(&self) -> u64 {
        self.0
    }
}
