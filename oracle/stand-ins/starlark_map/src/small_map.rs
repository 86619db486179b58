//! A map that keeps its entries in the order they were put in. A few entries are searched
//! one by one; more of them get a table of positions by hash, as in the original.

use std::borrow::Borrow;
use std::hash::Hash;

use crate::Hashed;

/// Up to this many entries a search one by one is fast enough.
const NO_TABLE: usize = 16;

/// A place of the table that holds no position.
const EMPTY: usize = usize::MAX;

#[derive(Clone, Debug)]
pub struct SmallMap<K, V> {
    entries: Vec<(Hashed<K>, V)>,
    /// Positions in `entries`, each at the first free place from its hash on. Its length is
    /// a power of two and at least twice the number of entries; or 0: no table.
    table: Vec<usize>,
}

impl<K, V> Default for SmallMap<K, V> {
    fn default() -> SmallMap<K, V> {
        SmallMap {
            entries: Vec::new(),
            table: Vec::new(),
        }
    }
}

impl<K, V> SmallMap<K, V> {
    pub fn new() -> SmallMap<K, V> {
        SmallMap::default()
    }

    pub fn len(&self) -> usize {
        self.entries.len()
    }

    pub fn is_empty(&self) -> bool {
        self.entries.is_empty()
    }

    pub fn iter(&self) -> impl Iterator<Item = (&K, &V)> {
        self.entries
            .iter()
            .map(|(hashed, value)| (hashed.key(), value))
    }

    pub fn keys(&self) -> impl Iterator<Item = &K> {
        self.entries.iter().map(|(hashed, _)| hashed.key())
    }

    /// Where a position with this hash may stand in the table, most likely place first.
    fn places(&self, hash: u64) -> impl Iterator<Item = usize> + use<K, V> {
        let mask = self.table.len() - 1;
        (0..=mask).map(move |step| (hash as usize).wrapping_add(step) & mask)
    }

    /// Note in the table where the entry at `position` stands.
    fn put_in_table(&mut self, position: usize) {
        let mut places = self.places(self.entries[position].0.hash());
        let free = places.find(|&place| self.table[place] == EMPTY);
        self.table[free.expect("the table is at most half full")] = position;
    }

    fn rebuild_table(&mut self) {
        self.table.clear();
        if self.len() > NO_TABLE {
            self.table.resize(4 * self.len().next_power_of_two(), EMPTY);
            (0..self.len()).for_each(|position| self.put_in_table(position));
        }
    }

    /// Append an entry whose key is new.
    fn push(&mut self, key: Hashed<K>, value: V) {
        self.entries.push((key, value));
        if self.table.len() >= 2 * self.len() {
            self.put_in_table(self.len() - 1);
        } else {
            self.rebuild_table();
        }
    }
}

impl<K: Eq, V> SmallMap<K, V> {
    fn position<Q: Eq + ?Sized>(&self, key: Hashed<&Q>) -> Option<usize>
    where
        K: Borrow<Q>,
    {
        let is_key = |position: &usize| {
            let (entry, _) = &self.entries[*position];
            entry.hash() == key.hash() && entry.key().borrow() == *key.key()
        };
        if self.table.is_empty() {
            return (0..self.len()).find(is_key);
        }
        let positions = self.places(key.hash()).map(|place| self.table[place]);
        positions
            .take_while(|&position| position != EMPTY)
            .find(is_key)
    }

    pub fn get_hashed<Q: Eq + ?Sized>(&self, key: Hashed<&Q>) -> Option<&V>
    where
        K: Borrow<Q>,
    {
        let position = self.position(key)?;
        Some(&self.entries[position].1)
    }

    pub fn get_mut_hashed<Q: Eq + ?Sized>(&mut self, key: Hashed<&Q>) -> Option<&mut V>
    where
        K: Borrow<Q>,
    {
        let position = self.position(key)?;
        Some(&mut self.entries[position].1)
    }

    pub fn get<Q: Eq + Hash + ?Sized>(&self, key: &Q) -> Option<&V>
    where
        K: Borrow<Q>,
    {
        self.get_hashed(Hashed::new(key))
    }

    pub fn get_mut<Q: Eq + Hash + ?Sized>(&mut self, key: &Q) -> Option<&mut V>
    where
        K: Borrow<Q>,
    {
        self.get_mut_hashed(Hashed::new(key))
    }

    /// The value that the key had before.
    pub fn insert_hashed(&mut self, key: Hashed<K>, value: V) -> Option<V> {
        match self.get_mut_hashed(key.as_ref()) {
            Some(old) => Some(std::mem::replace(old, value)),
            None => {
                self.push(key, value);
                None
            }
        }
    }

    /// Take an entry out; later ones move one place forward.
    pub fn shift_remove<Q: Eq + Hash + ?Sized>(&mut self, key: &Q) -> Option<V>
    where
        K: Borrow<Q>,
    {
        let key = Hashed::new(key);
        let position = self.position(key)?;
        let (_, value) = self.entries.remove(position);
        if position < self.len() {
            self.rebuild_table();
        } else if !self.table.is_empty() {
            // The last entry was the last put in the table: no other stands further on for it.
            let place = self
                .places(key.hash())
                .find(|&place| self.table[place] == position);
            self.table[place.expect("the entry was found by the table")] = EMPTY;
        }
        Some(value)
    }

    pub fn entry_hashed(&mut self, key: Hashed<K>) -> Entry<'_, K, V> {
        match self.position(key.as_ref()) {
            Some(position) => Entry::Occupied(OccupiedEntry {
                value: &mut self.entries[position].1,
            }),
            None => Entry::Vacant(VacantEntry { map: self, key }),
        }
    }
}

pub enum Entry<'a, K, V> {
    Occupied(OccupiedEntry<'a, V>),
    Vacant(VacantEntry<'a, K, V>),
}

pub struct OccupiedEntry<'a, V> {
    value: &'a mut V,
}

impl<V> OccupiedEntry<'_, V> {
    pub fn get(&self) -> &V {
        self.value
    }
}

pub struct VacantEntry<'a, K, V> {
    map: &'a mut SmallMap<K, V>,
    key: Hashed<K>,
}

impl<K, V> VacantEntry<'_, K, V> {
    pub fn insert(self, value: V) {
        self.map.push(self.key, value);
    }
}

impl<K, V> IntoIterator for SmallMap<K, V> {
    type Item = (K, V);
    type IntoIter =
        std::iter::Map<std::vec::IntoIter<(Hashed<K>, V)>, fn((Hashed<K>, V)) -> (K, V)>;

    fn into_iter(self) -> Self::IntoIter {
        self.entries
            .into_iter()
            .map(|(hashed, value)| (hashed.into_key(), value))
    }
}

impl<'a, K, V> IntoIterator for &'a SmallMap<K, V> {
    type Item = (&'a K, &'a V);
    type IntoIter = std::iter::Map<
        std::slice::Iter<'a, (Hashed<K>, V)>,
        fn(&'a (Hashed<K>, V)) -> (&'a K, &'a V),
    >;

    fn into_iter(self) -> Self::IntoIter {
        self.entries
            .iter()
            .map(|(hashed, value)| (hashed.key(), value))
    }
}
