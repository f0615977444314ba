//! Stand-in for the crate `hashbrown`: the maps are std's; `HashTable` is open addressing, a power
//! of two slots, at most three of four taken.
pub use std::collections::{HashMap, HashSet};

#[derive(Clone)]
pub struct HashTable<T> {
    slots: Vec<Option<(u64, T)>>,
    taken: usize,
}

impl<T> Default for HashTable<T> {
    fn default() -> Self {
        HashTable { slots: Vec::new(), taken: 0 }
    }
}

pub struct OccupiedEntry<'a, T>(&'a T);

impl<T> OccupiedEntry<'_, T> {
    pub fn get(&self) -> &T {
        self.0
    }
}

impl<T> HashTable<T> {
    fn home(&self, hash: u64) -> usize {
        // A multiplicative hash is best in its high bits.
        (hash >> 32 ^ hash) as usize & (self.slots.len() - 1)
    }
    fn free_slot(&self, hash: u64) -> usize {
        let mut at = self.home(hash);
        while self.slots[at].is_some() {
            at = (at + 1) & (self.slots.len() - 1);
        }
        at
    }
    fn make_room(&mut self) {
        if 4 * (self.taken + 1) <= 3 * self.slots.len() {
            return;
        }
        let twice = (2 * self.slots.len()).max(8);
        let old = std::mem::take(&mut self.slots);
        self.slots.resize_with(twice, || None);
        for (hash, value) in old.into_iter().flatten() {
            let at = self.free_slot(hash);
            self.slots[at] = Some((hash, value));
        }
    }
    pub fn find(&self, hash: u64, mut eq: impl FnMut(&T) -> bool) -> Option<&T> {
        if self.slots.is_empty() {
            return None;
        }
        let mut at = self.home(hash);
        while let Some((its_hash, value)) = &self.slots[at] {
            if *its_hash == hash && eq(value) {
                return Some(value);
            }
            at = (at + 1) & (self.slots.len() - 1);
        }
        None
    }
    pub fn insert_unique(&mut self, hash: u64, value: T, _hasher: impl Fn(&T) -> u64) -> OccupiedEntry<'_, T> {
        self.make_room();
        let at = self.free_slot(hash);
        self.taken += 1;
        OccupiedEntry(&self.slots[at].insert((hash, value)).1)
    }
    pub fn clear(&mut self) {
        self.slots.clear();
        self.taken = 0;
    }
    pub fn capacity(&self) -> usize {
        self.slots.capacity()
    }
}
