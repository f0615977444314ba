//! Stand-in for the crate `indexmap`: entries in a Vec, found by walking it.
use std::marker::PhantomData;

pub struct IndexMap<K, V, S> {
    entries: Vec<(K, V)>,
    _s: PhantomData<fn() -> S>,
}
impl<K, V, S> Default for IndexMap<K, V, S> {
    fn default() -> Self {
        IndexMap { entries: Vec::new(), _s: PhantomData }
    }
}
impl<K, V, S> IndexMap<K, V, S> {
    pub fn clear(&mut self) {
        self.entries.clear()
    }
    pub fn capacity(&self) -> usize {
        self.entries.capacity()
    }
}

pub struct IndexSet<T, S> {
    items: Vec<T>,
    _s: PhantomData<fn() -> S>,
}
impl<T, S> Default for IndexSet<T, S> {
    fn default() -> Self {
        IndexSet { items: Vec::new(), _s: PhantomData }
    }
}
impl<T: Clone, S> Clone for IndexSet<T, S> {
    fn clone(&self) -> Self {
        IndexSet { items: self.items.clone(), _s: PhantomData }
    }
}
impl<T, S> IndexSet<T, S> {
    pub fn clear(&mut self) {
        self.items.clear()
    }
    pub fn capacity(&self) -> usize {
        self.items.capacity()
    }
    pub fn len(&self) -> usize {
        self.items.len()
    }
    pub fn is_empty(&self) -> bool {
        self.items.is_empty()
    }
    pub fn iter(&self) -> std::slice::Iter<'_, T> {
        self.items.iter()
    }
}
impl<T: PartialEq, S> IndexSet<T, S> {
    pub fn get_index_of(&self, item: &T) -> Option<usize> {
        self.items.iter().position(|x| x == item)
    }
    pub fn insert(&mut self, item: T) -> bool {
        let new = !self.items.contains(&item);
        if new {
            self.items.push(item);
        }
        new
    }
    pub fn swap_remove(&mut self, item: &T) -> bool {
        self.get_index_of(item).map(|i| self.items.swap_remove(i)).is_some()
    }
    pub fn intersection<'a>(&'a self, other: &'a Self) -> impl Iterator<Item = &'a T> {
        self.items.iter().filter(|x| other.items.contains(x))
    }
}
impl<T: PartialEq, S> Extend<T> for IndexSet<T, S> {
    fn extend<I: IntoIterator<Item = T>>(&mut self, iter: I) {
        iter.into_iter().for_each(|x| {
            self.insert(x);
        })
    }
}
impl<'a, T: PartialEq + Copy + 'a, S> Extend<&'a T> for IndexSet<T, S> {
    fn extend<I: IntoIterator<Item = &'a T>>(&mut self, iter: I) {
        iter.into_iter().for_each(|x| {
            self.insert(*x);
        })
    }
}
impl<T: PartialEq, S> FromIterator<T> for IndexSet<T, S> {
    fn from_iter<I: IntoIterator<Item = T>>(iter: I) -> Self {
        let mut res = Self::default();
        res.extend(iter);
        res
    }
}
impl<T, S> IntoIterator for IndexSet<T, S> {
    type Item = T;
    type IntoIter = std::vec::IntoIter<T>;
    fn into_iter(self) -> Self::IntoIter {
        self.items.into_iter()
    }
}
impl<'a, T, S> IntoIterator for &'a IndexSet<T, S> {
    type Item = &'a T;
    type IntoIter = std::slice::Iter<'a, T>;
    fn into_iter(self) -> Self::IntoIter {
        self.items.iter()
    }
}
