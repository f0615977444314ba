//! Stand-in for the crate `egglog_numeric_id`: id types and maps from them.
use std::fmt::Debug;
use std::hash::Hash;
use std::marker::PhantomData;
use std::ops::{Index, IndexMut};

pub trait NumericId: Copy + Ord + Hash + Debug + Send + Sync {
    type Rep;
    fn new(val: Self::Rep) -> Self;
    fn from_usize(index: usize) -> Self;
    fn index(self) -> usize;
    fn rep(self) -> Self::Rep;
}

impl NumericId for usize {
    type Rep = usize;
    fn new(val: usize) -> Self {
        val
    }
    fn from_usize(index: usize) -> Self {
        index
    }
    fn index(self) -> usize {
        self
    }
    fn rep(self) -> usize {
        self
    }
}

#[macro_export]
macro_rules! define_id {
    ($v:vis $name:ident, $repr:tt, $doc:tt, pretty $pretty:tt) => {
        $crate::define_id!($v $name, $repr, $doc);
    };
    ($v:vis $name:ident, $repr:tt, $doc:tt) => {
        #[derive(Copy, Clone, PartialEq, Eq, PartialOrd, Ord, Hash, Debug)]
        #[doc = $doc]
        $v struct $name {
            rep: $repr,
        }
        impl $name {
            #[allow(unused)]
            $v const fn new_const(rep: $repr) -> Self {
                $name { rep }
            }
        }
        impl $crate::NumericId for $name {
            type Rep = $repr;
            fn new(rep: $repr) -> Self {
                $name { rep }
            }
            fn from_usize(index: usize) -> Self {
                assert!(index <= $repr::MAX as usize, "{index} is no {}", stringify!($name));
                $name { rep: index as $repr }
            }
            fn index(self) -> usize {
                self.rep as usize
            }
            fn rep(self) -> $repr {
                self.rep
            }
        }
    };
}

/// A flat map: `n_ids` and `next_id` count the slots, those that hold nothing too.
#[derive(Clone)]
pub struct DenseIdMap<K, V> {
    data: Vec<Option<V>>,
    _k: PhantomData<K>,
}

impl<K, V> Default for DenseIdMap<K, V> {
    fn default() -> Self {
        DenseIdMap { data: Vec::new(), _k: PhantomData }
    }
}
impl<K: NumericId, V: Debug> Debug for DenseIdMap<K, V> {
    fn fmt(&self, f: &mut std::fmt::Formatter<'_>) -> std::fmt::Result {
        f.debug_map().entries(self.iter()).finish()
    }
}
impl<K: NumericId, V> DenseIdMap<K, V> {
    pub fn new() -> Self {
        Self::default()
    }
    pub fn with_capacity(n: usize) -> Self {
        DenseIdMap { data: Vec::with_capacity(n), _k: PhantomData }
    }
    fn slot(&mut self, key: K) -> &mut Option<V> {
        if key.index() >= self.data.len() {
            self.data.resize_with(key.index() + 1, || None);
        }
        &mut self.data[key.index()]
    }
    pub fn clear(&mut self) {
        self.data.clear()
    }
    pub fn capacity(&self) -> usize {
        self.data.capacity()
    }
    pub fn n_ids(&self) -> usize {
        self.data.len()
    }
    pub fn next_id(&self) -> K {
        K::from_usize(self.data.len())
    }
    pub fn is_empty(&self) -> bool {
        self.iter().next().is_none()
    }
    pub fn insert(&mut self, key: K, value: V) {
        *self.slot(key) = Some(value);
    }
    pub fn push(&mut self, value: V) -> K {
        let res = self.next_id();
        self.data.push(Some(value));
        res
    }
    pub fn get(&self, key: K) -> Option<&V> {
        self.data.get(key.index())?.as_ref()
    }
    pub fn get_mut(&mut self, key: K) -> Option<&mut V> {
        self.slot(key).as_mut()
    }
    pub fn take(&mut self, key: K) -> Option<V> {
        self.slot(key).take()
    }
    pub fn unwrap_val(&mut self, key: K) -> V {
        self.take(key).unwrap()
    }
    pub fn get_or_insert(&mut self, key: K, f: impl FnOnce() -> V) -> &mut V {
        self.slot(key).get_or_insert_with(f)
    }
    pub fn raw(&self) -> &[Option<V>] {
        &self.data
    }
    pub fn iter(&self) -> impl Iterator<Item = (K, &V)> {
        self.data.iter().enumerate().filter_map(|(i, v)| Some((K::from_usize(i), v.as_ref()?)))
    }
    pub fn iter_mut(&mut self) -> impl Iterator<Item = (K, &mut V)> {
        self.data.iter_mut().enumerate().filter_map(|(i, v)| Some((K::from_usize(i), v.as_mut()?)))
    }
    pub fn drain(&mut self) -> impl Iterator<Item = (K, V)> + '_ {
        self.data.drain(..).enumerate().filter_map(|(i, v)| Some((K::from_usize(i), v?)))
    }
}
impl<K: NumericId, V> Index<K> for DenseIdMap<K, V> {
    type Output = V;
    fn index(&self, key: K) -> &V {
        self.get(key).unwrap()
    }
}
impl<K: NumericId, V> IndexMut<K> for DenseIdMap<K, V> {
    fn index_mut(&mut self, key: K) -> &mut V {
        self.get_mut(key).unwrap()
    }
}

#[derive(Clone)]
pub struct DenseIdMapWithReuse<K, V> {
    map: DenseIdMap<K, V>,
    free: Vec<K>,
}
impl<K, V> Default for DenseIdMapWithReuse<K, V> {
    fn default() -> Self {
        DenseIdMapWithReuse { map: Default::default(), free: Vec::new() }
    }
}
impl<K: NumericId, V> DenseIdMapWithReuse<K, V> {
    pub fn push(&mut self, value: V) -> K {
        let key = self.free.pop().unwrap_or_else(|| self.map.next_id());
        self.map.insert(key, value);
        key
    }
    pub fn take(&mut self, key: K) -> Option<V> {
        let value = self.map.take(key)?;
        self.free.push(key);
        Some(value)
    }
}
impl<K: NumericId, V> Index<K> for DenseIdMapWithReuse<K, V> {
    type Output = V;
    fn index(&self, key: K) -> &V {
        &self.map[key]
    }
}

#[derive(Clone)]
pub struct IdVec<K, V> {
    data: Vec<V>,
    _k: PhantomData<K>,
}
impl<K, V> Default for IdVec<K, V> {
    fn default() -> Self {
        IdVec { data: Vec::new(), _k: PhantomData }
    }
}
impl<K, V> IdVec<K, V> {
    pub fn clear(&mut self) {
        self.data.clear()
    }
    pub fn capacity(&self) -> usize {
        self.data.capacity()
    }
    pub fn resize_with(&mut self, n: usize, f: impl FnMut() -> V) {
        self.data.resize_with(n, f)
    }
}
impl<K: NumericId, V> Index<K> for IdVec<K, V> {
    type Output = V;
    fn index(&self, key: K) -> &V {
        &self.data[key.index()]
    }
}
impl<K: NumericId, V> IndexMut<K> for IdVec<K, V> {
    fn index_mut(&mut self, key: K) -> &mut V {
        &mut self.data[key.index()]
    }
}
