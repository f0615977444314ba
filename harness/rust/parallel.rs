//! Stand-in for core-relations/src/parallel, for one thread.
use crate::numeric_id::{DenseIdMap, NumericId};

pub fn for_each_mut<T>(items: &mut [T], f: impl Fn(usize, &mut T)) {
    items.iter_mut().enumerate().for_each(|(i, x)| f(i, x))
}
pub fn map_mut<T, R>(items: &mut [T], f: impl Fn(usize, &mut T) -> R) -> Vec<R> {
    items.iter_mut().enumerate().map(|(i, x)| f(i, x)).collect()
}
pub fn map_dense_id_map_mut<K: NumericId, V, R>(map: &mut DenseIdMap<K, V>, f: impl Fn(K, &mut V) -> R) -> Vec<R> {
    map.iter_mut().map(|(k, v)| f(k, v)).collect()
}
