//! Stand-in for core-relations/src/free_join/execute: nothing of it is used. As a child module it
//! sees the private fields of free_join/mod.rs, so the harness sets counters from here.
use std::sync::atomic::Ordering;

use super::{CounterId, Counters};

/// Sets a counter's next number.
pub(crate) fn set_counter(counters: &Counters, counter: CounterId, next: usize) {
    counters.0[counter].next.store(next, Ordering::SeqCst);
}
