//! Stand-in for the crate `fixedbitset`: the methods that mask.rs and pool/mod.rs use.
//!
//! It also shows the harness the live lanes: `run_instrs` ends by counting its mask, and nothing
//! else in the published files calls `count_ones`, so the last set counted is kept in
//! `LAST_COUNTED`. Where `run_instrs` returns early no lane is live, and nothing is kept.
use std::cell::RefCell;

thread_local! {
    pub static LAST_COUNTED: RefCell<Option<FixedBitSet>> = const { RefCell::new(None) };
}

#[derive(Debug, Default, PartialEq, Eq, Hash)]
pub struct FixedBitSet {
    blocks: Vec<u64>,
    length: usize,
}

impl Clone for FixedBitSet {
    fn clone(&self) -> Self {
        FixedBitSet { blocks: self.blocks.clone(), length: self.length }
    }
    /// Keeps the memory, as the pools expect.
    fn clone_from(&mut self, other: &Self) {
        self.blocks.clone_from(&other.blocks);
        self.length = other.length;
    }
}

impl FixedBitSet {
    pub fn grow(&mut self, bits: usize) {
        if bits > self.length {
            self.length = bits;
            self.blocks.resize(bits.div_ceil(64), 0);
        }
    }
    pub fn len(&self) -> usize {
        self.length
    }
    pub fn is_empty(&self) -> bool {
        self.length == 0
    }
    pub fn is_clear(&self) -> bool {
        self.blocks.iter().all(|block| *block == 0)
    }
    #[inline]
    pub fn contains(&self, bit: usize) -> bool {
        bit < self.length && self.blocks[bit / 64] >> (bit % 64) & 1 == 1
    }
    pub fn clear(&mut self) {
        self.blocks.fill(0);
    }
    #[inline]
    pub fn set(&mut self, bit: usize, enabled: bool) {
        assert!(bit < self.length, "bit {bit} of a set of {}", self.length);
        let one = 1 << (bit % 64);
        if enabled {
            self.blocks[bit / 64] |= one;
        } else {
            self.blocks[bit / 64] &= !one;
        }
    }
    pub fn set_range(&mut self, range: std::ops::Range<usize>, enabled: bool) {
        range.for_each(|bit| self.set(bit, enabled));
    }
    pub fn count_ones(&self, _all: std::ops::RangeFull) -> usize {
        LAST_COUNTED.with(|last| *last.borrow_mut() = Some(self.clone()));
        self.blocks.iter().map(|block| block.count_ones() as usize).sum()
    }
    pub fn union_with(&mut self, other: &FixedBitSet) {
        self.grow(other.length);
        self.blocks.iter_mut().zip(&other.blocks).for_each(|(a, b)| *a |= b);
    }
    pub fn symmetric_difference_with(&mut self, other: &FixedBitSet) {
        self.grow(other.length);
        self.blocks.iter_mut().zip(&other.blocks).for_each(|(a, b)| *a ^= b);
    }
    pub fn is_subset(&self, other: &FixedBitSet) -> bool {
        (0..self.length).all(|bit| !self.contains(bit) || other.contains(bit))
    }
}
