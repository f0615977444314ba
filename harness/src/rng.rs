//! Numbers from a seed (SplitMix64), the same on every machine.

pub struct Rng(u64);

impl Rng {
    /// The numbers of one book of a run: they depend on no other book.
    pub fn of_book(seed: u64, index: u64) -> Rng {
        let mut rng = Rng(seed);
        Rng(rng.next() ^ index.wrapping_mul(0xd134_2543_de82_ef95))
    }
    pub fn next(&mut self) -> u64 {
        self.0 = self.0.wrapping_add(0x9e37_79b9_7f4a_7c15);
        let mut z = self.0;
        z = (z ^ (z >> 30)).wrapping_mul(0xbf58_476d_1ce4_e5b9);
        z = (z ^ (z >> 27)).wrapping_mul(0x94d0_49bb_1331_11eb);
        z ^ (z >> 31)
    }
    /// A number below n, which is not 0.
    pub fn below(&mut self, n: usize) -> usize {
        (self.next() % n as u64) as usize
    }
    pub fn percent(&mut self, p: usize) -> bool {
        self.below(100) < p
    }
    pub fn pick<T: Copy>(&mut self, from: &[T]) -> T {
        from[self.below(from.len())]
    }
}
