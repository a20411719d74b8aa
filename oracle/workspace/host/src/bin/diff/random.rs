//! Numbers that come from a seed.
pub struct Random(u64);

impl Random {
    pub fn new(seed: u64) -> Self {
        // never 0
        Random(seed.wrapping_mul(0x9e37_79b9_7f4a_7c15) | 1 << 40)
    }

    pub fn next(&mut self) -> u64 {
        self.0 ^= self.0 << 13;
        self.0 ^= self.0 >> 7;
        self.0 ^= self.0 << 17;
        self.0.wrapping_mul(0x2545_f491_4f6c_dd1d) >> 16
    }

    pub fn below(&mut self, n: usize) -> usize {
        (self.next() % n as u64) as usize
    }

    pub fn one_in(&mut self, n: usize) -> bool {
        self.below(n) == 0
    }

    pub fn of<T: Copy>(&mut self, all: &[T]) -> T {
        all[self.below(all.len())]
    }

    pub fn fill(&mut self, bytes: &mut [u8]) {
        for part in bytes.chunks_mut(6) {
            part.copy_from_slice(&self.next().to_le_bytes()[..part.len()]);
        }
    }
}
