//! A small generator of numbers (splitmix64): the same seed draws the same cases everywhere.

pub struct Draw(pub u64);

impl Draw {
    pub fn next(&mut self) -> u64 {
        self.0 = self.0.wrapping_add(0x9E37_79B9_7F4A_7C15);
        let mut z = self.0;
        z = (z ^ (z >> 30)).wrapping_mul(0xBF58_476D_1CE4_E5B9);
        z = (z ^ (z >> 27)).wrapping_mul(0x94D0_49BB_1331_11EB);
        z ^ (z >> 31)
    }

    pub fn below(&mut self, n: usize) -> usize {
        (self.next() % n as u64) as usize
    }

    pub fn one_in(&mut self, n: usize) -> bool {
        self.below(n) == 0
    }

    pub fn byte(&mut self) -> u8 {
        self.next() as u8
    }

    pub fn bytes(&mut self, n: usize) -> Vec<u8> {
        (0..n).map(|_| self.byte()).collect()
    }

    /// A value of n bits: 0, 1, the greatest, a power of two, or any.
    pub fn value(&mut self, n: u32) -> u64 {
        let most = u64::MAX >> (64 - n);
        match self.below(8) {
            0 => 0,
            1 => 1,
            2 => most,
            3 => 1 << self.below(n as usize),
            _ => self.next() & most,
        }
    }

    /// The same, but not 0.
    pub fn nonzero(&mut self, n: u32) -> u64 {
        self.value(n).max(1)
    }
}
