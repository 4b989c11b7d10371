//! A small pseudo-random generator: the same seed always gives the same numbers.

/// The generator; it is nothing but its one number.
#[derive(Clone, Debug)]
pub struct Random {
    now: u64,
}

impl Random {
    /// Gives the generator of the given seed.
    pub fn new(seed: u64) -> Random {
        Random { now: seed }
    }

    /// Gives the next number of 64 bits (the steps known as splitmix64).
    pub fn number(&mut self) -> u64 {
        self.now = self.now.wrapping_add(0x9e37_79b9_7f4a_7c15);
        let mut mixed = self.now;
        mixed = (mixed ^ (mixed >> 30)).wrapping_mul(0xbf58_476d_1ce4_e5b9);
        mixed = (mixed ^ (mixed >> 27)).wrapping_mul(0x94d0_49bb_1331_11eb);
        mixed ^ (mixed >> 31)
    }

    /// Gives a number below the given one, which isn't 0.
    pub fn below(&mut self, end: usize) -> usize {
        (self.number() % end as u64) as usize
    }

    /// Gives the given number of bytes.
    pub fn bytes(&mut self, count: usize) -> Vec<u8> {
        (0..count).map(|_| self.number() as u8).collect()
    }
}
