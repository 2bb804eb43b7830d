//! Numbers that look random and come again from the same seed: xorshift64* (Vigna, 2016).

pub struct Random(u64);

impl Random {
    /// Any seed; 0, from which nothing would come, stands for another.
    pub fn new(seed: u64) -> Self {
        Self(if seed == 0 {
            0x9e37_79b9_7f4a_7c15
        } else {
            seed
        })
    }

    pub fn next(&mut self) -> u64 {
        self.0 ^= self.0 >> 12;
        self.0 ^= self.0 << 25;
        self.0 ^= self.0 >> 27;
        self.0.wrapping_mul(0x2545_f491_4f6c_dd1d)
    }

    pub fn below(&mut self, n: u64) -> u64 {
        (self.next() >> 8) % n
    }

    /// From the first to the last, both among them.
    pub fn between(&mut self, first: u64, last: u64) -> u64 {
        first + self.below(last - first + 1)
    }

    /// True once in `n` times.
    pub fn once_in(&mut self, n: u64) -> bool {
        self.below(n) == 0
    }

    pub fn byte(&mut self) -> u8 {
        (self.next() >> 40) as u8
    }

    pub fn trb(&mut self) -> [u8; 16] {
        let mut trb = [0; 16];
        trb[..8].copy_from_slice(&self.next().to_le_bytes());
        trb[8..].copy_from_slice(&self.next().to_le_bytes());
        trb
    }

    pub fn pick<T: Copy>(&mut self, from: &[T]) -> T {
        from[self.below(from.len() as u64) as usize]
    }
}
