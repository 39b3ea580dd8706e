//! Random numbers that depend on the seed alone, the same on every machine.

/// Steele, Lea and Flood's SplitMix64.
pub struct Random(u64);

impl Random {
    pub fn new(seed: u64) -> Self {
        Random(seed)
    }

    fn next(&mut self) -> u64 {
        self.0 = self.0.wrapping_add(0x9e37_79b9_7f4a_7c15);
        let x = (self.0 ^ (self.0 >> 30)).wrapping_mul(0xbf58_476d_1ce4_e5b9);
        let x = (x ^ (x >> 27)).wrapping_mul(0x94d0_49bb_1331_11eb);
        x ^ (x >> 31)
    }

    /// From 0 to less than the top, which is less than 2^32.
    pub fn below(&mut self, top: usize) -> usize {
        (((self.next() >> 32) * top as u64) >> 32) as usize
    }

    /// From 0 to less than 1.
    pub fn part(&mut self) -> f32 {
        const BITS: u32 = f32::MANTISSA_DIGITS;
        (self.next() >> (u64::BITS - BITS)) as f32 / (1u64 << BITS) as f32
    }

    pub fn shuffle<T>(&mut self, items: &mut [T]) {
        for a in (1..items.len()).rev() {
            items.swap(a, self.below(a + 1));
        }
    }
}
