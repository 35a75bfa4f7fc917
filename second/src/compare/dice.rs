//! Seeded random numbers (xorshift), the same for every run with the same seed.

#![forbid(unsafe_code)]

pub struct Dice(u64);

/// Spreads a seed over all bits.
fn spread(seed: u64) -> u64 {
    let mut bits = seed.wrapping_add(0x9E37_79B9_7F4A_7C15);
    bits = (bits ^ (bits >> 30)).wrapping_mul(0xBF58_476D_1CE4_E5B9);
    bits = (bits ^ (bits >> 27)).wrapping_mul(0x94D0_49BB_1331_11EB);
    bits ^ (bits >> 31)
}

impl Dice {
    /// Dice of their own for one numbered case of one group.
    pub fn new(seed: u64, group: u64, case: u64) -> Dice {
        let state = spread(spread(spread(seed) ^ group) ^ case);
        Dice(if state == 0 { 1 } else { state })
    }

    pub fn bits(&mut self) -> u64 {
        self.0 ^= self.0 >> 12;
        self.0 ^= self.0 << 25;
        self.0 ^= self.0 >> 27;
        self.0.wrapping_mul(0x2545_F491_4F6C_DD1D)
    }

    /// A number from 0 to, not with, the limit.
    pub fn below(&mut self, limit: u32) -> u32 {
        (((self.bits() >> 32) * u64::from(limit)) >> 32) as u32
    }

    /// A number from the lowest to the highest, both included.
    pub fn between(&mut self, lowest: u32, highest: u32) -> u32 {
        if lowest >= highest {
            return lowest;
        }
        lowest + self.below(highest - lowest + 1)
    }

    /// True once in so many times.
    pub fn once_in(&mut self, times: u32) -> bool {
        self.below(times) == 0
    }

    pub fn one_of<T: Copy>(&mut self, list: &[T]) -> T {
        list[self.below(list.len() as u32) as usize]
    }

    pub fn byte(&mut self) -> u8 {
        (self.bits() >> 56) as u8
    }

    pub fn fill(&mut self, bytes: &mut [u8]) {
        for byte in bytes {
            *byte = self.byte();
        }
    }

    pub fn bytes(&mut self, len: usize) -> Vec<u8> {
        let mut bytes = vec![0; len];
        self.fill(&mut bytes);
        bytes
    }
}
