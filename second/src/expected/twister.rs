//! Random numbers of the Mersenne Twister MT19937, from which the steps of the runs and the bytes of some records are drawn.

#![forbid(unsafe_code)]

const LENGTH: usize = 624;
const APART: usize = 397;

pub struct Twister {
    state: Vec<u32>,
    used: usize,
}

impl Twister {
    pub fn new(seed: u32) -> Twister {
        let mut state = vec![19_650_218_u32; LENGTH];
        for place in 1..LENGTH {
            state[place] = mixed(state[place - 1])
                .wrapping_mul(1_812_433_253)
                .wrapping_add(place as u32);
        }
        let mut place = 1;
        for _ in 0..LENGTH {
            let spread = mixed(state[place - 1]).wrapping_mul(1_664_525);
            state[place] = (state[place] ^ spread).wrapping_add(seed);
            place = following(&mut state, place);
        }
        for _ in 1..LENGTH {
            let spread = mixed(state[place - 1]).wrapping_mul(1_566_083_941);
            state[place] = (state[place] ^ spread).wrapping_sub(place as u32);
            place = following(&mut state, place);
        }
        state[0] = 1 << 31;
        Twister {
            state,
            used: LENGTH,
        }
    }

    /// The next 32 bits.
    fn bits(&mut self) -> u32 {
        if self.used == LENGTH {
            self.twist();
        }
        let mut bits = self.state[self.used];
        self.used += 1;
        bits ^= bits >> 11;
        bits ^= bits << 7 & 0x9D2C_5680;
        bits ^= bits << 15 & 0xEFC6_0000;
        bits ^ bits >> 18
    }

    fn twist(&mut self) {
        for place in 0..LENGTH {
            let next = self.state[(place + 1) % LENGTH];
            let joined = self.state[place] & 1 << 31 | next & !(1 << 31);
            let odd = if joined & 1 == 1 { 0x9908_B0DF } else { 0 };
            self.state[place] = self.state[(place + APART) % LENGTH] ^ joined >> 1 ^ odd;
        }
        self.used = 0;
    }

    /// A number from 0 to, not with, the limit: of the fewest bits that hold the limit, drawn again where it is too large.
    fn below(&mut self, limit: u32) -> u32 {
        let spare = limit.leading_zeros();
        loop {
            let number = self.bits() >> spare;
            if number < limit {
                return number;
            }
        }
    }

    /// A number from the lowest to the highest, both included.
    pub fn between(&mut self, lowest: u32, highest: u32) -> u32 {
        lowest + self.below(highest - lowest + 1)
    }

    pub fn one_of<T: Copy>(&mut self, list: &[T]) -> T {
        list[self.below(list.len() as u32) as usize]
    }

    /// True so many times in a hundred.
    pub fn percent(&mut self, chance: u32) -> bool {
        let high = u64::from(self.bits() >> 5);
        let low = u64::from(self.bits() >> 6);
        let share = (high << 26 | low) as f64 / (1_u64 << 53) as f64;
        share < f64::from(chance) / 100.0
    }

    pub fn bytes(&mut self, length: usize) -> Vec<u8> {
        (0..length).map(|_| self.below(256) as u8).collect()
    }
}

fn mixed(word: u32) -> u32 {
    word ^ word >> 30
}

/// The place after another while the state is made; after the last comes place 1, and the last word is then also the first.
fn following(state: &mut [u32], place: usize) -> usize {
    if place + 1 < LENGTH {
        return place + 1;
    }
    state[0] = state[LENGTH - 1];
    1
}

#[cfg(test)]
mod tests {
    use super::Twister;

    #[test]
    fn known_numbers() {
        let mut twister = Twister::new(1);
        let first: Vec<u32> = (0..4).map(|_| twister.bits()).collect();
        assert_eq!(
            first,
            [577_090_037, 2_444_712_010, 3_639_700_191, 3_445_702_192]
        );
    }
}
