//! Numbers that look random and are the same in every run.

/// A generator with one word of state: steps by an odd number, and stirs each state.
#[derive(Clone)]
pub struct Chance {
    state: u64,
}

impl Chance {
    pub fn new(seed: u64) -> Chance {
        let mut chance = Chance { state: seed.wrapping_mul(0xD6E8_FEB8_6659_FD93).wrapping_add(0x1234_5678_9ABC_DEF1) };
        chance.word();
        chance.word();
        chance
    }

    pub fn word(&mut self) -> u64 {
        self.state = self.state.wrapping_add(0xA076_1D64_78BD_642F);
        let mut word = self.state;
        for _ in 0..2 {
            word ^= word >> 32;
            word = word.wrapping_mul(0xD6E8_FEB8_6659_FD93);
        }
        word ^ (word >> 32)
    }

    pub fn byte(&mut self) -> u8 {
        (self.word() >> 56) as u8
    }

    /// A number below `end`, which is not 0.
    pub fn below(&mut self, end: usize) -> usize {
        ((self.word() >> 11) % end as u64) as usize
    }

    /// A number from `first` to `last`, both included.
    pub fn between(&mut self, first: usize, last: usize) -> usize {
        first + self.below(last - first + 1)
    }

    /// True in `part` of 100 cases.
    pub fn percent(&mut self, part: usize) -> bool {
        self.below(100) < part
    }

    /// One of the things.
    pub fn pick<'a, T>(&mut self, things: &'a [T]) -> &'a T {
        &things[self.below(things.len())]
    }

    /// Another order of the things.
    pub fn shuffle<T>(&mut self, things: &mut [T]) {
        for last in (1..things.len()).rev() {
            things.swap(last, self.below(last + 1));
        }
    }
}
