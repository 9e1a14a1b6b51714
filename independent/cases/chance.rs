//! A small seeded generator (splitmix64): the same seed gives the same cases on every machine.

use crate::sums::VARIABLES;

pub struct Chance {
    state: u64,
}

impl Chance {
    /// The stream of this name for a seed: another name or another seed gives a stream that has nothing to do with it.
    pub fn named(seed: u64, name: &str) -> Chance {
        let mut chance = Chance { state: seed };
        for byte in name.bytes() {
            chance.state = chance.word() ^ u64::from(byte);
        }
        chance
    }

    pub fn word(&mut self) -> u64 {
        self.state = self.state.wrapping_add(0x9e37_79b9_7f4a_7c15);
        let mut mixed = self.state;
        mixed = (mixed ^ (mixed >> 30)).wrapping_mul(0xbf58_476d_1ce4_e5b9);
        mixed = (mixed ^ (mixed >> 27)).wrapping_mul(0x94d0_49bb_1331_11eb);
        mixed ^ (mixed >> 31)
    }

    /// 0 to limit - 1. The tiny unevenness of the remainder does not matter here.
    pub fn below(&mut self, limit: usize) -> usize {
        (self.word() % limit as u64) as usize
    }

    /// Both ends included.
    pub fn between(&mut self, least: usize, most: usize) -> usize {
        least + self.below(most - least + 1)
    }

    /// 0 to most, in 64 bits.
    pub fn up_to(&mut self, most: u64) -> u64 {
        match most.checked_add(1) {
            Some(limit) => self.word() % limit,
            None => self.word(),
        }
    }

    /// A number of at most so many bits, the number of bits chosen first.
    pub fn sized(&mut self, least_bits: usize, most_bits: usize) -> u64 {
        let bits = self.between(least_bits, most_bits);
        self.up_to(1 << bits)
    }

    pub fn one_in(&mut self, times: usize) -> bool {
        self.below(times) == 0
    }

    pub fn percent(&mut self, share: usize) -> bool {
        self.below(100) < share
    }

    pub fn pick<T: Clone>(&mut self, choices: &[T]) -> T {
        choices[self.below(choices.len())].clone()
    }

    /// The number or its negative.
    pub fn signed(&mut self, number: i64) -> i64 {
        if self.one_in(2) {
            -number
        } else {
            number
        }
    }

    pub fn variable(&mut self) -> usize {
        self.below(VARIABLES)
    }

    /// How many variables may occur in what is made.
    pub fn some_variables(&mut self) -> usize {
        self.between(1, VARIABLES)
    }

    /// A different order of the variables, so that none is always the one at fault.
    pub fn letters(&mut self) -> [usize; VARIABLES] {
        let mut letters = std::array::from_fn(|variable| variable);
        for last in (1..VARIABLES).rev() {
            letters.swap(last, self.below(last + 1));
        }
        letters
    }
}
