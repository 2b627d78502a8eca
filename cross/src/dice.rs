//! A small source of repeatable chance, in the manner of splitmix64.

pub struct Dice {
    state: u64,
}

impl Dice {
    /// The dice of one numbered call: the same seed and number, the same throws.
    pub fn new(seed: u64, number: u64) -> Dice {
        Dice {
            state: mixed(seed) ^ mixed(!number),
        }
    }

    pub fn throw(&mut self) -> u64 {
        self.state = self.state.wrapping_add(0x9e37_79b9_7f4a_7c15);
        mixed(self.state)
    }

    /// A number below the limit, which is at least 1.
    pub fn below(&mut self, limit: usize) -> usize {
        (self.throw() % limit as u64) as usize
    }

    /// True in so many cases out of so many.
    pub fn chance(&mut self, cases: usize, out_of: usize) -> bool {
        self.below(out_of) < cases
    }

    pub fn pick<T: Copy>(&mut self, from: &[T]) -> T {
        from[self.below(from.len())]
    }

    pub fn byte(&mut self) -> u8 {
        self.throw() as u8
    }

    pub fn bytes(&mut self, length: usize) -> Vec<u8> {
        (0..length).map(|_| self.byte()).collect()
    }
}

fn mixed(mut word: u64) -> u64 {
    word = (word ^ (word >> 30)).wrapping_mul(0xbf58_476d_1ce4_e5b9);
    word = (word ^ (word >> 27)).wrapping_mul(0x94d0_49bb_1331_11eb);
    word ^ (word >> 31)
}
