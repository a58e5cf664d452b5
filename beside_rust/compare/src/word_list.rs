//! Lists of words that a few numbers describe, and the digest of a long output. README.md states both.

/// `count` words, of which the first are given and the others follow from the seed.
#[derive(Clone, Debug)]
pub struct WordList {
    pub count: usize,
    pub seed: u64,
    pub given: Vec<u32>,
}

const MODULUS: u64 = (1 << 31) - 1;
const FACTOR: u64 = 48_271;

impl WordList {
    pub fn words(&self) -> Vec<u32> {
        let mut words = self.given.clone();
        words.truncate(self.count);
        let mut state = self.seed;
        let mut half = || {
            state = state * FACTOR % MODULUS;
            state as u32 & 0xffff
        };
        while words.len() < self.count {
            words.push(half() << 16 | half());
        }
        words
    }
}

/// The digest of an output; a signed coefficient enters as 4,096 more than it is.
pub fn digest(elements: impl Iterator<Item = u64>) -> u64 {
    elements.fold(1, |sum, element| (sum * FACTOR + element % MODULUS + 1) % MODULUS)
}

/// Random numbers that choose requests.
pub struct Random(pub u64);

impl Random {
    pub fn next(&mut self) -> u64 {
        self.0 = self.0.wrapping_add(0x9e37_79b9_7f4a_7c15);
        let mixed = (self.0 ^ self.0 >> 30).wrapping_mul(0xbf58_476d_1ce4_e5b9);
        let mixed = (mixed ^ mixed >> 27).wrapping_mul(0x94d0_49bb_1331_11eb);
        mixed ^ mixed >> 31
    }

    pub fn below(&mut self, bound: u64) -> u64 {
        (u128::from(self.next()) * u128::from(bound) >> 64) as u64
    }

    pub fn pick<T: Copy>(&mut self, items: &[T]) -> T {
        items[self.below(items.len() as u64) as usize]
    }

    /// A seed for a word list.
    pub fn seed(&mut self) -> u64 {
        1 + self.below(MODULUS - 1)
    }
}
