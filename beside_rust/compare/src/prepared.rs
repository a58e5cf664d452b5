//! A sampler with its tables, and the draws that are put to it.

use crate::{
    Call, Distr, Engine, Kind, Tables, ask,
    crafted::{self, Given},
    rust_side::{RustSide, Sampler, own_tables},
    word_list::{Random, WordList},
};

/// A draw to be put to a side.
#[derive(Clone, Debug)]
pub struct Draw {
    pub distr: Distr,
    pub call: Call,
    pub words: WordList,
    pub place: usize,
}

/// A sampler of the Rust and the tables to lend with it.
pub struct Prepared {
    pub distr: Distr,
    pub sampler: Sampler,
    pub tables: Tables,
}

impl Prepared {
    /// As the Rust's constructors make it.
    pub fn new(distr: Distr) -> Self {
        let sampler = RustSide.make(&distr).unwrap_or_else(|number| panic!("{distr:?} is refused by {number}"));
        let tables = if distr.is_gaussian() { own_tables(distr.p) } else { Tables::default() };
        Self { distr, sampler, tables }
    }

    /// A Gaussian over lent tables.
    pub fn over(distr: Distr, tables: Tables) -> Self {
        Self { distr, sampler: Sampler::over(&distr, &tables), tables }
    }

    /// "Largest magnitude (M, eta, else 1)."
    pub fn largest(&self) -> u64 {
        match self.distr.kind {
            Kind::CenteredBinomial => self.distr.a as u64,
            Kind::Gaussian | Kind::ErrorGaussian if self.tables.endpoints.is_empty() => {
                self.tables.bounds.len() as u64 - 2
            }
            Kind::Gaussian | Kind::ErrorGaussian => self.tables.endpoints[self.tables.endpoints.len() - 1],
            _ => 1,
        }
    }

    /// A modulus at the limit, or a common or a large one; the Rust has no name for 0 with a key.
    pub fn modulus(&self, random: &mut Random) -> u64 {
        let least = self.largest() + 1;
        random.pick(&[least, least, least + 1, least - 1, 12_289, (1 << 32) + 15, 1 << 63, u64::MAX])
    }

    pub fn moduli(&self, random: &mut Random) -> Vec<u64> {
        let mut moduli = vec![12_289; random.below(5) as usize];
        for modulus in &mut moduli {
            *modulus = self.modulus(random).max(1);
            if random.below(4) > 0 {
                *modulus = (*modulus).max(self.largest() + 1);
            }
        }
        if random.below(16) == 0 && !moduli.is_empty() {
            moduli[0] = 0;
        }
        moduli
    }

    /// A CRT draw of n coefficients, or of fewer where n of them would not fit; some have a wrong shape.
    pub fn crt_call(&self, n: usize, random: &mut Random) -> Call {
        let moduli = self.moduli(random);
        let count = n.min(65_536 / moduli.len().max(1));
        let length = count * moduli.len();
        match random.below(12) {
            0 => Call::Crt { length: length + 1, count, moduli },
            1 => Call::Crt { length, count: usize::MAX - 1, moduli },
            _ => Call::Crt { length, count, moduli },
        }
    }

    /// The draw with the given words and others from a seed, where the words just suffice, do not, or are left over.
    pub fn draw(&self, call: Call, given: Given, random: &mut Random) -> Draw {
        let place = random.below(4) as usize;
        let n = call.coefficients();
        let before = if given == Given::Nothing { 0 } else { place as u32 };
        let mut given = crafted::words(given, &self.distr, n, &self.sampler, &self.tables, random);
        given.splice(0..0, 0..before);
        let tries = if self.tables.endpoints.is_empty() { 3 } else { 12 };
        let mut words = WordList { count: given.len() + tries * n + 64, seed: random.seed(), given };
        let answer = ask(&RustSide, &self.sampler, &call, &self.tables, &words.words(), place).answer;
        if answer.number == 0 {
            words.count = match random.below(4) {
                0 => answer.place,
                1 => answer.place.saturating_sub(1).max(place),
                _ => answer.place + random.below(6) as usize,
            };
        } else {
            words.count = place + 1;
        }
        words.given.truncate(words.count);
        Draw { distr: self.distr, call, words, place }
    }
}
