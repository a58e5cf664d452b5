//! Draws of the fixed list whose words are put down one by one, with the sums that they report: words that a choice skips and
//! the last that it takes, bytes rejected before and after the last that is needed, words that are used and never skipped.

use crate::{Distr, Kind, Tables};

/// The last word there is: a choice skips it unless it is among a power of two.
pub const LAST: u32 = u32::MAX;
const RANGE: u64 = 1 << 32;

/// The coin's word, the magnitude and the words of the test.
type Try<'a> = (u32, u64, &'a [u32]);

/// A draw of n coefficients that its words just suffice for.
pub struct Skipping {
    pub distr: Distr,
    pub n: usize,
    pub words: Vec<u32>,
    pub skipped_words: u64,
    pub skipped_bytes: u64,
}

impl Skipping {
    fn new(distr: Distr, n: usize) -> Self {
        Self { distr, n, words: Vec::new(), skipped_words: 0, skipped_bytes: 0 }
    }

    fn whole(kind: Kind, a: usize, b: usize, n: usize) -> Self {
        Self::new(Distr::whole(kind, a, b), n)
    }

    /// Words that are used, whatever they are.
    fn used(mut self, words: &[u32]) -> Self {
        self.words.extend(words);
        self
    }

    /// The first and the last word that a choice among k skips, where it skips any, and then the word that it takes.
    fn taken(mut self, k: u64, word: u64) -> Self {
        let end = k * (RANGE / k);
        if end < RANGE {
            self.words.extend([end as u32, LAST]);
            self.skipped_words += 2;
        }
        self.words.push(word as u32);
        self
    }

    /// Choices among so many, each with the last word that it takes.
    fn choices(self, among: impl IntoIterator<Item = u64>) -> Self {
        among.into_iter().fold(self, |draw, k| draw.taken(k, k * (RANGE / k) - 1))
    }

    /// A word of bytes, lowest first, of which so many are rejected.
    fn bytes(mut self, bytes: [u8; 4], rejected: u64) -> Self {
        self.words.push(u32::from_le_bytes(bytes));
        self.skipped_bytes += rejected;
        self
    }

    /// A try of the layered draw: layer, coin and magnitude, and the words of its test.
    fn layered_try(self, tables: &Tables, layer: usize, (coin, magnitude, test): Try) -> Self {
        self.used(&[layer as u32 - 1, coin]).taken(tables.endpoints[layer] + 1, magnitude).used(test)
    }
}

/// Draws of every family that reads words, the layered ones by these tables.
pub fn draws(deviation: f64, tables: &Tables) -> Vec<Skipping> {
    let mut all = bytes();
    all.extend(choices());
    all.extend(without_skips());
    for kind in [Kind::Gaussian, Kind::ErrorGaussian] {
        all.extend(layered(Distr::real(kind, deviation, 0.0), tables));
    }
    all
}

fn bytes() -> Vec<Skipping> {
    let draw = |n| Skipping::whole(Kind::UniformTernary, 0, 0, n);
    vec![
        draw(0),
        draw(5).bytes([0, 243, 254, 255], 0),
        draw(5).bytes([243, 0, 255, 255], 1),
        draw(1).bytes([255, 254, 243, 242], 3),
        draw(6).bytes([242, 243, 1, 250], 1),
        draw(10).bytes([255, 0, 255, 121], 2),
        draw(20).bytes([1, 2, 3, 4], 0),
        draw(21).bytes([1, 2, 3, 4], 0).bytes([255, 5, 255, 255], 1),
        draw(5).bytes([243, 244, 250, 255], 4).bytes([255, 255, 255, 255], 4).bytes([243, 80, 243, 243], 1),
        draw(40).bytes([0, 0, 243, 0], 1).bytes([243, 1, 1, 243], 2).bytes([2, 2, 2, 255], 0),
    ]
}

fn choices() -> Vec<Skipping> {
    let block = |kind, size, blocks: usize| Skipping::whole(kind, size, 0, size * blocks);
    let weight = |kind, weight, n| Skipping::whole(kind, weight, 0, n);
    let signs = |draw: Skipping| draw.used(&[LAST]);
    vec![
        block(Kind::BlockExactlyOne, 3, 2).choices([3, 3]),
        block(Kind::BlockExactlyOne, 4, 2).choices([4, 4]),
        block(Kind::BlockExactlyOne, 1_000, 1).choices([1_000]),
        block(Kind::BlockExactlyOne, 65_535, 1).choices([65_535]),
        block(Kind::BlockAtMostOne, 2, 3).choices([3, 3, 3]),
        block(Kind::BlockAtMostOne, 49_999, 1).choices([50_000]),
        block(Kind::BlockAtMostOne, 65_536, 1).choices([65_537]),
        weight(Kind::BinaryWeight, 2, 4).choices(3..=4),
        weight(Kind::BinaryWeight, 5, 7).choices(6..=7),
        weight(Kind::BinaryWeight, 998, 1_000).choices(999..=1_000),
        weight(Kind::BinaryWeight, 1, 65_535).choices([65_535]),
        weight(Kind::BinaryWeight, 3, 65_536).choices(65_534..=65_536),
        signs(weight(Kind::TernaryWeight, 3, 7)).choices(5..=7),
        signs(signs(weight(Kind::TernaryWeight, 35, 40)).choices(6..=37)).choices(38..=40),
        signs(weight(Kind::TernaryWeight, 2, 65_535)).choices(65_534..=65_535),
        Skipping::whole(Kind::Composition, 2, 3, 7).choices(4..=7),
        Skipping::whole(Kind::Composition, 3, 3, 9).choices(4..=9),
        Skipping::whole(Kind::Composition, 1, 1, 65_536).choices(65_535..=65_536),
    ]
}

/// Words that a choice would skip, where there is none.
fn without_skips() -> Vec<Skipping> {
    let wide = |distr| Skipping::new(distr, 2).used(&[LAST; 4]);
    vec![
        Skipping::whole(Kind::UniformBinary, 0, 0, 32).used(&[LAST; 2]),
        Skipping::whole(Kind::SparseTernary, 0, 0, 16).used(&[LAST]),
        Skipping::whole(Kind::TernaryWeight, 33, 0, 33).used(&[LAST; 2]),
        wide(Distr::real(Kind::Binary, 0.5, 0.0)),
        wide(Distr::real(Kind::Ternary, 0.25, 0.25)),
        wide(Distr::whole(Kind::CenteredBinomial, 3, 0)),
    ]
}

/// Tries that pass at once, by their test, or not at all; the choice in each of them skips words.
fn layered(distr: Distr, tables: &Tables) -> Vec<Skipping> {
    let skips = |layer: &usize| {
        let [inner, outer] = [layer - 1, *layer].map(|at| tables.endpoints[at]);
        0 < inner && inner < outer && !(outer + 1).is_power_of_two()
    };
    let layer = (2..tables.endpoints.len()).find(skips).expect("a layer whose choice skips words");
    let outer = tables.endpoints[layer];
    let inside: Try = (LAST, 1, &[]);
    let [passed, rejected]: [Try; 2] = [(0, outer, &[0]), (LAST, outer, &[LAST])];
    let [zero, rejected_zero]: [Try; 2] = [(0, 0, &[0, 0]), (0, 0, &[LAST, LAST])];
    let draw = |n, tries: &[Try]| {
        let start = Skipping::new(distr, n);
        tries.iter().fold(start, |draw, &words| draw.layered_try(tables, layer, words))
    };
    vec![
        draw(1, &[inside]),
        draw(1, &[passed]),
        draw(1, &[zero]),
        draw(1, &[rejected, inside]),
        draw(1, &[rejected_zero, zero]),
        draw(4, &[rejected, rejected_zero, passed, rejected, inside, zero, rejected_zero, inside]),
    ]
}
