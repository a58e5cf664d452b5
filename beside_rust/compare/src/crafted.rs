//! Words that bring a draw to its edges: skipped words and bytes, thresholds, bounds, and the rounding of a layer's test.

use rand::{Rng, Words};

use crate::{
    Call, Distr, Kind, Tables, ask,
    rust_side::{RustSide, Sampler},
    word_list::Random,
};

const RANGE: u64 = 1 << 32;
/// Longer draws have no words at the rounding of a layer's test: these take a search.
const SEARCHED: usize = 65;

/// The words that a draw is given before those of its seed.
#[derive(Clone, Copy, Debug, PartialEq)]
pub enum Given {
    Nothing,
    /// Words at the edges of the draw; the choice inside a layered try skips none of them.
    Edges,
    /// Words at the edges of the draw, with skipped ones for every choice.
    Skips,
}

/// Words for a draw of n coefficients. They may be too few or too many.
pub fn words(
    given: Given,
    distr: &Distr,
    n: usize,
    sampler: &Sampler,
    tables: &Tables,
    random: &mut Random,
) -> Vec<u32> {
    let mut list = Vec::new();
    if given == Given::Nothing {
        return list;
    }
    match distr.kind {
        Kind::UniformBinary | Kind::SparseTernary => {
            for _ in 0..n / 16 + 1 {
                list.push(edge_word(random));
            }
        }
        Kind::UniformTernary => {
            for _ in 0..n / 10 + 1 {
                let bytes = [0; 4].map(|_| random.pick(&[0, 1, 80, 121, 242, 243, 244, 255]));
                list.push(u32::from_le_bytes(bytes));
            }
        }
        Kind::BinaryWeight => insertion(n, distr.a.min(n.saturating_sub(distr.a)), false, random, &mut list),
        Kind::TernaryWeight => insertion(n, distr.a, true, random, &mut list),
        Kind::Composition => {
            let nonzero = distr.a.saturating_add(distr.b);
            let most = distr.a.max(distr.b).max(n.saturating_sub(nonzero));
            insertion(n, n.saturating_sub(most), false, random, &mut list);
        }
        Kind::BlockAtMostOne | Kind::BlockExactlyOne => {
            let extra = u64::from(distr.kind == Kind::BlockAtMostOne);
            for _ in 0..n / distr.a.max(1) {
                choice(distr.a as u64 + extra, random, &mut list);
            }
        }
        Kind::CenteredBinomial => {
            let mask = (1 << distr.a) - 1;
            for _ in 0..n {
                let edges = [mask, mask << distr.a, !mask, 0, u64::MAX, random.next()];
                wide(random.pick(&edges), &mut list);
            }
        }
        Kind::Binary | Kind::Ternary => {
            let ends = [threshold(distr.p), threshold(distr.q), threshold(distr.p) + threshold(distr.q)];
            for _ in 0..n {
                beside(random.pick(&ends) as u64, random, &mut list);
            }
        }
        Kind::Gaussian | Kind::ErrorGaussian if tables.endpoints.is_empty() => {
            for _ in 0..n {
                beside_bound(&tables.bounds, random, &mut list);
            }
        }
        Kind::Gaussian | Kind::ErrorGaussian => {
            let sampler = (n <= SEARCHED).then_some(sampler);
            for _ in 0..3 * n {
                layered_try(given, sampler, tables, random, &mut list);
            }
        }
    }
    list
}

fn edge_word(random: &mut Random) -> u32 {
    let any = random.next() as u32;
    random.pick(&[0, 1, 5, 0xe4, 0x7fff_ffff, 0x8000_0000, 0xaaaa_aaaa, 0xf3f3_f3f3, u32::MAX, any])
}

fn wide(word: u64, list: &mut Vec<u32>) {
    list.extend([word as u32, (word >> 32) as u32]);
}

/// ⌊p × 2^64⌋.
fn threshold(p: f64) -> u128 {
    (p * 18_446_744_073_709_551_616.0) as u128
}

/// A 64-bit word at or next to a number, or any.
fn beside(number: u64, random: &mut Random, list: &mut Vec<u32>) {
    let any = random.next();
    let edges = [number.wrapping_sub(1), number, number.wrapping_add(1), 0, u64::MAX, any];
    wide(random.pick(&edges), list);
}

/// A word at or next to a bound, but none of the corners that document 01 takes out of the domain.
fn beside_bound(bounds: &[u64], random: &mut Random, list: &mut Vec<u32>) {
    loop {
        let mut word = Vec::new();
        beside(random.pick(bounds), random, &mut word);
        let value = Words::new(&word, 0).next_u64();
        if value != u64::MAX && bounds.iter().filter(|&&bound| bound == value).count() <= 1 {
            return list.extend(word);
        }
    }
}

/// Words that a choice among k skips, if there are such: none, or a few.
fn skipped(k: u64, random: &mut Random, list: &mut Vec<u32>) {
    let end = k * (RANGE / k);
    while end < RANGE && random.below(3) == 0 {
        let any = end + random.below(RANGE - end);
        list.push(random.pick(&[end, RANGE - 1, any]) as u32);
    }
}

/// Words for one choice among k: some that are skipped, then one that is not.
fn choice(k: u64, random: &mut Random, list: &mut Vec<u32>) {
    let Some(times) = RANGE.checked_div(k).filter(|&times| times > 0) else {
        return;
    };
    skipped(k, random, list);
    let end = k * times;
    let any = random.below(end);
    list.push(random.pick(&[0, k - 1, end - 1, end - k, any]) as u32);
}

/// Words for `inserted` values at the end of n, with a word for each 32 signs if these are asked for.
fn insertion(n: usize, inserted: usize, signs: bool, random: &mut Random, list: &mut Vec<u32>) {
    for (done, index) in (n.saturating_sub(inserted)..n).enumerate() {
        if signs && done % 32 == 0 {
            list.push(edge_word(random));
        }
        choice(index as u64 + 1, random, list);
    }
}

/// Words for one try of the layered draw, at the rounding of its test where the sampler is there to be asked for it.
fn layered_try(given: Given, sampler: Option<&Sampler>, tables: &Tables, random: &mut Random, list: &mut Vec<u32>) {
    let layers = tables.endpoints.len() as u64 - 1;
    let layer = random.below(layers);
    let [inner, outer] = [0, 1].map(|next| tables.endpoints[layer as usize + next]);
    let any = random.below(outer + 1);
    let magnitude = random.pick(&[0, inner, (inner + 1).min(outer), outer, any]);
    list.push((layer + layers * random.below(RANGE / layers)) as u32);
    list.push(random.pick(&[0, 0x7fff_ffff, 0x8000_0000, u32::MAX]));
    if given == Given::Skips {
        skipped(outer + 1, random, list);
    }
    list.push((magnitude + (outer + 1) * random.below(RANGE / (outer + 1))) as u32);
    if magnitude == 0 {
        beside(threshold(0.5 / tables.heights[0]) as u64, random, list);
    } else if magnitude > inner {
        let edge = sampler.map_or(0, |sampler| first_rejected(sampler, tables, layer as u32, magnitude as u32));
        let any = random.below(RANGE);
        list.push(random.pick(&[edge, edge.saturating_sub(1), any]).min(RANGE - 1) as u32);
    }
}

/// The least word of a layer's test that the Rust rejects, 2^32 where it accepts all.
fn first_rejected(sampler: &Sampler, tables: &Tables, layer: u32, magnitude: u32) -> u64 {
    let (mut low, mut high) = (0, RANGE);
    while low < high {
        let middle = (low + high) / 2;
        let words = [layer, 0, magnitude, middle as u32];
        let outcome = ask(&RustSide, sampler, &Call::Signed { n: 1 }, tables, &words, 0);
        if outcome.answer.number == 0 {
            low = middle + 1;
        } else {
            high = middle;
        }
    }
    low
}
