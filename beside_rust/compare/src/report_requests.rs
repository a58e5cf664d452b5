//! Requests for a report: all short ones, those at and beside every boundary, and random ones.

use crate::{
    report::{LARGEST_MODULUS, MOST_RESIDUES, Request, centered},
    word_list::Random,
};

/// Moduli at and beside each boundary, common ones, and four that are refused.
#[rustfmt::skip]
const MODULI: [u64; 16] = [
    1, 2, 3, 4, 5, 3_329, 12_289, (1 << 52) - 1, 1 << 52, (1 << 52) + 1, LARGEST_MODULUS - 1, LARGEST_MODULUS,
    LARGEST_MODULUS + 1, 0, 1 << 63, u64::MAX,
];
/// Lengths around powers of two. With the largest modulus 4,096 residues of half of it have the sum 2^64.
const LENGTHS: [usize; 12] = [0, 1, 2, 1_023, 1_024, 1_025, 2_047, 2_048, 2_049, 4_095, 4_096, 4_097];
/// The last of them is refused.
const LONG_LENGTHS: [usize; 3] = [MOST_RESIDUES - 1, MOST_RESIDUES, MOST_RESIDUES + 1];
/// The longest list of limits.
const MANY: usize = 300;
/// Its product with any deviation here is finite.
const LARGEST_RANGE: f64 = 1e290;
/// Every list of up to so many residues is put to every modulus up to `EXHAUSTED_MODULUS`.
const EXHAUSTED_LENGTH: u32 = 4;
const EXHAUSTED_MODULUS: u64 = 6;

/// What the residues of a list are.
#[derive(Clone, Copy, Debug, PartialEq)]
pub enum Shape {
    Random,
    Half,
    AboveHalf,
    AroundHalf,
    HalfAndAbove,
    Zeros,
    Last,
    Small,
    /// r and the modulus less r in turn: the sum is zero.
    Pairs,
}

impl Shape {
    const ALL: [Self; 9] = [
        Self::Random,
        Self::Half,
        Self::AboveHalf,
        Self::AroundHalf,
        Self::HalfAndAbove,
        Self::Zeros,
        Self::Last,
        Self::Small,
        Self::Pairs,
    ];

    /// So many residues, below the modulus unless it is 0.
    pub fn residues(self, n: usize, modulus: u64, random: &mut Random) -> Vec<u64> {
        if self == Self::Pairs {
            return pairs(n, modulus.max(1), random);
        }
        let (half, last) = (modulus / 2, modulus.saturating_sub(1));
        let residue = |at: usize| match self {
            Self::Random => random.below(modulus),
            Self::Half => half,
            Self::AboveHalf => half + 1,
            Self::AroundHalf => (half + random.below(3)).saturating_sub(1),
            Self::HalfAndAbove => half + at as u64 % 2,
            Self::Last => last,
            Self::Small => (random.below(5) + random.pick(&[0, modulus.saturating_sub(4)])) % modulus.max(1),
            Self::Zeros | Self::Pairs => 0,
        };
        (0..n).map(residue).map(|residue| residue.min(last)).collect()
    }
}

/// Residues below half the modulus, each followed by its negative; an odd last one is 0.
fn pairs(n: usize, modulus: u64, random: &mut Random) -> Vec<u64> {
    let mut residues = Vec::new();
    for _ in 0..n / 2 {
        let residue = random.below(modulus.div_ceil(2));
        residues.extend([residue, (modulus - residue) % modulus]);
    }
    residues.resize(n, 0);
    residues
}

/// A magnitude of the list, 0 where it is empty.
fn magnitude(residues: &[u64], modulus: u64, random: &mut Random) -> u64 {
    if residues.is_empty() { 0 } else { centered(random.pick(residues), modulus).unsigned_abs() as u64 }
}

/// Limits at and beside magnitudes, half the modulus, and the ends of the range.
fn edge_limits(residues: &[u64], modulus: u64, random: &mut Random) -> Vec<u64> {
    let mut limits = vec![0, 1, LARGEST_MODULUS, u64::MAX];
    for middle in [modulus / 2, magnitude(residues, modulus, random), magnitude(residues, modulus, random)] {
        limits.extend([middle.saturating_sub(1), middle, middle + 1]);
    }
    limits
}

/// So many limits, of any order: edges and numbers of any bit length.
fn some_limits(count: usize, residues: &[u64], modulus: u64, random: &mut Random) -> Vec<u64> {
    let edges = edge_limits(residues, modulus, random);
    let limit = |_| if random.below(2) == 0 { random.pick(&edges) } else { any_length(64, random) };
    (0..count).map(limit).collect()
}

/// A number of at most so many bits, each length as often as the others.
fn any_length(most: u64, random: &mut Random) -> u64 {
    random.next() >> (63 - random.below(most))
}

/// A deviation, and multiples of it whose products lie at and beside magnitudes, or are the least and large.
fn some_ranges(count: usize, residues: &[u64], modulus: u64, random: &mut Random) -> (f64, Vec<f64>) {
    let deviation = random.pick(&[0.7, 1.0, 3.2, 21.25, 1365.25, 1e-9, 1e15, f64::MIN_POSITIVE]);
    let deviation = if random.below(2) == 0 { deviation } else { any_length(40, random) as f64 / 1e6 + 1e-6 };
    let range = |_| {
        let at = (magnitude(residues, modulus, random) + random.below(2)) as f64 / deviation;
        random.pick(&[at, at.next_up(), at.next_down(), at + 0.5, 0.0, f64::from_bits(1), 12.0, LARGEST_RANGE])
    };
    (deviation, (0..count).map(range).map(|range| range.clamp(0.0, LARGEST_RANGE)).collect())
}

/// What is made wrong in a request: the length of the list of counts, and one residue.
#[derive(Clone, Copy, Debug)]
struct Faults {
    counts: isize,
    /// Where the residue stands, in halves of the list, and whether it is the modulus or 2^64 − 1.
    residue: Option<(usize, bool)>,
}

impl Faults {
    const NONE: Self = Self { counts: 0, residue: None };

    /// Each alone, and each two together.
    fn all() -> Vec<Self> {
        let mut residues = vec![None];
        residues.extend((0..3).flat_map(|half| [Some((half, false)), Some((half, true))]));
        let with = |counts| residues.iter().map(move |&residue| Self { counts, residue });
        [0, 1, -1].into_iter().flat_map(with).collect()
    }

    fn made(self, mut request: Request) -> Request {
        request.counts = request.counts.saturating_add_signed(self.counts);
        if let (Some((half, largest)), Some(last)) = (self.residue, request.residues.len().checked_sub(1)) {
            request.residues[last * half / 2] = if largest { u64::MAX } else { request.modulus };
        }
        request
    }
}

/// Every short list of residues for every small modulus, a residue that is the modulus among them.
pub fn for_short_requests(mut put: impl FnMut(&Request)) {
    for modulus in 0..=EXHAUSTED_MODULUS {
        for length in 0..=EXHAUSTED_LENGTH {
            for number in 0..(modulus + 1).pow(length) {
                let residues = (0..length).map(|at| number / (modulus + 1).pow(at) % (modulus + 1)).collect();
                let mut request = Request::new(residues, modulus, (0..=4).collect());
                for counts in 4..=6 {
                    request.counts = counts;
                    put(&request);
                }
            }
        }
    }
}

/// Sums at and beside 2^64, of either sign: 4,096 values of the largest magnitude that both signs have lack 4,096 of it.
fn sums_around_2_64() -> impl Iterator<Item = Request> {
    let (modulus, largest) = (LARGEST_MODULUS - 1, LARGEST_MODULUS / 2 - 1);
    (4_095..=4_097).flat_map(move |last| {
        let positive = [vec![largest; 4_096], vec![last]].concat();
        let negative = positive.iter().map(|value| modulus - value).collect();
        [positive, negative].map(|residues| Request::new(residues, modulus, vec![last, largest]))
    })
}

/// Every shape of residues for every modulus and length at a boundary; of random residues also every fault, no limits, many
/// limits, and multiples of a deviation.
pub fn for_crafted_requests(random: &mut Random, mut put: impl FnMut(&Request)) {
    sums_around_2_64().for_each(|request| put(&request));
    for modulus in MODULI {
        for n in LENGTHS.into_iter().chain(LONG_LENGTHS) {
            for shape in Shape::ALL {
                let residues = shape.residues(n, modulus, random);
                let limits = edge_limits(&residues, modulus, random);
                put(&Request::new(residues, modulus, limits));
            }
            let residues = Shape::Random.residues(n, modulus, random);
            for faults in Faults::all() {
                let limits = edge_limits(&residues, modulus, random);
                put(&faults.made(Request::new(residues.clone(), modulus, limits)));
            }
            for count in [0, MANY] {
                let limits = some_limits(count, &residues, modulus, random);
                put(&Request::new(residues.clone(), modulus, limits));
            }
            let (deviation, ranges) = some_ranges(16, &residues, modulus, random);
            put(&Request::of_ranges(residues, modulus, deviation, ranges));
        }
    }
}

/// A request of any kind, most of them short and good.
pub fn random_request(random: &mut Random) -> Request {
    let modulus = match random.below(16) {
        0..4 => random.pick(&MODULI),
        4 => any_length(64, random),
        _ => any_length(53, random).max(1),
    };
    let n = random_length(random);
    let residues = random.pick(&Shape::ALL).residues(n, modulus, random);
    let most = if random.below(64) == 0 { MANY } else { 7 };
    let count = random.below(most as u64 + 1) as usize;
    let request = if random.below(2) == 0 {
        let limits = some_limits(count, &residues, modulus, random);
        Request::new(residues, modulus, limits)
    } else {
        let (deviation, ranges) = some_ranges(count, &residues, modulus, random);
        Request::of_ranges(residues, modulus, deviation, ranges)
    };
    let faults = if random.below(4) == 0 { random.pick(&Faults::all()) } else { Faults::NONE };
    faults.made(request)
}

/// Lengths of short lists, now and then of one that is not.
fn random_length(random: &mut Random) -> usize {
    match random.below(4_096) {
        0 => random.pick(&LONG_LENGTHS),
        1..8 => random.below(MOST_RESIDUES as u64) as usize,
        8..64 => random.pick(&LENGTHS),
        64..256 => random.below(600) as usize,
        _ => random.below(24) as usize,
    }
}
