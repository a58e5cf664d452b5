//! The report over residues of document 02: what is asked, what comes of it, and the two that the other side is held to: the
//! sums by 128-bit arithmetic here, and the counts by the Rust's `gaussian_stats`.

use primus_distr::stats::gaussian_stats;

use crate::{UNTOUCHED, rust_side::refusal_of};

/// "Up to 65,536 residues, a modulus of 1 to 2^53."
pub const MOST_RESIDUES: usize = 65_536;
pub const LARGEST_MODULUS: u64 = 1 << 53;

/// Document 02's number, 0 for success; the sum of the centered values as a sign and a magnitude, and the sum of their
/// squares, each in a high and a low half.
#[derive(Clone, Copy, Debug, PartialEq, Eq)]
pub struct Report {
    pub number: u32,
    pub negative: bool,
    pub sum_high: u64,
    pub sum_low: u64,
    pub squares_high: u64,
    pub squares_low: u64,
}

impl Report {
    /// The report of these sums; `as u64` keeps the low half.
    fn of(number: u32, sum: i128, squares: u128) -> Self {
        let magnitude = sum.unsigned_abs();
        Self {
            number,
            negative: sum < 0,
            sum_high: (magnitude >> 64) as u64,
            sum_low: magnitude as u64,
            squares_high: (squares >> 64) as u64,
            squares_low: squares as u64,
        }
    }

    /// The sum, with its sign.
    pub fn sum(&self) -> i128 {
        let magnitude = i128::from(self.sum_high) << 64 | i128::from(self.sum_low);
        if self.negative { -magnitude } else { magnitude }
    }

    pub fn squares(&self) -> u128 {
        u128::from(self.squares_high) << 64 | u128::from(self.squares_low)
    }
}

/// A report to be asked for. The Rust takes a deviation and multiples of it; the limits are the whole parts of the products.
#[derive(Clone, Debug)]
pub struct Request {
    pub residues: Vec<u64>,
    pub modulus: u64,
    pub limits: Vec<u64>,
    /// The length of the list of counts.
    pub counts: usize,
    pub deviation: f64,
    pub ranges: Vec<f64>,
}

/// What comes of a report: it, and the list of counts.
#[derive(Clone, Debug, PartialEq, Eq)]
pub struct Outcome {
    pub report: Report,
    pub counts: Vec<u64>,
}

impl Request {
    /// Whole limits are multiples of the deviation 1. One above 2^53 may be rounded: no magnitude is near it.
    pub fn new(residues: Vec<u64>, modulus: u64, limits: Vec<u64>) -> Self {
        let ranges = limits.iter().map(|&limit| limit as f64).collect();
        Self { residues, modulus, counts: limits.len(), limits, deviation: 1.0, ranges }
    }

    /// Limits that are multiples of a deviation, as the Rust has them: the whole part of the product, taken as it takes it.
    pub fn of_ranges(residues: Vec<u64>, modulus: u64, deviation: f64, ranges: Vec<f64>) -> Self {
        let limits: Vec<u64> = ranges.iter().map(|range| (range * deviation).floor() as u64).collect();
        Self { residues, modulus, counts: limits.len(), limits, deviation, ranges }
    }

    /// Puts the request to a side. A count that is not written keeps what no report gives.
    pub fn ask(&self, side: impl FnOnce(&[u64], u64, &[u64], &mut [u64]) -> Report) -> Outcome {
        let mut counts = vec![UNTOUCHED; self.counts];
        let report = side(&self.residues, self.modulus, &self.limits, &mut counts);
        Outcome { report, counts }
    }

    /// What is wrong with the request, in the order in which it refuses.
    fn faults(&self) -> [(u32, bool); 4] {
        faults(&self.residues, self.modulus, &self.limits, self.counts)
    }

    /// Whether the Rust judges the request as document 02 does. It has no 6, and looks at the lengths before the modulus.
    pub fn is_the_rusts(&self) -> bool {
        let [(_, long), (_, modulus), (_, lengths), _] = self.faults();
        !(long || modulus && lengths)
    }

    /// The Rust's counts, or the number of its panic, which may leave counts behind that nobody looks at. Its mean and its
    /// deviation are compared with nothing.
    pub fn rust_counts(&self) -> Result<Vec<u64>, u32> {
        let mut counts = vec![usize::MAX; self.counts];
        refusal_of(|| gaussian_stats(&self.residues, self.modulus, self.deviation, &self.ranges, &mut counts))?;
        Ok(counts.into_iter().map(|count| count as u64).collect())
    }
}

fn faults(residues: &[u64], modulus: u64, limits: &[u64], counts: usize) -> [(u32, bool); 4] {
    [
        (6, residues.len() > MOST_RESIDUES),
        (24, modulus == 0 || modulus > LARGEST_MODULUS),
        (25, counts != limits.len()),
        (26, residues.iter().any(|&residue| residue >= modulus)),
    ]
}

/// "A residue is centered as in `to_centered`: up to half the modulus, rounded down, it is itself."
pub fn centered(residue: u64, modulus: u64) -> i128 {
    let above = if residue <= modulus / 2 { 0 } else { modulus };
    i128::from(residue) - i128::from(above)
}

/// Document 02's report in 128-bit arithmetic, written from its text.
pub fn model(residues: &[u64], modulus: u64, limits: &[u64], counts: &mut [u64]) -> Report {
    let wrong = faults(residues, modulus, limits, counts.len()).into_iter().find(|(_, wrong)| *wrong);
    if let Some((number, _)) = wrong {
        return Report::of(number, 0, 0);
    }
    let values: Vec<i128> = residues.iter().map(|&residue| centered(residue, modulus)).collect();
    for (count, &limit) in counts.iter_mut().zip(limits) {
        *count = values.iter().filter(|value| value.unsigned_abs() <= limit.into()).count() as u64;
    }
    Report::of(0, values.iter().sum(), values.iter().map(|value| value.unsigned_abs().pow(2)).sum())
}

/// The side that is held to both.
#[cfg(feature = "engine")]
pub use crate::rattle_side::report as other;
#[cfg(not(feature = "engine"))]
pub use model as other;
