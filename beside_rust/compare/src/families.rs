//! The distributions by family, with lengths at and around every boundary.

use crate::{Distr, Kind, word_list::Random};

/// Lengths around each boundary of the rules.
pub const LENGTHS: [usize; 14] = [0, 1, 4, 5, 6, 15, 16, 17, 31, 32, 33, 63, 64, 65];
pub const LONG_LENGTHS: [usize; 3] = [1_000, 65_535, 65_536];

/// Distributions that share a file of answers and a line of the comparison.
#[derive(Clone, Copy, Debug, PartialEq)]
pub enum Family {
    Packed,
    UniformTernary,
    Thresholds,
    BinaryWeight,
    TernaryWeight,
    Composition,
    Blocks,
    CenteredBinomial,
    Cumulative,
    Layered,
}

impl Family {
    pub const ALL: [Self; 10] = [
        Self::Packed,
        Self::UniformTernary,
        Self::Thresholds,
        Self::BinaryWeight,
        Self::TernaryWeight,
        Self::Composition,
        Self::Blocks,
        Self::CenteredBinomial,
        Self::Cumulative,
        Self::Layered,
    ];

    pub fn name(self) -> &'static str {
        match self {
            Self::Packed => "packed",
            Self::UniformTernary => "uniform_ternary",
            Self::Thresholds => "thresholds",
            Self::BinaryWeight => "binary_weight",
            Self::TernaryWeight => "ternary_weight",
            Self::Composition => "composition",
            Self::Blocks => "blocks",
            Self::CenteredBinomial => "centered_binomial",
            Self::Cumulative => "cumulative",
            Self::Layered => "layered",
        }
    }

    /// The deviations whose tables the fixed list holds.
    pub fn deviations(self) -> &'static [f64] {
        match self {
            Self::Cumulative => &[0.7, 1.0, 3.2, 8.0, 21.25],
            Self::Layered => &[21.333333333333332, 21.5, 64.0, 341.25],
            _ => &[],
        }
    }

    /// The distributions of a family for n coefficients, a Gaussian with each of the deviations.
    pub fn distributions(self, n: usize, deviations: &[f64]) -> Vec<Distr> {
        let weights = || [0, 1, 2, n / 4, n / 2, n / 2 + 1, n.saturating_sub(1), n, n + 1, usize::MAX];
        let whole = |kind, values: &[usize]| values.iter().map(|&a| Distr::whole(kind, a, 0)).collect::<Vec<_>>();
        match self {
            Self::Packed => [Kind::UniformBinary, Kind::SparseTernary].map(|kind| Distr::whole(kind, 0, 0)).to_vec(),
            Self::UniformTernary => vec![Distr::whole(Kind::UniformTernary, 0, 0)],
            Self::Thresholds => probabilities(),
            Self::BinaryWeight => whole(Kind::BinaryWeight, &weights()),
            Self::TernaryWeight => whole(Kind::TernaryWeight, &weights()),
            Self::Composition => {
                #[rustfmt::skip]
                let weights = [
                    (0, 0), (1, 1), (n / 3, n / 3), (n / 2, n - n / 2), (n, 0), (0, n), (n / 4, n / 2), (n / 2, n / 4),
                    (n.div_ceil(3), n / 3), (n / 3, n.div_ceil(3)), (n, 1), (usize::MAX, 1),
                ];
                weights.map(|(minus, ones)| Distr::whole(Kind::Composition, minus, ones)).to_vec()
            }
            Self::Blocks => {
                let sizes = [1, 2, 3, 5, 16, n.max(1)];
                let mut both = whole(Kind::BlockAtMostOne, &sizes);
                both.extend(whole(Kind::BlockExactlyOne, &sizes));
                both
            }
            Self::CenteredBinomial => whole(Kind::CenteredBinomial, &[1, 2, 3, 16, 31, 32]),
            Self::Cumulative | Self::Layered => deviations
                .iter()
                .flat_map(|&p| [Kind::Gaussian, Kind::ErrorGaussian].map(|kind| Distr::real(kind, p, 0.0)))
                .collect(),
        }
    }
}

/// Good probabilities at the ends, beside them, and where sums round.
fn probabilities() -> Vec<Distr> {
    let least = 2f64.powi(-64);
    let below_one = 1.0 - 2f64.powi(-53);
    let singles = [0.0, -0.0, least, least / 2.0, 0.3, 0.5, below_one, 1.0];
    #[rustfmt::skip]
    let pairs = [
        (0.0, 0.0), (1.0, 0.0), (0.0, 1.0), (0.5, 0.5), (0.25, 0.25), (0.3, 0.3), (least, 0.0), (0.0, least),
        (least / 2.0, least / 2.0), (1.0, 2f64.powi(-54)), (below_one, 1.0 - below_one), (0.0, below_one),
        (1.0 / 3.0, 2.0 / 3.0), (0.7, 0.3), (0.9, 0.09999999999999998),
    ];
    let mut all = singles.map(|p| Distr::real(Kind::Binary, p, 0.0)).to_vec();
    all.extend(pairs.map(|(p, q)| Distr::real(Kind::Ternary, p, q)));
    all
}

/// Distributions at and beyond the limits of making, which need no table to be refused.
pub fn makings() -> Vec<Distr> {
    let most = usize::MAX;
    #[rustfmt::skip]
    let reals = [
        0.0, -0.0, 5e-324, -5e-324, 0.5, 0.7, 0.7f64.next_down(), 1.0, 1.0f64.next_up(), -1.0, 21.25, 341.25,
        9.480751908109176e153, 9.480751908109177e153, 1.3407807929942597e154, 1e200, f64::MAX,
        f64::INFINITY, f64::NEG_INFINITY, f64::NAN,
    ];
    #[rustfmt::skip]
    let pairs = [
        (0.1, 0.9), (0.9, 0.1), (0.5, 0.5f64.next_up()), (0.5f64.next_up(), 0.5), (5e-324, 1.0), (1.0, 5e-324),
        (1.0, 2f64.powi(-53)), (f64::NAN, 0.0), (0.0, f64::NAN), (-0.1, 0.5), (0.5, -0.1), (1.5, 0.0), (0.0, f64::INFINITY),
    ];
    let mut all = Vec::new();
    for kind in [Kind::Binary, Kind::Gaussian, Kind::ErrorGaussian] {
        all.extend(reals.map(|p| Distr::real(kind, p, 0.0)));
    }
    all.extend(pairs.map(|(p, q)| Distr::real(Kind::Ternary, p, q)));
    all.extend([0, 1, 32, 33, 64, u32::MAX as usize].map(|eta| Distr::whole(Kind::CenteredBinomial, eta, 0)));
    for kind in [Kind::BlockAtMostOne, Kind::BlockExactlyOne] {
        all.extend([0, 1, most - 1, most].map(|size| Distr::whole(kind, size, 0)));
    }
    all
}

/// A distribution of a family with a length, at the edges or at random. (Of a Gaussian the deviation is chosen elsewhere.)
pub fn random_request(family: Family, random: &mut Random) -> (Distr, usize) {
    let n = match random.below(1_000) {
        0 => random.pick(&LONG_LENGTHS),
        1..100 => random.below(300) as usize,
        _ => random.pick(&LENGTHS),
    };
    let listed = family.distributions(n, &[]);
    if !listed.is_empty() && random.below(2) == 0 {
        return (random.pick(&listed), n);
    }
    let mut below = |bound: usize| random.below(bound as u64) as usize;
    match family {
        Family::BinaryWeight => (Distr::whole(Kind::BinaryWeight, below(n + 1), 0), n),
        Family::TernaryWeight => (Distr::whole(Kind::TernaryWeight, below(n + 1), 0), n),
        Family::Composition => {
            let minus = below(n + 1);
            (Distr::whole(Kind::Composition, minus, below(n - minus + 1)), n)
        }
        Family::Blocks => {
            let size = 1 + below(40);
            let kind = [Kind::BlockAtMostOne, Kind::BlockExactlyOne][below(2)];
            (Distr::whole(kind, size, 0), size * (n / size))
        }
        Family::CenteredBinomial => (Distr::whole(Kind::CenteredBinomial, 1 + below(32), 0), n),
        Family::Thresholds => {
            let mut share = || random.next() as f64 / 2f64.powi(64 + random.pick(&[0, 0, 0, 1, 40, 63]));
            let p = share();
            let q = share().min(1.0 - p);
            let good = p <= 1.0 - q && random.below(2) == 0;
            (if good { Distr::real(Kind::Ternary, p, q) } else { Distr::real(Kind::Binary, p, 0.0) }, n)
        }
        Family::Packed | Family::UniformTernary | Family::Cumulative | Family::Layered => {
            (family.distributions(n, &[0.7])[0], n)
        }
    }
}
