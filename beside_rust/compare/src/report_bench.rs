//! The benchmark's table of reports: nanoseconds a residue, the Rust's `gaussian_stats` and the other side taking turns on the
//! same residues, which move on from call to call, with the same limits.

use std::{hint::black_box, time::Instant};

use primus_distr::stats::gaussian_stats;

use crate::{
    Distr, Engine, Kind, Tables,
    prepared::Prepared,
    report::{MOST_RESIDUES, other},
    rust_side::RustSide,
    word_list::{Random, WordList},
};

const LENGTHS: [usize; 3] = [1_024, 4_096, MOST_RESIDUES];
const MODULI: [u64; 2] = [12_289, (1 << 53) - 111];
/// The residues that the calls move over, eight of the longest lists, and those of one round.
const POOL: usize = 8 * MOST_RESIDUES;
const ROUND: usize = MOST_RESIDUES;
/// The limits of a report.
const LIMITS: usize = 4;
const DEVIATION: f64 = 3.2;

/// Residues and the limits of their reports.
struct Residues {
    name: &'static str,
    modulus: u64,
    pool: Vec<u64>,
    limits: [u64; LIMITS],
}

impl Residues {
    /// A Gaussian around 0, drawn by the Rust; the limits are some one to four deviations.
    fn gaussian(modulus: u64) -> Self {
        let mut pool = vec![0; POOL];
        let prepared = Prepared::new(Distr::real(Kind::Gaussian, DEVIATION, 0.0));
        let words = WordList { count: 2 * POOL, seed: 1, given: Vec::new() }.words();
        let answer = RustSide.encoded(&prepared.sampler, modulus, &Tables::default(), &words, 0, &mut pool);
        assert_eq!(answer.number, 0);
        Self { name: "Gaussian 3.2", modulus, pool, limits: [3, 6, 9, 12] }
    }

    fn uniform(modulus: u64) -> Self {
        let mut random = Random(1);
        let pool = (0..POOL).map(|_| random.below(modulus)).collect();
        Self { name: "uniform", modulus, pool, limits: [1, 2, 3, 4].map(|part| modulus / 9 * part) }
    }

    /// The lists of a round, n residues each.
    fn lists(&self, round: usize, n: usize) -> impl Iterator<Item = &[u64]> {
        let start = round * ROUND % POOL;
        self.pool[start..start + ROUND].chunks_exact(n)
    }

    /// One round of the Rust: nanoseconds a residue, and the last counts.
    fn rust_round(&self, round: usize, n: usize) -> (f64, [u64; LIMITS]) {
        let (ranges, mut counts) = (self.limits.map(|limit| limit as f64), [0; LIMITS]);
        let begin = Instant::now();
        for list in self.lists(round, n) {
            black_box(gaussian_stats(list, self.modulus, 1.0, &ranges, &mut counts));
            black_box(&counts);
        }
        (begin.elapsed().as_nanos() as f64 / ROUND as f64, counts.map(|count| count as u64))
    }

    /// One round of the other side.
    fn other_round(&self, round: usize, n: usize) -> (f64, [u64; LIMITS]) {
        let mut counts = [0; LIMITS];
        let begin = Instant::now();
        for list in self.lists(round, n) {
            black_box(other(list, self.modulus, &self.limits, &mut counts));
            black_box(&counts);
        }
        (begin.elapsed().as_nanos() as f64 / ROUND as f64, counts)
    }

    /// The least of the rounds of either side.
    fn measure(&self, n: usize, rounds: usize) -> [f64; 2] {
        let mut least = [f64::INFINITY; 2];
        for round in 0..rounds {
            let (rust, rust_counts) = self.rust_round(round, n);
            let (other, counts) = self.other_round(round, n);
            assert_eq!(rust_counts, counts);
            least = [least[0].min(rust), least[1].min(other)];
        }
        least
    }
}

/// Prints the table, with so many rounds for each row.
pub fn print_table(rounds: usize) {
    println!("| report over residues | modulus | n | Rust ns | other ns | ratio |\n|---|---|---|---|---|---|");
    for modulus in MODULI {
        for residues in [Residues::gaussian(modulus), Residues::uniform(modulus)] {
            for n in LENGTHS {
                let [rust, other] = residues.measure(n, rounds);
                println!("| {} | {modulus} | {n} | {rust:.2} | {other:.2} | {:.2} |", residues.name, other / rust);
            }
        }
    }
}
