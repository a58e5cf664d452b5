//! Nanoseconds a coefficient, both sides: the same words, which move on from call to call, the same output, taken in turn,
//! the least of many rounds; then nanoseconds a residue of a report. Argument: the number of rounds (40 where none is given).

use std::{env, hint::black_box, time::Instant};

use compare::{
    Answer, Call, Distr, Engine, Kind, OtherSide, Tables, prepared::Prepared, report_bench, rust_side::RustSide,
    word_list::WordList,
};

const LENGTHS: [usize; 3] = [1_024, 4_096, 65_536];
const WORDS: usize = 1 << 21;
/// No draw here reads more words a coefficient.
const MOST_WORDS: usize = 8;
/// Coefficients drawn in one round, at least.
const ROUND: usize = 65_536;
/// Calls in one round of the fixed costs.
const EMPTY_CALLS: usize = 64;
const MODULUS: u64 = 12_289;
const MODULI: [u64; 3] = [12_289, 4_294_967_311, 1 << 63];

/// The measured distributions with their names; the weights are shares of n.
fn distributions(n: usize) -> Vec<(&'static str, Distr)> {
    vec![
        ("uniform binary", Distr::whole(Kind::UniformBinary, 0, 0)),
        ("sparse ternary", Distr::whole(Kind::SparseTernary, 0, 0)),
        ("uniform ternary", Distr::whole(Kind::UniformTernary, 0, 0)),
        ("Binary 0.3", Distr::real(Kind::Binary, 0.3, 0.0)),
        ("Ternary 0.3 0.3", Distr::real(Kind::Ternary, 0.3, 0.3)),
        ("binary weight n/8", Distr::whole(Kind::BinaryWeight, n / 8, 0)),
        ("binary weight n/2", Distr::whole(Kind::BinaryWeight, n / 2, 0)),
        ("ternary weight n/2", Distr::whole(Kind::TernaryWeight, n / 2, 0)),
        ("ternary weight n", Distr::whole(Kind::TernaryWeight, n, 0)),
        ("composition n/3 n/3", Distr::whole(Kind::Composition, n / 3, n / 3)),
        ("blocks of 8, at most one", Distr::whole(Kind::BlockAtMostOne, 8, 0)),
        ("blocks of 64, exactly one", Distr::whole(Kind::BlockExactlyOne, 64, 0)),
        ("binomial eta 2", Distr::whole(Kind::CenteredBinomial, 2, 0)),
        ("binomial eta 21", Distr::whole(Kind::CenteredBinomial, 21, 0)),
        ("Gaussian 3.2, cumulative", Distr::real(Kind::Gaussian, 3.2, 0.0)),
        ("Gaussian 21.25, cumulative", Distr::real(Kind::Gaussian, 21.25, 0.0)),
        ("Gaussian 64, layered", Distr::real(Kind::Gaussian, 64.0, 0.0)),
        ("Gaussian 341.25, layered", Distr::real(Kind::Gaussian, 341.25, 0.0)),
    ]
}

/// What both sides draw from and into.
struct Bench {
    words: Vec<u32>,
    signed: Vec<i64>,
    residues: Vec<u64>,
    rounds: usize,
}

impl Bench {
    /// One call from a place on; the place after it.
    fn call<E: Engine>(
        &mut self,
        engine: &E,
        sampler: &E::Sampler,
        call: &Call,
        tables: &Tables,
        place: usize,
    ) -> usize {
        let words = &self.words;
        let Answer { number, place, .. } = match call {
            Call::Signed { n } => engine.signed(sampler, tables, words, place, &mut self.signed[..*n]),
            Call::Encoded { n, modulus } => {
                engine.encoded(sampler, *modulus, tables, words, place, &mut self.residues[..*n])
            }
            Call::Crt { length, count, moduli } => {
                engine.crt(sampler, (*count, moduli), tables, words, place, &mut self.residues[..*length])
            }
        };
        assert_eq!(number, 0);
        black_box((&self.signed, &self.residues));
        place
    }

    /// One round of calls: nanoseconds a coefficient, and the place after them.
    fn round<E: Engine>(
        &mut self,
        engine: &E,
        sampler: &E::Sampler,
        call: &Call,
        tables: &Tables,
        start: usize,
    ) -> (f64, usize) {
        let n = match call {
            Call::Signed { n } | Call::Encoded { n, .. } => *n,
            Call::Crt { count, .. } => *count,
        };
        let calls = ROUND.div_ceil(n);
        let mut place = start;
        let begin = Instant::now();
        for _ in 0..calls {
            place = self.call(engine, sampler, call, tables, place);
        }
        (begin.elapsed().as_nanos() as f64 / (calls * n) as f64, place)
    }

    /// Nanoseconds of our making of a sampler, and of a whole signed call for no coefficients, which makes one, tests it and checks the tables.
    fn fixed_costs(&mut self, prepared: &Prepared) -> [f64; 2] {
        let ours = OtherSide.make(&prepared.distr).expect("made by both");
        let mut least = [f64::INFINITY; 2];
        for _ in 0..self.rounds {
            let begin = Instant::now();
            for _ in 0..EMPTY_CALLS {
                black_box(OtherSide.make(black_box(&prepared.distr)).is_ok());
            }
            let made = begin.elapsed();
            for _ in 0..EMPTY_CALLS {
                black_box(OtherSide.signed(&ours, &prepared.tables, &self.words, 0, &mut self.signed[..0]));
            }
            let both = begin.elapsed();
            least[0] = least[0].min(made.as_nanos() as f64 / EMPTY_CALLS as f64);
            least[1] = least[1].min((both - made).as_nanos() as f64 / EMPTY_CALLS as f64);
        }
        least
    }

    /// The least of the rounds of either side.
    fn measure(&mut self, prepared: &Prepared, call: &Call) -> [f64; 2] {
        let ours = OtherSide.make(&prepared.distr).expect("made by both");
        let mut least = [f64::INFINITY; 2];
        let mut start = 0;
        for _ in 0..self.rounds {
            if start + MOST_WORDS * (ROUND + LENGTHS[0]) > WORDS {
                start = 0;
            }
            let (rust, end) = self.round(&RustSide, &prepared.sampler, call, &prepared.tables, start);
            let (other, other_end) = self.round(&OtherSide, &ours, call, &prepared.tables, start);
            assert_eq!(end, other_end);
            least = [least[0].min(rust), least[1].min(other)];
            start = end;
        }
        least
    }
}

fn main() {
    let rounds = env::args().nth(1).map_or(40, |text| text.parse().expect("a number of rounds"));
    let words = WordList { count: WORDS, seed: 1, given: Vec::new() }.words();
    let mut bench = Bench { words, signed: vec![0; 65_536], residues: vec![0; 65_536], rounds };
    println!("| draw | call | n | Rust ns | other ns | ratio |\n|---|---|---|---|---|---|");
    for n in LENGTHS {
        for (name, distr) in distributions(n) {
            let prepared = Prepared::new(distr);
            let mut row = |what: &str, prepared: &Prepared, call: Call| {
                let [rust, other] = bench.measure(prepared, &call);
                println!("| {name} | {what} | {n} | {rust:.2} | {other:.2} | {:.2} |", other / rust);
            };
            row("signed", &prepared, Call::Signed { n });
            row("encoded", &prepared, Call::Encoded { n, modulus: MODULUS });
            let kind = match distr.kind {
                Kind::Gaussian => Kind::ErrorGaussian,
                Kind::CenteredBinomial => Kind::CenteredBinomial,
                _ => continue,
            };
            let count = n.min(65_536 / MODULI.len());
            let call = Call::Crt { length: count * MODULI.len(), count, moduli: MODULI.to_vec() };
            row("CRT of 3", &Prepared::new(Distr { kind, ..distr }), call);
        }
    }
    println!("\n| draw | making, ns | call for no coefficients, ns |\n|---|---|---|");
    for (name, distr) in distributions(LENGTHS[0]) {
        let [made, empty] = bench.fixed_costs(&Prepared::new(distr));
        println!("| {name} | {made:.0} | {empty:.0} |");
    }
    println!();
    report_bench::print_table(rounds);
}
