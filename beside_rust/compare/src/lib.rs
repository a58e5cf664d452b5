//! The draws of the Rust files and of the Rattle engine behind one trait, and the requests that are put to them.

pub mod crafted;
pub mod damaged;
pub mod families;
pub mod gaussians;
pub mod model_side;
pub mod prepared;
#[cfg(feature = "engine")]
pub mod rattle_side;
pub mod report;
pub mod report_bench;
pub mod report_requests;
pub mod report_texts;
pub mod rust_side;
pub mod skips;
pub mod word_list;

pub use primus_distr::Tables;

/// The distributions by number: 1 to 9 are the kinds of a sheet.
#[derive(Clone, Copy, Debug, PartialEq, Eq, PartialOrd, Ord)]
pub enum Kind {
    UniformBinary = 1,
    SparseTernary = 2,
    UniformTernary = 3,
    BinaryWeight = 4,
    BlockAtMostOne = 5,
    BlockExactlyOne = 6,
    TernaryWeight = 7,
    Composition = 8,
    CenteredBinomial = 9,
    Binary = 10,
    Ternary = 11,
    Gaussian = 12,
    ErrorGaussian = 13,
}

/// A distribution as numbers. A weight, block size or eta is `a`, the ones of a composition are `b`; a probability or a
/// deviation is `p`, the second probability of `Ternary` is `q`.
#[derive(Clone, Copy, Debug, PartialEq)]
pub struct Distr {
    pub kind: Kind,
    pub a: usize,
    pub b: usize,
    pub p: f64,
    pub q: f64,
}

impl Distr {
    pub fn whole(kind: Kind, a: usize, b: usize) -> Self {
        Self { kind, a, b, p: 0.0, q: 0.0 }
    }

    pub fn real(kind: Kind, p: f64, q: f64) -> Self {
        Self { kind, a: 0, b: 0, p, q }
    }

    pub fn is_gaussian(&self) -> bool {
        matches!(self.kind, Kind::Gaussian | Kind::ErrorGaussian)
    }
}

/// Document 01's number, 0 for success, and the place; document 02's sums: the words that the choices passed over, and the
/// bytes that uniform ternary rejected; and its index, of the first wrong figure with 30 to 32, 0 with every other number.
#[derive(Clone, Copy, Debug, PartialEq, Eq)]
pub struct Answer {
    pub number: u32,
    pub place: usize,
    pub index: usize,
    pub skipped_words: u64,
    pub skipped_bytes: u64,
}

impl Answer {
    pub fn success(place: usize, skipped_words: u64, skipped_bytes: u64) -> Self {
        Self { number: 0, place, index: 0, skipped_words, skipped_bytes }
    }

    /// "A refused call reports zeros."
    pub fn refused(number: u32, place: usize) -> Self {
        Self { number, place, index: 0, skipped_words: 0, skipped_bytes: 0 }
    }
}

/// One side of the comparison.
pub trait Engine {
    type Sampler;

    /// A sampler, or the number that refuses it.
    fn make(&self, distr: &Distr) -> Result<Self::Sampler, u32>;

    fn signed(
        &self,
        sampler: &Self::Sampler,
        tables: &Tables,
        words: &[u32],
        place: usize,
        output: &mut [i64],
    ) -> Answer;

    fn encoded(
        &self,
        sampler: &Self::Sampler,
        modulus: u64,
        tables: &Tables,
        words: &[u32],
        place: usize,
        output: &mut [u64],
    ) -> Answer;

    fn crt(
        &self,
        sampler: &Self::Sampler,
        shape: (usize, &[u64]),
        tables: &Tables,
        words: &[u32],
        place: usize,
        output: &mut [u64],
    ) -> Answer;

    /// The answer of a draw of n coefficients that succeeded, with what this side leaves to be counted in the words it read.
    fn counted(&self, _sampler: &Self::Sampler, _n: usize, _read: &[u32], answer: Answer) -> Answer {
        answer
    }
}

/// Which draw, into an output of which length.
#[derive(Clone, Debug)]
pub enum Call {
    Signed { n: usize },
    Encoded { n: usize, modulus: u64 },
    Crt { length: usize, count: usize, moduli: Vec<u64> },
}

impl Call {
    /// How many coefficients are drawn. A CRT draw may have a wrong shape: no more of them than its output has elements.
    pub fn coefficients(&self) -> usize {
        match self {
            Self::Signed { n } | Self::Encoded { n, .. } => *n,
            Self::Crt { length, count, .. } => *count.min(length),
        }
    }
}

/// What comes of a draw: its answer and the output, signed coefficients by their bits.
#[derive(Clone, Debug, PartialEq, Eq)]
pub struct Outcome {
    pub answer: Answer,
    pub output: Vec<u64>,
}

/// What an output holds before a draw: no draw in the list writes it.
pub const UNTOUCHED: u64 = 0x7777_7777_7777_7777;

/// Puts one call to one side.
pub fn ask<E: Engine>(
    engine: &E,
    sampler: &E::Sampler,
    call: &Call,
    tables: &Tables,
    words: &[u32],
    place: usize,
) -> Outcome {
    let mut outcome = drawn(engine, sampler, call, tables, words, place);
    let answer = outcome.answer;
    if answer.number == 0 {
        let read = words.get(place..answer.place).unwrap_or_default();
        outcome.answer = engine.counted(sampler, call.coefficients(), read, answer);
    }
    outcome
}

fn drawn<E: Engine>(
    engine: &E,
    sampler: &E::Sampler,
    call: &Call,
    tables: &Tables,
    words: &[u32],
    place: usize,
) -> Outcome {
    match call {
        Call::Signed { n } => {
            let mut output = vec![UNTOUCHED as i64; *n];
            let answer = engine.signed(sampler, tables, words, place, &mut output);
            let output = output.into_iter().map(|value| value as u64).collect();
            Outcome { answer, output }
        }
        Call::Encoded { n, modulus } => {
            let mut output = vec![UNTOUCHED; *n];
            let answer = engine.encoded(sampler, *modulus, tables, words, place, &mut output);
            Outcome { answer, output }
        }
        Call::Crt { length, count, moduli } => {
            let mut output = vec![UNTOUCHED; *length];
            let answer = engine.crt(sampler, (*count, moduli), tables, words, place, &mut output);
            Outcome { answer, output }
        }
    }
}

/// The side that is held to the Rust.
#[cfg(not(feature = "engine"))]
pub use model_side::ModelSide as OtherSide;
#[cfg(feature = "engine")]
pub use rattle_side::RattleSide as OtherSide;
