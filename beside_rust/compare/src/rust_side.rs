//! The Rust files as a side of the comparison. Where they refuse, document 01's number of that refusal is given.

use std::panic::{AssertUnwindSafe, catch_unwind, resume_unwind, set_hook, take_hook};

use primus_distr::{
    BlockOccupancy, CenteredBinomialError, ErrorDistribution, ErrorSampler, ErrorSamplerError, GaussianError,
    SecretKeyDistr, SecretKeySampler, SecretKeySamplerError, SignedDiscreteGaussian,
};
use rand::{OutOfWords, Words};

use crate::{Answer, Distr, Engine, Kind, Tables};

pub struct RustSide;

/// A prepared sampler.
pub enum Sampler {
    Secret(SecretKeySampler<u64>),
    Error(ErrorSampler<u64>),
}

impl Sampler {
    /// A Gaussian of either kind over lent tables.
    pub fn over(distr: &Distr, tables: &Tables) -> Self {
        let gaussian = tables.gaussian(distr.p);
        match distr.kind {
            Kind::Gaussian => Self::Secret(SecretKeySampler::over(gaussian)),
            _ => Self::Error(ErrorSampler::over(gaussian)),
        }
    }
}

/// The tables of the Rust's own constructor, for a deviation that it takes.
pub fn own_tables(deviation: f64) -> Tables {
    Tables::of(&SignedDiscreteGaussian::new(deviation).expect("a good deviation"))
}

/// The panics by which `sample_crt_to` and `gaussian_stats` refuse, and the number of each refusal.
const REFUSALS: [(&str, u32); 7] = [
    ("CRT error output length", 11),
    ("CRT error modulus must be nonzero", 10),
    ("CRT error modulus cannot encode", 9),
    ("modulus must be positive", 24),
    ("modulus must not exceed 2^53", 24),
    ("counts must have the same length as ranges", 25),
    ("samples must be canonical residues", 26),
];

/// The number of the refusal that a panic says.
fn number_said(text: &str) -> Option<u32> {
    REFUSALS.iter().find(|(said, _)| text.contains(said)).map(|(_, number)| *number)
}

/// Keeps the panics that refuse from being printed.
pub fn print_no_refusals() {
    let print = take_hook();
    set_hook(Box::new(move |panic| {
        if panic.payload_as_str().and_then(number_said).is_none() {
            print(panic);
        }
    }));
}

/// What a call of the Rust gives, or the number of the panic that refuses it.
pub fn refusal_of<T>(run: impl FnOnce() -> T) -> Result<T, u32> {
    catch_unwind(AssertUnwindSafe(run)).or_else(|panic| {
        let text = panic.downcast_ref::<String>().map(String::as_str);
        let text = text.or(panic.downcast_ref::<&str>().copied()).unwrap_or_default();
        match number_said(text) {
            Some(number) => Err(number),
            None if panic.is::<OutOfWords>() => Err(23),
            None => resume_unwind(panic),
        }
    })
}

impl Engine for RustSide {
    type Sampler = Sampler;

    fn make(&self, distr: &Distr) -> Result<Sampler, u32> {
        match distr.kind {
            Kind::CenteredBinomial | Kind::ErrorGaussian => {
                ErrorSampler::try_new(error_distribution(distr)).map(Sampler::Error).map_err(error_number)
            }
            _ => SecretKeySampler::try_new(secret_distribution(distr)).map(Sampler::Secret).map_err(secret_number),
        }
    }

    fn signed(&self, sampler: &Sampler, _tables: &Tables, words: &[u32], place: usize, output: &mut [i64]) -> Answer {
        let drawn = match sampler {
            Sampler::Secret(sampler) => sampler
                .validate_length(output.len())
                .map_err(secret_number)
                .and_then(|()| draw(words, place, |rng| sampler.sample_signed_to(output, rng))),
            Sampler::Error(sampler) => draw(words, place, |rng| sampler.sample_signed_to(output, rng)),
        };
        settled(drawn, place, output)
    }

    /// The errors have no encoded draw: "an encoded centered binomial is a CRT draw of one modulus".
    fn encoded(
        &self,
        sampler: &Sampler,
        modulus: u64,
        tables: &Tables,
        words: &[u32],
        place: usize,
        output: &mut [u64],
    ) -> Answer {
        let Sampler::Secret(secret) = sampler else {
            return self.crt(sampler, (output.len(), &[modulus]), tables, words, place, output);
        };
        assert_ne!(modulus, 0, "the Rust has no name for it");
        let drawn = secret
            .validate_length(output.len())
            .and_then(|()| secret.validate_modulus(modulus - 1))
            .map_err(secret_number)
            .and_then(|()| draw(words, place, |rng| secret.sample_encoded_to(output, modulus - 1, rng)));
        settled(drawn, place, output)
    }

    fn crt(
        &self,
        sampler: &Sampler,
        (count, moduli): (usize, &[u64]),
        _tables: &Tables,
        words: &[u32],
        place: usize,
        output: &mut [u64],
    ) -> Answer {
        let Sampler::Error(sampler) = sampler else {
            panic!("the Rust draws no secret keys for several moduli");
        };
        let drawn = draw(words, place, |rng| sampler.sample_crt_to(output, count, moduli, rng));
        settled(drawn, place, output)
    }

    /// Which bytes uniform ternary rejects, no one but the Rust's own loop sees: the words that it read are gone over again.
    fn counted(&self, sampler: &Sampler, n: usize, read: &[u32], answer: Answer) -> Answer {
        match sampler {
            Sampler::Secret(sampler) if sampler.distr() == SecretKeyDistr::UniformTernary => {
                Answer { skipped_bytes: rejected_bytes(read, n.div_ceil(5)), ..answer }
            }
            _ => answer,
        }
    }
}

/// The bytes from 243 on before the last of so many accepted ones. Those after it, in the last word, are not looked at.
fn rejected_bytes(read: &[u32], accepted: usize) -> u64 {
    let (mut left, mut rejected) = (accepted, 0);
    for word in read {
        assert_ne!(left, 0, "the Rust read a word that it does not need");
        for byte in word.to_le_bytes() {
            match byte {
                _ if left == 0 => {}
                243.. => rejected += 1,
                _ => left -= 1,
            }
        }
    }
    assert_eq!(left, 0, "the Rust read too few words");
    rejected
}

/// Runs a draw: the new place and the words that its choices passed over, or the number of its panic.
fn draw(words: &[u32], place: usize, run: impl FnOnce(&mut Words)) -> Result<(usize, u64), u32> {
    let mut rng = Words::new(words, place);
    refusal_of(|| run(&mut rng))?;
    Ok((rng.place(), rng.passed_over()))
}

/// "23 keeps the place and writes zeros over the output": the Rust leaves what it had written.
fn settled<T: Default + Copy>(drawn: Result<(usize, u64), u32>, place: usize, output: &mut [T]) -> Answer {
    if drawn == Err(23) {
        output.fill(T::default());
    }
    match drawn {
        Ok((place, skipped_words)) => Answer::success(place, skipped_words, 0),
        Err(number) => Answer::refused(number, place),
    }
}

fn error_distribution(distr: &Distr) -> ErrorDistribution {
    match distr.kind {
        Kind::CenteredBinomial => ErrorDistribution::CenteredBinomial { eta: distr.a as u32 },
        _ => ErrorDistribution::Gaussian { standard_deviation: distr.p },
    }
}

fn secret_distribution(distr: &Distr) -> SecretKeyDistr {
    let block = |occupancy| SecretKeyDistr::BlockBinary { block_size: distr.a, occupancy };
    match distr.kind {
        Kind::UniformBinary => SecretKeyDistr::UniformBinary,
        Kind::SparseTernary => SecretKeyDistr::SparseTernary,
        Kind::UniformTernary => SecretKeyDistr::UniformTernary,
        Kind::BinaryWeight => SecretKeyDistr::FixedHammingWeightBinary { hamming_weight: distr.a },
        Kind::BlockAtMostOne => block(BlockOccupancy::AtMostOne),
        Kind::BlockExactlyOne => block(BlockOccupancy::ExactlyOne),
        Kind::TernaryWeight => SecretKeyDistr::FixedHammingWeightTernary { hamming_weight: distr.a },
        Kind::Composition => {
            SecretKeyDistr::FixedCompositionTernary { negative_one_weight: distr.a, one_weight: distr.b }
        }
        Kind::Binary => SecretKeyDistr::Binary { one_probability: distr.p },
        Kind::Ternary => SecretKeyDistr::Ternary { negative_one_probability: distr.p, one_probability: distr.q },
        Kind::Gaussian => SecretKeyDistr::Gaussian { standard_deviation: distr.p },
        Kind::CenteredBinomial | Kind::ErrorGaussian => unreachable!("no distribution of keys"),
    }
}

fn secret_number(error: SecretKeySamplerError) -> u32 {
    match error {
        SecretKeySamplerError::InvalidProbabilities => 1,
        SecretKeySamplerError::Gaussian(error) => gaussian_number(error),
        SecretKeySamplerError::InvalidBlockSize { .. } => 5,
        SecretKeySamplerError::InvalidWeight { .. } => 7,
        SecretKeySamplerError::InvalidBlockLength { .. } => 8,
        SecretKeySamplerError::ModulusTooSmall { .. } => 9,
    }
}

fn error_number(error: ErrorSamplerError) -> u32 {
    match error {
        ErrorSamplerError::Gaussian(error) => gaussian_number(error),
        ErrorSamplerError::CenteredBinomial(CenteredBinomialError::InvalidEta { .. }) => 4,
        ErrorSamplerError::ModulusTooSmall { .. } => 9,
        other => panic!("no number for {other}"),
    }
}

/// The Rust's own limit of the support is 2^64: above it 3, as above 4,095 here.
fn gaussian_number(error: GaussianError) -> u32 {
    match error {
        GaussianError::InvalidStandardDeviation { .. } => 2,
        GaussianError::MaximumMagnitudeTooLarge { .. } => 3,
        other => panic!("no number for {other}"),
    }
}
