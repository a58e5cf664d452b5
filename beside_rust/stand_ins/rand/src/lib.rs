//! Document 01's rules for words and draws, under the names of the crate `rand` that the Rust files call.

use std::panic::resume_unwind;

/// A source of random words.
pub trait Rng {
    fn next_u32(&mut self) -> u32;
    fn next_u64(&mut self) -> u64;

    /// A choice has passed over the word that it read last.
    fn pass_over(&mut self);
}

pub trait CryptoRng: Rng {}

impl<R: Rng + ?Sized> Rng for &mut R {
    #[inline]
    fn next_u32(&mut self) -> u32 {
        (**self).next_u32()
    }

    #[inline]
    fn next_u64(&mut self) -> u64 {
        (**self).next_u64()
    }

    #[inline]
    fn pass_over(&mut self) {
        (**self).pass_over();
    }
}

impl<R: CryptoRng + ?Sized> CryptoRng for &mut R {}

pub trait RngExt: Rng {
    #[inline]
    fn random<T>(&mut self) -> T
    where
        distr::StandardUniform: distr::Distribution<T>,
    {
        distr::Distribution::sample(&distr::StandardUniform, self)
    }
}

impl<R: Rng + ?Sized> RngExt for R {}

/// The lent list of words, the place of the next one, and how many of those before it the choices passed over.
pub struct Words<'a> {
    words: &'a [u32],
    place: usize,
    passed_over: u64,
}

/// The panic of a draw that needs a word which is not there. It passes by the panic hook.
pub struct OutOfWords;

#[cold]
#[inline(never)]
fn out_of_words() -> ! {
    resume_unwind(Box::new(OutOfWords))
}

impl<'a> Words<'a> {
    pub fn new(words: &'a [u32], place: usize) -> Self {
        Self { words, place, passed_over: 0 }
    }

    pub fn place(&self) -> usize {
        self.place
    }

    pub fn passed_over(&self) -> u64 {
        self.passed_over
    }
}

impl Rng for Words<'_> {
    #[inline]
    fn next_u32(&mut self) -> u32 {
        let Some(&word) = self.words.get(self.place) else { out_of_words() };
        self.place += 1;
        word
    }

    /// "A 64-bit word is two of them, low half first."
    #[inline]
    fn next_u64(&mut self) -> u64 {
        let Some(&[low, high]) = self.words.get(self.place..self.place + 2) else { out_of_words() };
        self.place += 2;
        u64::from(low) | u64::from(high) << 32
    }

    /// Out of line: what passes over nothing is to take no longer for the counting.
    #[cold]
    #[inline(never)]
    fn pass_over(&mut self) {
        self.passed_over += 1;
    }
}

impl CryptoRng for Words<'_> {}

pub mod distr {
    use super::Rng;

    pub trait Distribution<T> {
        fn sample<R: Rng + ?Sized>(&self, rng: &mut R) -> T;

        #[inline]
        fn sample_iter<R: Rng>(self, mut rng: R) -> impl Iterator<Item = T>
        where
            Self: Sized,
        {
            std::iter::repeat_with(move || self.sample(&mut rng))
        }
    }

    impl<T, D: Distribution<T> + ?Sized> Distribution<T> for &D {
        #[inline]
        fn sample<R: Rng + ?Sized>(&self, rng: &mut R) -> T {
            (**self).sample(rng)
        }
    }

    pub struct StandardUniform;

    /// "A coin is yes for a word of 2^31 or more."
    impl Distribution<bool> for StandardUniform {
        #[inline]
        fn sample<R: Rng + ?Sized>(&self, rng: &mut R) -> bool {
            rng.next_u32() >= 1 << 31
        }
    }

    /// A parameter that a distribution does not take.
    #[derive(Debug)]
    pub struct Invalid;

    /// A whole number that a choice can give.
    pub trait SampleUniform: Copy {
        fn distance_to(self, high: Self) -> Option<u64>;
        fn plus(self, offset: u64) -> Self;
    }

    macro_rules! sample_uniform {
        ($($integer:ty)*) => {$(
            impl SampleUniform for $integer {
                #[inline]
                fn distance_to(self, high: Self) -> Option<u64> {
                    (self <= high).then(|| (high as u64).wrapping_sub(self as u64))
                }

                #[inline]
                fn plus(self, offset: u64) -> Self {
                    self + offset as $integer
                }
            }
        )*};
    }
    sample_uniform!(i32 i64 u32 u64 usize);

    /// A choice among `count` values from `low` on.
    #[derive(Clone, Copy, Debug)]
    pub struct Uniform<T> {
        low: T,
        count: u64,
        end: u64,
    }

    impl<T: SampleUniform> Uniform<T> {
        #[inline]
        pub fn new(low: T, high: T) -> Result<Self, Invalid> {
            Self::among(low, low.distance_to(high))
        }

        #[inline]
        pub fn new_inclusive(low: T, high: T) -> Result<Self, Invalid> {
            Self::among(low, low.distance_to(high).and_then(|most| most.checked_add(1)))
        }

        /// "Skips it if it is not below k × ⌊2^32/k⌋": above 2^32 values every word is skipped.
        #[inline]
        fn among(low: T, count: Option<u64>) -> Result<Self, Invalid> {
            let count = count.filter(|&count| count > 0).ok_or(Invalid)?;
            let end = count * ((1 << 32) / count);
            Ok(Self { low, count, end })
        }
    }

    impl<T: SampleUniform> Distribution<T> for Uniform<T> {
        #[inline]
        fn sample<R: Rng + ?Sized>(&self, rng: &mut R) -> T {
            loop {
                let word = u64::from(rng.next_u32());
                if word < self.end {
                    return self.low.plus(word % self.count);
                }
                rng.pass_over();
            }
        }
    }

    /// "A probability p has the threshold ⌊p × 2^64⌋": a 64-bit word below it is yes.
    #[derive(Clone, Copy, Debug)]
    pub struct Bernoulli {
        threshold: u64,
    }

    /// Stands for the threshold 2^64. No p below 1 has it: the largest, 1 − 2^−53, has 2^64 − 2^11.
    const ALWAYS: u64 = u64::MAX;

    impl Bernoulli {
        pub fn new(p: f64) -> Result<Self, Invalid> {
            let threshold = match p {
                1.0 => ALWAYS,
                0.0..1.0 => (p * 18_446_744_073_709_551_616.0) as u64,
                _ => return Err(Invalid),
            };
            Ok(Self { threshold })
        }
    }

    impl Distribution<bool> for Bernoulli {
        #[inline]
        fn sample<R: Rng + ?Sized>(&self, rng: &mut R) -> bool {
            self.threshold == ALWAYS || rng.next_u64() < self.threshold
        }
    }
}

pub mod seq {
    use super::{
        Rng,
        distr::{Distribution, Uniform},
    };

    pub trait SliceRandom {
        type Item;

        fn partial_shuffle<R: Rng + ?Sized>(
            &mut self,
            rng: &mut R,
            amount: usize,
        ) -> (&mut [Self::Item], &mut [Self::Item]);
    }

    impl<T> SliceRandom for [T] {
        type Item = T;

        /// "Here and in the reference the insertion serves both": where the last `amount` places hold the inserted value, as
        /// the one caller fills them, exchanging place i with the chosen one is to insert at index i.
        #[inline]
        fn partial_shuffle<R: Rng + ?Sized>(&mut self, rng: &mut R, amount: usize) -> (&mut [T], &mut [T]) {
            let kept = self.len() - amount;
            for index in kept..self.len() {
                let selected = Uniform::new_inclusive(0, index).expect("nonempty insertion range").sample(rng);
                self.swap(index, selected);
            }
            let (rest, shuffled) = self.split_at_mut(kept);
            (shuffled, rest)
        }
    }
}
