//! The Rattle engine as a side of the comparison, by the calls that README.md lists.

use crate::{Answer, Distr, Engine, Tables, report::Report};

unsafe extern "C" {
    safe fn beside_make(kind: u32, a: usize, b: usize, p: f64, q: f64) -> u32;

    fn beside_signed(
        kind: u32,
        a: usize,
        b: usize,
        p: f64,
        q: f64,
        bounds: *const u64,
        bounds_len: usize,
        endpoints: *const u64,
        endpoints_len: usize,
        heights: *const f64,
        heights_len: usize,
        curve: *const f64,
        curve_len: usize,
        words: *const u32,
        words_len: usize,
        place: usize,
        output: *mut i64,
        output_len: usize,
        new_place: *mut usize,
        index: *mut usize,
        skipped_words: *mut u64,
        skipped_bytes: *mut u64,
    ) -> u32;

    fn beside_encoded(
        kind: u32,
        a: usize,
        b: usize,
        p: f64,
        q: f64,
        modulus: u64,
        bounds: *const u64,
        bounds_len: usize,
        endpoints: *const u64,
        endpoints_len: usize,
        heights: *const f64,
        heights_len: usize,
        curve: *const f64,
        curve_len: usize,
        words: *const u32,
        words_len: usize,
        place: usize,
        output: *mut u64,
        output_len: usize,
        new_place: *mut usize,
        index: *mut usize,
        skipped_words: *mut u64,
        skipped_bytes: *mut u64,
    ) -> u32;

    fn beside_crt(
        kind: u32,
        a: usize,
        b: usize,
        p: f64,
        q: f64,
        count: usize,
        moduli: *const u64,
        moduli_len: usize,
        bounds: *const u64,
        bounds_len: usize,
        endpoints: *const u64,
        endpoints_len: usize,
        heights: *const f64,
        heights_len: usize,
        curve: *const f64,
        curve_len: usize,
        words: *const u32,
        words_len: usize,
        place: usize,
        output: *mut u64,
        output_len: usize,
        new_place: *mut usize,
        index: *mut usize,
        skipped_words: *mut u64,
        skipped_bytes: *mut u64,
    ) -> u32;

    fn beside_report(
        residues: *const u64,
        residues_len: usize,
        modulus: u64,
        limits: *const u64,
        limits_len: usize,
        counts: *mut u64,
        counts_len: usize,
        negative: *mut u8,
        sum_high: *mut u64,
        sum_low: *mut u64,
        squares_high: *mut u64,
        squares_low: *mut u64,
    ) -> u32;
}

pub struct RattleSide;

/// Calls a draw: the distribution, what is particular to the call, the tables, the words, the output, and what it writes
/// beside its number. Index and sums start at what no draw reports.
macro_rules! draw {
    ($call:ident, $distr:ident, ($($own:expr),*), $tables:ident, $words:ident, $place:ident, $output:ident) => {{
        let (mut place, mut index, mut skipped_words, mut skipped_bytes) = ($place, usize::MAX, u64::MAX, u64::MAX);
        // SAFETY: each pointer goes with its slice's length, and the engine touches nothing else.
        let number = unsafe {
            $call(
                $distr.kind as u32, $distr.a, $distr.b, $distr.p, $distr.q, $($own,)*
                $tables.bounds.as_ptr(), $tables.bounds.len(), $tables.endpoints.as_ptr(), $tables.endpoints.len(),
                $tables.heights.as_ptr(), $tables.heights.len(), $tables.curve.as_ptr(), $tables.curve.len(),
                $words.as_ptr(), $words.len(), $place,
                $output.as_mut_ptr(), $output.len(), &mut place, &mut index, &mut skipped_words, &mut skipped_bytes,
            )
        };
        Answer { number, place, index, skipped_words, skipped_bytes }
    }};
}

impl Engine for RattleSide {
    /// Each call makes its sampler anew.
    type Sampler = Distr;

    fn make(&self, distr: &Distr) -> Result<Distr, u32> {
        match beside_make(distr.kind as u32, distr.a, distr.b, distr.p, distr.q) {
            0 => Ok(*distr),
            number => Err(number),
        }
    }

    fn signed(&self, distr: &Distr, tables: &Tables, words: &[u32], place: usize, output: &mut [i64]) -> Answer {
        draw!(beside_signed, distr, (), tables, words, place, output)
    }

    fn encoded(
        &self,
        distr: &Distr,
        modulus: u64,
        tables: &Tables,
        words: &[u32],
        place: usize,
        output: &mut [u64],
    ) -> Answer {
        draw!(beside_encoded, distr, (modulus), tables, words, place, output)
    }

    fn crt(
        &self,
        distr: &Distr,
        (count, moduli): (usize, &[u64]),
        tables: &Tables,
        words: &[u32],
        place: usize,
        output: &mut [u64],
    ) -> Answer {
        draw!(beside_crt, distr, (count, moduli.as_ptr(), moduli.len()), tables, words, place, output)
    }
}

/// A report over residues. The sign, a byte, and the sums start at what no refusal reports.
pub fn report(residues: &[u64], modulus: u64, limits: &[u64], counts: &mut [u64]) -> Report {
    let (mut sign, mut sums) = (1, [u64::MAX; 4]);
    let [sum_high, sum_low, squares_high, squares_low] = &mut sums;
    // SAFETY: each pointer goes with its slice's length, and the engine touches nothing else.
    #[rustfmt::skip]
    let number = unsafe {
        beside_report(
            residues.as_ptr(), residues.len(), modulus,
            limits.as_ptr(), limits.len(), counts.as_mut_ptr(), counts.len(),
            &mut sign, sum_high, sum_low, squares_high, squares_low,
        )
    };
    let [sum_high, sum_low, squares_high, squares_low] = sums;
    assert!(sign <= 1, "a boolean is 0 or 1");
    Report { number, negative: sign == 1, sum_high, sum_low, squares_high, squares_low }
}
