//! The fixed list of texts for the program `residue_report`, each with what the program is to print for it.
//! `crates/residue_report/README.md` states the format of both.

use crate::{
    report::{LARGEST_MODULUS, MOST_RESIDUES, Request, model},
    report_requests::Shape,
    word_list::Random,
};

/// "Up to 4096 limits."
const MOST_LIMITS: usize = 4_096;
/// Residues on a line.
const TO_A_LINE: usize = 10;
/// The residue at half the largest modulus.
const LARGEST_HALF: u64 = LARGEST_MODULUS / 2;

/// A text and what the program is to print for it.
pub struct Text {
    pub name: &'static str,
    pub bytes: Vec<u8>,
    pub expected: Expected,
}

/// What is in a text: numbers to be reported on, or a number that is bad, counted from 1, in one of the parts.
pub enum Expected {
    Report(Request),
    Bad(Part, usize),
}

#[derive(Clone, Copy)]
pub enum Part {
    Modulus,
    Limits,
    Residues,
}

impl Part {
    /// What the part holds, as the program says it.
    fn rule(self) -> &'static str {
        match self {
            Self::Modulus => "the first line is the modulus alone, a whole number from 1 to 9007199254740992",
            Self::Limits => "the second line is up to 4096 limits, whole numbers up to 18446744073709551615",
            Self::Residues => "after the second line come up to 65536 residues, whole numbers below the modulus",
        }
    }
}

impl Text {
    /// Numbers as the program's users lay them out: the modulus, the limits, then lines of residues.
    pub fn laid_out(name: &'static str, request: Request) -> Self {
        let mut text = format!("{}\n{}\n", request.modulus, joined(&request.limits));
        text.extend(request.residues.chunks(TO_A_LINE).map(|line| joined(line) + "\n"));
        Self { name, bytes: text.into(), expected: Expected::Report(request) }
    }

    /// A text whose first bad number is this one of this part.
    fn bad(name: &'static str, text: impl Into<Vec<u8>>, part: Part, number: usize) -> Self {
        Self { name, bytes: text.into(), expected: Expected::Bad(part, number) }
    }

    /// What the program prints after the line that names the text.
    pub fn answer(&self) -> String {
        match &self.expected {
            Expected::Report(request) => report_lines(request),
            Expected::Bad(part, number) => format!("number {number} of the input is bad: {}\n", part.rule()),
        }
    }
}

/// The sums by 128-bit arithmetic, the counts by the Rust.
fn report_lines(request: &Request) -> String {
    let outcome = request.ask(model);
    let counts = request.rust_counts();
    assert_eq!(counts.as_ref(), Ok(&outcome.counts), "{request:?}");
    let mut text = format!("sum {}\nsum of squares {}\n", outcome.report.sum(), outcome.report.squares());
    for (limit, count) in request.limits.iter().zip(counts.unwrap()) {
        text += &format!("at most {limit}: {count}\n");
    }
    text
}

/// The numbers, with a space between.
fn joined(numbers: &[u64]) -> String {
    numbers.iter().map(u64::to_string).collect::<Vec<_>>().join(" ")
}

/// The example in examples/: small values around 0.
pub fn example() -> Text {
    let residues = vec![0, 1, 12_288, 3, 12_287, 2, 12_288, 0, 5, 12_284, 1, 12_285];
    Text::laid_out("-", Request::new(residues, 12_289, vec![0, 1, 2, 4]))
}

/// Every text of the list, in its order.
pub fn all() -> Vec<Text> {
    let parts = [shaped, at_boundaries, oddly_laid_out, bad_first_lines, bad_limits, bad_residues, too_long];
    parts.iter().flat_map(|part| part()).collect()
}

/// Residues of every shape, and moduli of many lengths.
fn shaped() -> Vec<Text> {
    let mut random = Random(1);
    let mut text = |name, modulus, n, shape: Shape, limits: &[u64]| {
        let residues = shape.residues(n, modulus, &mut random);
        Text::laid_out(name, Request::new(residues, modulus, limits.to_vec()))
    };
    let half = [LARGEST_HALF - 1, LARGEST_HALF, LARGEST_HALF + 1];
    vec![
        text("modulus_1", 1, 40, Shape::Random, &[0, 1]),
        text("modulus_2", 2, 64, Shape::Random, &[0, 1, 2]),
        text("modulus_3", 3, 65, Shape::Random, &[0, 1, 2]),
        text("modulus_4", 4, 66, Shape::Random, &[0, 1, 2, 3]),
        text("modulus_5", 5, 67, Shape::Random, &[3, 2, 1, 0]),
        text("modulus_3329", 3_329, 256, Shape::Random, &[0, 1, 2, 832, 1_663, 1_664, 1_665]),
        text("modulus_12289", 12_289, 300, Shape::Random, &[6_144, 6_143, 3_072, 0, 6_145]),
        text("small_values", 12_289, 300, Shape::Small, &[0, 1, 2, 3, 4, 5]),
        text("at_half_even", 12_290, 50, Shape::Half, &[6_144, 6_145, 6_146]),
        text("at_half_odd", 12_289, 50, Shape::Half, &[6_143, 6_144, 6_145]),
        text("above_half_even", 12_290, 50, Shape::AboveHalf, &[6_143, 6_144, 6_145]),
        text("above_half_odd", 12_289, 50, Shape::AboveHalf, &[6_143, 6_144, 6_145]),
        text("around_half", 65_536, 200, Shape::AroundHalf, &[32_766, 32_767, 32_768]),
        text("all_zero", 3_329, 30, Shape::Zeros, &[0, 1]),
        text("all_minus_one", 3_329, 31, Shape::Last, &[0, 1]),
        text("cancelling", 999_983, 200, Shape::Pairs, &[0, 1_000, 250_000, 499_991]),
        text("modulus_9_bits", 509, 90, Shape::Random, &[254, 100, 100, 0]),
        text("modulus_25_bits", 33_554_393, 90, Shape::Random, &[1 << 20, 1 << 22, 1 << 24]),
        text("modulus_33_bits", (1 << 32) + 15, 90, Shape::Random, &[1 << 30, 1 << 31, 1 << 32]),
        text("modulus_41_bits", 1 << 40, 90, Shape::Random, &[1 << 37, 1 << 38, 1 << 39]),
        text("modulus_53_bits", (1 << 52) + 1, 90, Shape::Random, &[1 << 49, 1 << 50, 1 << 51]),
        text("below_largest", LARGEST_MODULUS - 1, 120, Shape::Random, &half),
        text("largest_modulus", LARGEST_MODULUS, 120, Shape::Random, &[0, 1 << 51, 1 << 53, u64::MAX]),
        text("largest_around_half", LARGEST_MODULUS, 120, Shape::AroundHalf, &half),
        text("long_modulus_2", 2, MOST_RESIDUES, Shape::Random, &[0, 1]),
        text("long_modulus_5", 5, MOST_RESIDUES, Shape::Random, &[0, 1, 2]),
        text("long_modulus_97", 97, MOST_RESIDUES, Shape::Random, &[0, 1, 24, 47, 48, 49]),
    ]
}

/// Sums and squares at powers of 2^64, and lists of limits.
fn at_boundaries() -> Vec<Text> {
    let text = |name, modulus, residues, limits| Text::laid_out(name, Request::new(residues, modulus, limits));
    let minus_2_64 = [vec![LARGEST_HALF; 4_096], vec![LARGEST_MODULUS - 1 - 4_096]].concat();
    let most_limits = (0..MOST_LIMITS as u64).map(|at| at % 7).collect();
    let many_limits = (0..300).map(|at| at * 7_919 % 1_000).collect();
    let large_limits = vec![u64::MAX, 1 << 63, 5, 1 << 53, u64::MAX - 1];
    vec![
        text("sum_minus_one", 7, vec![1, 6, 2, 5, 3, 4, 6], vec![0, 1, 2, 3]),
        text("sum_one", 7, vec![6, 1, 5, 2, 4, 3, 1], vec![3, 2, 1, 0]),
        text("sum_below_2_64", LARGEST_MODULUS - 1, vec![LARGEST_HALF - 1; 4_096], vec![LARGEST_HALF - 1]),
        text("sum_2_64", LARGEST_MODULUS, vec![LARGEST_HALF; 4_096], vec![LARGEST_HALF]),
        text("sum_minus_2_64", LARGEST_MODULUS - 1, minus_2_64, vec![4_095, 4_096, LARGEST_HALF - 2]),
        text("squares_below_2_64", 1 << 34, vec![u32::MAX.into(), 92_681, 408, 19, 2], vec![u32::MAX.into()]),
        text("squares_2_64", 1 << 33, vec![1 << 32], vec![(1 << 32) - 1, 1 << 32]),
        text("squares_carried", 1 << 33, vec![1 << 31; 4], vec![1 << 31]),
        text("squares_past_2_64", 1 << 33, vec![(1 << 33) - 1, u32::MAX.into(), 1 << 17], vec![1]),
        text("limits_none", 12_289, vec![5, 12_288, 6_144, 6_145], vec![]),
        text("limits_many", 1_999, (0..1_999).step_by(9).collect(), many_limits),
        text("limits_most", 11, (0..60).map(|at| at % 11).collect(), most_limits),
        text("limits_large", 11, (0..44).map(|at| at % 11).collect(), large_limits),
        text("no_residues", 12_289, vec![], vec![0, 1, 2]),
        text("modulus_alone", 12_289, vec![], vec![]),
    ]
}

/// Good texts that are laid out otherwise.
fn oddly_laid_out() -> Vec<Text> {
    let text = |name, text: &str, modulus, limits: &[u64], residues: &[u64]| {
        let request = Request::new(residues.to_vec(), modulus, limits.to_vec());
        Text { name, bytes: text.into(), expected: Expected::Report(request) }
    };
    let zeros = "0".repeat(1_000);
    vec![
        text("text_modulus_alone", "12289", 12_289, &[], &[]),
        text("text_one_newline", "12289\n", 12_289, &[], &[]),
        text("text_limits_alone", "12289\n0 1", 12_289, &[0, 1], &[]),
        text("text_no_last_newline", "7\n0 1\n1 2 3\n4 5", 7, &[0, 1], &[1, 2, 3, 4, 5]),
        text("text_crlf", "7\r\n0 1\r\n1 2 3\r\n4 5\r\n", 7, &[0, 1], &[1, 2, 3, 4, 5]),
        text("text_crlf_no_limits", "7\r\n\r\n1 2 3\r\n", 7, &[], &[1, 2, 3]),
        text("text_tabs", "\t7\t\n\t0\t1\n\t1\t2\t \t3\t\n", 7, &[0, 1], &[1, 2, 3]),
        text("text_spaces", "  7  \n  0   1 \n  1  2 \n \n   3 ", 7, &[0, 1], &[1, 2, 3]),
        text("text_carriage_returns", "\r7\r\n0\r1\n1\r2\r3", 7, &[0, 1], &[1, 2, 3]),
        text("text_blank_limits", "7\n \t \r\n3 4\n", 7, &[], &[3, 4]),
        text("text_blank_lines", "7\n2\n\n\n1\n\n\n2\n\n", 7, &[2], &[1, 2]),
        text("text_one_a_line", "7\n2\n6\n5\n4\n3\n2\n1\n0\n", 7, &[2], &[6, 5, 4, 3, 2, 1, 0]),
        text("text_leading_zeros", "0007\n00 0001 010\n06 0000 003\n", 7, &[0, 1, 10], &[6, 0, 3]),
        text("text_many_zeros", &format!("{zeros}7\n{zeros}2\n{zeros}6 {zeros}\n"), 7, &[2], &[6, 0]),
        text("text_largest", "09007199254740992\n018446744073709551615\n1", LARGEST_MODULUS, &[u64::MAX], &[1]),
    ]
}

/// Texts whose first line is no modulus. The part and the number of each bad text here were worked out by hand.
fn bad_first_lines() -> Vec<Text> {
    vec![
        Text::bad("bad_empty", b"", Part::Modulus, 1),
        Text::bad("bad_newline_alone", b"\n", Part::Modulus, 1),
        Text::bad("bad_blank_first_line", b"\n7\n0 1\n1 2 3\n", Part::Modulus, 1),
        Text::bad("bad_spaces_first_line", b" \t\r\n7\n0 1\n1 2 3\n", Part::Modulus, 1),
        Text::bad("bad_modulus_0", b"0\n0 1\n0\n", Part::Modulus, 1),
        Text::bad("bad_modulus_zeros", b"000\n\n", Part::Modulus, 1),
        Text::bad("bad_modulus_above", b"9007199254740993\n0 1\n1 2 3\n", Part::Modulus, 1),
        Text::bad("bad_modulus_wraps", b"18446744073709551623\n0 1\n1 2 3\n", Part::Modulus, 1),
        Text::bad("bad_modulus_long", b"99999999999999999999999999999999999999999\n0 1\n1 2 3\n", Part::Modulus, 1),
        Text::bad("bad_modulus_minus", b"-7\n0 1\n1 2 3\n", Part::Modulus, 1),
        Text::bad("bad_modulus_plus", b"+7\n0 1\n1 2 3\n", Part::Modulus, 1),
        Text::bad("bad_modulus_letter", b"q\n0 1\n1 2 3\n", Part::Modulus, 1),
        Text::bad("bad_modulus_hex", b"0x7\n0 1\n1 2 3\n", Part::Modulus, 1),
        Text::bad("bad_modulus_point", b"7.0\n0 1\n1 2 3\n", Part::Modulus, 1),
        Text::bad("bad_modulus_byte_order_mark", b"\xef\xbb\xbf7\n0 1\n1 2 3\n", Part::Modulus, 1),
        Text::bad("bad_modulus_then_second", b"0 7\n0 1\n1 2 3\n", Part::Modulus, 1),
        Text::bad("bad_second_modulus", b"7 11\n0 1\n1 2 3\n", Part::Modulus, 2),
        Text::bad("bad_second_letter", b"7 q\n0 1\n1 2 3\n", Part::Modulus, 2),
        Text::bad("bad_one_line", b"7 0 1 1 2 3", Part::Modulus, 2),
        Text::bad("bad_carriage_return_lines", b"7\r0 1\r1 2 3\r", Part::Modulus, 2),
    ]
}

/// Texts with a bad limit.
fn bad_limits() -> Vec<Text> {
    vec![
        Text::bad("bad_limit_letter", b"7\n0 a 2\n1 2 3\n", Part::Limits, 3),
        Text::bad("bad_limit_minus", b"7\n-1\n1 2 3\n", Part::Limits, 2),
        Text::bad("bad_limit_plus", b"7\n0 +1\n1 2 3\n", Part::Limits, 3),
        Text::bad("bad_limit_commas", b"7\n0,1,2\n1 2 3\n", Part::Limits, 2),
        Text::bad("bad_limit_2_64", b"7\n0 1 18446744073709551616\n1 2 3\n", Part::Limits, 4),
        Text::bad("bad_limit_wraps", b"7\n18446744073709551617 1\n1 2 3\n", Part::Limits, 2),
        Text::bad("bad_limit_tenfold", b"7\n0 184467440737095516150\n1 2 3\n", Part::Limits, 3),
        Text::bad("bad_limit_before_residue", b"7\n0 1 x\n9 y\n", Part::Limits, 4),
    ]
}

/// Texts with a bad residue.
fn bad_residues() -> Vec<Text> {
    vec![
        Text::bad("bad_residue_modulus", b"7\n0 1\n1 2 7 3\n", Part::Residues, 6),
        Text::bad("bad_residue_first", b"7\n0 1\n8 1 2\n", Part::Residues, 4),
        Text::bad("bad_residue_last", b"7\n0 1\n1 2 3\n4 5 6 7", Part::Residues, 10),
        Text::bad("bad_residue_no_limits", b"7\n\n7\n", Part::Residues, 2),
        Text::bad("bad_residue_of_modulus_1", b"1\n0\n0 0 1\n", Part::Residues, 5),
        Text::bad("bad_residue_of_largest", b"9007199254740992\n\n1 9007199254740992\n", Part::Residues, 3),
        Text::bad("bad_residue_wraps", b"7\n0 1\n18446744073709551617\n", Part::Residues, 4),
        Text::bad("bad_residue_long", b"7\n0 1\n1 100000000000000000000000000000000000000000\n", Part::Residues, 5),
        Text::bad("bad_residue_letter", b"7\n0 1\n1 2 three\n", Part::Residues, 6),
        Text::bad("bad_residue_minus", b"7\n0 1\n1 -2 3\n", Part::Residues, 5),
        Text::bad("bad_residue_minus_zero", b"7\n0 1\n-0\n", Part::Residues, 4),
        Text::bad("bad_residue_exponent", b"1000000\n0 1\n1 1e5\n", Part::Residues, 5),
        Text::bad("bad_residue_commas", b"7\n0 1\n1, 2, 3\n", Part::Residues, 4),
        Text::bad("bad_residue_point", b"7\n0 1\n1 2.\n", Part::Residues, 5),
        Text::bad("bad_residue_underscore", b"12289\n0 1\n1_000\n", Part::Residues, 4),
        Text::bad("bad_residue_before_digits", b"7\n0 1\n1 /\n", Part::Residues, 5),
        Text::bad("bad_residue_after_digits", b"7\n0 1\n1 :\n", Part::Residues, 5),
        Text::bad("bad_residue_nul", b"7\n0 1\n1 2\x003\n", Part::Residues, 5),
        Text::bad("bad_residue_form_feed", b"7\n0 1\n1\x0c2\n", Part::Residues, 4),
        Text::bad("bad_residue_hard_space", b"7\n0 1\n1\xc2\xa02\n", Part::Residues, 4),
        Text::bad("bad_residue_other_digits", "7\n0 1\n1 ٣\n".as_bytes(), Part::Residues, 5),
        Text::bad("bad_residue_comment", b"7\n0 1\n1 2 # two\n", Part::Residues, 6),
        Text::bad("bad_residues_two", b"7\n0 1\n1 8 9 x\n", Part::Residues, 5),
    ]
}

/// One limit, and one residue, more than there may be.
fn too_long() -> Vec<Text> {
    let limits = "3 ".repeat(MOST_LIMITS + 1);
    let residues = "1 ".repeat(MOST_RESIDUES + 1);
    vec![
        Text::bad("bad_limits_4097", format!("7\n{limits}\n1 2 3\n"), Part::Limits, 2 + MOST_LIMITS),
        Text::bad("bad_residues_65537", format!("2\n0 1\n{residues}\n"), Part::Residues, 4 + MOST_RESIDUES),
    ]
}
