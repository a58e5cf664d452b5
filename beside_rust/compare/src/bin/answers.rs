//! Writes the fixed list of the Rust's answers into a folder: a file for each family, for a Gaussian one for each support M.
//! `crates/rust_answers/README.md` states the format.

use std::{env, fmt::Write, fs, path::Path};

use compare::{
    Answer, Call, Distr, Engine, Kind, Tables, ask,
    crafted::Given,
    families::{Family, LENGTHS, LONG_LENGTHS, makings},
    prepared::{Draw, Prepared},
    rust_side::{RustSide, print_no_refusals},
    skips::{self, LAST, Skipping},
    word_list::{Random, WordList, digest},
};

/// Outputs up to this length are written out, longer ones by their digest.
const SHOWN: usize = 66;
/// A reader may hold a whole file in an array of so many bytes.
const LARGEST_FILE: usize = 1 << 17;
/// The draws that are put down one by one: the deviation of the layered ones, and the moduli.
const SKIPPING_DEVIATION: f64 = 21.5;
const MODULI: [u64; 2] = [12_289, 4_294_967_311];

fn main() {
    let folder = env::args().nth(1).expect("the folder to write into");
    print_no_refusals();
    fs::create_dir_all(&folder).unwrap();
    let mut random = Random(1);
    let mut lines = 0;
    let mut write = |name: &str, text: String| {
        assert!(text.len() <= LARGEST_FILE, "{name} has {} bytes", text.len());
        lines += text.lines().count();
        fs::write(Path::new(&folder).join(name).with_extension("txt"), text).unwrap();
    };
    write("makings", makings().iter().map(making_line).collect());
    for family in Family::ALL {
        if family.deviations().is_empty() {
            write(family.name(), draw_lines(family, &[], &mut random));
        }
        for deviation in family.deviations().chunks(1) {
            let prepared = Prepared::new(Distr::real(Kind::Gaussian, deviation[0], 0.0));
            let text = table_lines(&prepared.tables) + &draw_lines(family, deviation, &mut random);
            write(&format!("{}_{}", family.name(), prepared.largest()), text);
        }
    }
    write("skips", skip_lines());
    println!("{lines} lines");
}

/// The draws of a family, at every length.
fn draw_lines(family: Family, deviations: &[f64], random: &mut Random) -> String {
    let mut text = String::new();
    for n in LENGTHS.into_iter().chain(LONG_LENGTHS) {
        let crafted_up_to = if family == Family::Layered { 5 } else { 17 };
        let times = if matches!(family, Family::Packed | Family::UniformTernary) { 8 } else { 1 };
        for distr in family.distributions(n, deviations).repeat(times) {
            let prepared = Prepared::new(distr);
            let mut calls = vec![Call::Signed { n }, Call::Encoded { n, modulus: prepared.modulus(random) }];
            if matches!(distr.kind, Kind::CenteredBinomial | Kind::ErrorGaussian) {
                calls.push(prepared.crt_call(n, random));
            }
            for call in calls {
                let crafted = n <= crafted_up_to && random.below(2) == 0;
                let given = if crafted { Given::Edges } else { Given::Nothing };
                text += &draw_line(&prepared, &prepared.draw(call, given, random));
            }
        }
    }
    text
}

/// The draws that are put down one by one, after the tables of the layered ones.
fn skip_lines() -> String {
    let tables = Prepared::new(Distr::real(Kind::Gaussian, SKIPPING_DEVIATION, 0.0)).tables;
    let draws = skips::draws(SKIPPING_DEVIATION, &tables);
    table_lines(&tables) + &draws.iter().map(skipping_lines).collect::<String>()
}

/// A draw with its own words, with others before and behind, of two moduli, and without its last word.
fn skipping_lines(skipping: &Skipping) -> String {
    let Skipping { distr, n, words, skipped_words, skipped_bytes } = skipping;
    let (n, count) = (*n, words.len());
    let prepared = Prepared::new(*distr);
    let mut text = String::new();
    let mut line = |call: Call, given: Vec<u32>, place, answer| {
        let words = WordList { count: given.len(), seed: 1, given };
        let draw = Draw { distr: *distr, call, words, place };
        let outcome = ask(&RustSide, &prepared.sampler, &draw.call, &prepared.tables, &draw.words.words(), place);
        assert_eq!(outcome.answer, answer, "{draw:?}");
        text += &draw_line(&prepared, &draw);
    };
    let sums = |place| Answer::success(place, *skipped_words, *skipped_bytes);
    line(Call::Signed { n }, words.clone(), 0, sums(count));
    let among_others = [&[LAST, LAST], &words[..], &[LAST]].concat();
    line(Call::Encoded { n, modulus: MODULI[0] }, among_others.clone(), 2, sums(2 + count));
    if matches!(distr.kind, Kind::CenteredBinomial | Kind::ErrorGaussian) {
        let shape = |n| Call::Crt { length: MODULI.len() * n, count: n, moduli: MODULI.to_vec() };
        line(shape(n), among_others.clone(), 2, sums(2 + count));
        line(shape(0), among_others, 2, Answer::success(2, 0, 0));
    }
    if count > 0 {
        line(Call::Signed { n }, words[..count - 1].to_vec(), 0, Answer::refused(23, 0));
    }
    text
}

fn making_line(distr: &Distr) -> String {
    format!("1 {} {}\n", numbers(distr), RustSide.make(distr).err().unwrap_or(0))
}

fn draw_line(prepared: &Prepared, draw: &Draw) -> String {
    let Draw { distr, call, words, place } = draw;
    let outcome = ask(&RustSide, &prepared.sampler, call, &prepared.tables, &words.words(), *place);
    let mut line = match call {
        Call::Signed { n } => format!("2 {} {n}", numbers(distr)),
        Call::Encoded { n, modulus } => format!("3 {} {n} {modulus}", numbers(distr)),
        Call::Crt { length, count, moduli } => {
            format!("4 {} {length} {count} {}{}", numbers(distr), moduli.len(), joined(moduli))
        }
    };
    write!(line, " {} {} {}{}", words.count, words.seed, words.given.len(), joined(&words.given)).unwrap();
    let Answer { number, place: new_place, index, skipped_words, skipped_bytes } = outcome.answer;
    assert_eq!(index, 0, "the Rust names none");
    write!(line, " {place} {number} {new_place} {skipped_words} {skipped_bytes}").unwrap();
    if number == 0 {
        let signed = matches!(call, Call::Signed { .. });
        if outcome.output.len() > SHOWN {
            let lifted = outcome.output.iter().map(|&value| value.wrapping_add(if signed { 4_096 } else { 0 }));
            write!(line, " {}", digest(lifted)).unwrap();
        } else if signed {
            line += &joined(&outcome.output.iter().map(|&value| value as i64).collect::<Vec<_>>());
        } else {
            line += &joined(&outcome.output);
        }
    }
    line + "\n"
}

fn table_lines(tables: &Tables) -> String {
    let mut lines = format!("5 {}{}\n", tables.bounds.len(), joined(&tables.bounds));
    lines += &format!("6 {}{}\n", tables.endpoints.len(), joined(&tables.endpoints));
    for (line, values) in [(7, &tables.heights), (8, &tables.curve)] {
        let values: Vec<String> = values.iter().map(|&value| real(value)).collect();
        lines += &format!("{line} {}{}\n", values.len(), joined(&values));
    }
    lines
}

fn numbers(distr: &Distr) -> String {
    let Distr { kind, a, b, p, q } = *distr;
    format!("{} {a} {b} {} {}", kind as u32, real(p), real(q))
}

/// The numbers, with a space before each.
fn joined<T: ToString>(items: &[T]) -> String {
    items.iter().map(|item| format!(" {}", item.to_string())).collect()
}

/// A float as a whole number and a power of two: m × 2^e.
fn real(value: f64) -> String {
    let sign = if value.is_sign_negative() { "-" } else { "" };
    let bits = value.abs().to_bits();
    let (fraction, exponent) = (bits & ((1 << 52) - 1), (bits >> 52) as i32);
    if value.is_nan() {
        return "0 1".into();
    } else if value.is_infinite() {
        return format!("{sign}1 1024");
    } else if value == 0.0 {
        return format!("{sign}0 0");
    }
    let whole = if exponent == 0 { fraction } else { fraction | 1 << 52 };
    let zeros = whole.trailing_zeros();
    format!("{sign}{} {}", whole >> zeros, exponent.max(1) - 1_075 + zeros as i32)
}
