//! Document 01, with 02's sums and layer lists, in plain Rust, written from their text: the other side where the engine is not
//! linked, and what the engine is held to over damaged layer lists.

use crate::{Answer, Distr, Engine, Kind, Tables, rust_side::RustSide};

pub struct ModelSide;

const FULL: u128 = 1 << 64;

/// What is left of the words, and what was skipped of those before; `None` is a word that is not there.
struct Left<'a> {
    words: &'a [u32],
    place: usize,
    skipped_words: u64,
    skipped_bytes: u64,
}

impl Left<'_> {
    fn word(&mut self) -> Option<u64> {
        let word = *self.words.get(self.place)?;
        self.place += 1;
        Some(word.into())
    }

    fn wide(&mut self) -> Option<u64> {
        Some(self.word()? + self.word()? * (1 << 32))
    }

    /// "Each choice among k reports the words it passed over."
    fn choose(&mut self, k: u64) -> Option<u64> {
        loop {
            let word = self.word()?;
            if word < k * ((1 << 32) / k) {
                return Some(word % k);
            }
            self.skipped_words += 1;
        }
    }

    fn chance(&mut self, threshold: u128) -> Option<bool> {
        Some(threshold == FULL || u128::from(self.wide()?) < threshold)
    }

    /// n digits in a base, so many to a word, lowest first, of as many words as are asked for.
    fn digits(&mut self, n: usize, base: u64, to_a_word: usize, words: usize) -> Option<Vec<u64>> {
        let mut digits = Vec::new();
        for _ in 0..words {
            let word = self.word()?;
            digits.extend((0..to_a_word as u32).map(|at| word / base.pow(at) % base));
        }
        digits.truncate(n);
        Some(digits)
    }

    /// "Inserting at index i chooses s among i+1, copies place s to i and puts the value at s."
    fn insert(&mut self, list: &mut Vec<i64>, value: i64) -> Option<()> {
        let i = list.len();
        let s = self.choose(i as u64 + 1)? as usize;
        list.push(value);
        list.swap(s, i);
        Some(())
    }
}

/// ⌊p × 2^64⌋; the product is exact.
fn threshold(p: f64) -> u128 {
    (p * FULL as f64) as u128
}

/// "The last of `AtMostOne` leaves it zero."
fn categories(distr: &Distr) -> u128 {
    distr.a as u128 + u128::from(distr.kind == Kind::BlockAtMostOne)
}

/// "M = max(1, ⌊deviation × 12.0⌋)."
fn support(deviation: f64) -> u64 {
    ((deviation * 12.0) as u64).max(1)
}

/// The coefficients that the rules give.
fn coefficients(distr: &Distr, n: usize, tables: &Tables, left: &mut Left) -> Option<Vec<i64>> {
    let ternary = |digit: u64| digit as i64 - 1;
    let wide_words = |left: &mut Left, value: &dyn Fn(u64) -> i64| (0..n).map(|_| Some(value(left.wide()?))).collect();
    match distr.kind {
        Kind::UniformBinary => Some(left.digits(n, 2, 32, n / 32 + 1)?.into_iter().map(|bit| bit as i64).collect()),
        Kind::SparseTernary => {
            let groups = left.digits(n, 4, 16, n.div_ceil(16))?;
            Some(groups.into_iter().map(|group| [0, 0, 1, -1][group as usize]).collect())
        }
        Kind::UniformTernary => {
            let (mut list, mut bytes) = (Vec::new(), Vec::new());
            while list.len() < n {
                if bytes.is_empty() {
                    bytes = left.digits(4, 256, 4, 1)?;
                }
                let byte = bytes.remove(0);
                if byte < 243 {
                    list.extend((0..5).map(|at| ternary(byte / 3u64.pow(at) % 3)));
                } else {
                    left.skipped_bytes = left.skipped_bytes.saturating_add(1);
                }
            }
            list.truncate(n);
            Some(list)
        }
        Kind::Binary => (0..n).map(|_| Some(left.chance(threshold(distr.p))?.into())).collect(),
        Kind::Ternary => {
            let (minus, plus) = (threshold(distr.p), threshold(distr.q));
            let end = (minus + plus).min(FULL);
            for (constant, value) in [(minus == FULL, -1), (end == 0, 0), (plus == FULL, 1)] {
                if constant {
                    return Some(vec![value; n]);
                }
            }
            wide_words(left, &|word| match u128::from(word) {
                word if word < minus => -1,
                word if word < end => 1,
                _ => 0,
            })
        }
        Kind::BinaryWeight | Kind::Composition => {
            let minus = if distr.kind == Kind::Composition { distr.a } else { 0 };
            let ones = if distr.kind == Kind::Composition { distr.b } else { distr.a };
            let mut weights = vec![(0, n - minus - ones), (-1, minus), (1, ones)];
            let most = weights.iter().map(|weight| weight.1).max()?;
            let filling = weights.remove(weights.iter().position(|weight| weight.1 == most)?);
            let mut list = vec![filling.0; filling.1];
            for (value, weight) in weights {
                for _ in 0..weight {
                    left.insert(&mut list, value)?;
                }
            }
            Some(list)
        }
        Kind::TernaryWeight if distr.a == n => {
            Some(left.digits(n, 2, 32, n.div_ceil(32))?.into_iter().map(|bit| 2 * bit as i64 - 1).collect())
        }
        Kind::TernaryWeight => {
            let (mut list, mut signs) = (vec![0; n - distr.a], Vec::new());
            for inserted in 0..distr.a {
                if inserted % 32 == 0 {
                    signs = left.digits(32, 2, 32, 1)?;
                }
                left.insert(&mut list, 2 * signs[inserted % 32] as i64 - 1)?;
            }
            Some(list)
        }
        Kind::BlockAtMostOne | Kind::BlockExactlyOne => {
            let mut list = vec![0; n];
            for block in list.chunks_mut(distr.a) {
                if let Some(one) = block.get_mut(left.choose(categories(distr) as u64)? as usize) {
                    *one = 1;
                }
            }
            Some(list)
        }
        Kind::CenteredBinomial => {
            let ones = |bits: u64| (0..distr.a).map(|at| (bits >> at & 1) as i64).sum::<i64>();
            wide_words(left, &|word| ones(word) - ones(word >> distr.a))
        }
        Kind::Gaussian | Kind::ErrorGaussian if support(distr.p) <= 255 => {
            let most = support(distr.p) as usize;
            let magnitude = |word| (0..=most).rev().find(|&m| tables.bounds[m] <= word).unwrap_or(0) as i64;
            wide_words(left, &|word| if word % 2 == 1 { magnitude(word) } else { -magnitude(word) })
        }
        Kind::Gaussian | Kind::ErrorGaussian => {
            let mut list = Vec::new();
            while list.len() < n {
                list.extend(layered_try(distr.p, tables, left)?);
            }
            Some(list)
        }
    }
}

/// One try of the layered draw: a coefficient, or nothing where it is rejected.
fn layered_try(deviation: f64, tables: &Tables, left: &mut Left) -> Option<Option<i64>> {
    let i = left.choose(tables.endpoints.len() as u64 - 1)? as usize + 1;
    let positive = left.word()? >= 1 << 31;
    let m = left.choose(tables.endpoints[i] + 1)?;
    let accepted = if m == 0 {
        left.chance(threshold(0.5 / tables.heights[0]))?
    } else {
        m <= tables.endpoints[i - 1] || accepts(deviation, tables, i, m, left.word()?)
    };
    Some(accepted.then_some(if positive { m as i64 } else { -(m as i64) }))
}

/// The f64 arithmetic of `sample`, with `pdf` read from the curve.
fn accepts(deviation: f64, tables: &Tables, i: usize, m: u64, word: u64) -> bool {
    let (x, y) = (|i: usize| tables.endpoints[i] as f64, |i: usize| tables.heights[i]);
    let scale = (1u64 << 32) as f64;
    let height = (y(i - 1) - y(i)) * word as f64;
    let slope = (y(i) - if i == 1 { 1.0 } else { y(i - 1) }) / (x(i) - x(i - 1));
    let line = |at: f64| if x(i) == x(i - 1) { -1.0 } else { slope * (at - x(i)) };
    let room = scale * (tables.curve[m as usize] - y(i));
    if x(i) + 1.0 <= deviation {
        height <= scale * line(m as f64) || height <= room
    } else if deviation <= x(i - 1) {
        !(height >= scale * line(m as f64 - 1.0) || height > room)
    } else {
        height <= room
    }
}

fn largest(distr: &Distr) -> u64 {
    match distr.kind {
        Kind::CenteredBinomial => distr.a as u64,
        Kind::Gaussian | Kind::ErrorGaussian => support(distr.p),
        _ => 1,
    }
}

/// 7 or 8.
fn length_number(distr: &Distr, n: usize) -> u32 {
    match distr.kind {
        Kind::BinaryWeight | Kind::TernaryWeight | Kind::Composition => {
            if distr.a as u128 + distr.b as u128 > n as u128 { 7 } else { 0 }
        }
        Kind::BlockAtMostOne | Kind::BlockExactlyOne if n == 0 || n % distr.a != 0 => 8,
        _ => 0,
    }
}

/// What the tables are refused by: 12, or a number of the layer lists with its index.
fn table_fault(distr: &Distr, tables: &Tables) -> (u32, usize) {
    let (most, bounds) = (support(distr.p), &tables.bounds);
    if !distr.is_gaussian() {
        (0, 0)
    } else if most <= 255 {
        let good = bounds.len() as u64 == most + 2
            && bounds.first() == Some(&0)
            && bounds.last() == Some(&u64::MAX)
            && bounds.is_sorted();
        (if good { 0 } else { 12 }, 0)
    } else {
        layer_fault(most, tables)
    }
}

/// "13 covers only a wrong R or a wrong list length. The order is 13, endpoints, heights, curve. It refuses with 30 an
/// endpoint that breaks document 01, with 31 a height, with 32 a curve value, each together with the first index that is
/// wrong (the later of a pair out of order)."
fn layer_fault(most: u64, tables: &Tables) -> (u32, usize) {
    let Tables { endpoints, heights, curve, .. } = tables;
    let lengths = [endpoints.len(), heights.len(), curve.len()];
    if ![128, 256, 512].map(|layers| [layers + 1, layers + 1, most as usize + 1]).contains(&lengths) {
        return (13, 0);
    }
    let last = endpoints.len() - 1;
    let right_endpoint = |i: usize| match i {
        0 => endpoints[0] == 0,
        _ => endpoints[i - 1] <= endpoints[i] && (i < last || endpoints[i] == most),
    };
    let right_height = |i: usize| match i {
        0 => heights[0].is_finite() && heights[0] > 0.999,
        _ => heights[i].is_finite() && heights[i - 1] > heights[i] && (i < last || heights[i] == 0.0),
    };
    let right_value = |i: usize| (0.0..=1.0).contains(&curve[i]);
    let firsts = [
        (30, (0..=last).find(|&i| !right_endpoint(i))),
        (31, (0..=last).find(|&i| !right_height(i))),
        (32, (0..curve.len()).find(|&i| !right_value(i))),
    ];
    firsts.into_iter().find_map(|(number, first)| Some((number, first?))).unwrap_or((0, 0))
}

fn past_end(words: &[u32], place: usize) -> u32 {
    if place > words.len() { 22 } else { 0 }
}

fn too_long(n: usize) -> u32 {
    if n > 65_536 { 6 } else { 0 }
}

/// The first number that refuses, and its index; the tables come after the others.
fn first_fault(numbers: &[u32], tables: (u32, usize)) -> (u32, usize) {
    numbers.iter().find(|&&number| number != 0).map_or(tables, |&number| (number, 0))
}

/// The number that refuses, with its index, or the draw.
fn drawn<T: Copy>(
    (number, index): (u32, usize),
    coefficients: impl FnOnce(&mut Left) -> Option<Vec<i64>>,
    words: &[u32],
    place: usize,
    zero: T,
    output: &mut [T],
    write: impl FnOnce(&[i64], &mut [T]),
) -> Answer {
    if number != 0 {
        return Answer { index, ..Answer::refused(number, place) };
    }
    let mut left = Left { words, place, skipped_words: 0, skipped_bytes: 0 };
    let Some(list) = coefficients(&mut left) else {
        output.fill(zero);
        return Answer::refused(23, place);
    };
    write(&list, output);
    let Left { place, skipped_words, skipped_bytes, .. } = left;
    Answer::success(place, skipped_words, skipped_bytes)
}

/// "−m becomes modulus − m, zero stays 0."
fn encode(value: i64, modulus: u64) -> u64 {
    if value < 0 { modulus - value.unsigned_abs() } else { value as u64 }
}

impl Engine for ModelSide {
    type Sampler = Distr;

    /// Making is the Rust's, and 3.
    fn make(&self, distr: &Distr) -> Result<Distr, u32> {
        RustSide.make(distr)?;
        if distr.is_gaussian() && support(distr.p) > 4_095 { Err(3) } else { Ok(*distr) }
    }

    fn signed(&self, distr: &Distr, tables: &Tables, words: &[u32], place: usize, output: &mut [i64]) -> Answer {
        let n = output.len();
        let numbers = [past_end(words, place), too_long(n), length_number(distr, n)];
        let fault = first_fault(&numbers, table_fault(distr, tables));
        let rules = |left: &mut Left| coefficients(distr, n, tables, left);
        drawn(fault, rules, words, place, 0, output, |list, output| output.copy_from_slice(list))
    }

    fn encoded(
        &self,
        distr: &Distr,
        modulus: u64,
        tables: &Tables,
        words: &[u32],
        place: usize,
        output: &mut [u64],
    ) -> Answer {
        let n = output.len();
        if distr.kind == Kind::CenteredBinomial {
            return self.crt(distr, (n, &[modulus]), tables, words, place, output);
        }
        let modulus_number = if modulus <= largest(distr) { 9 } else { 0 };
        let numbers = [past_end(words, place), too_long(n), length_number(distr, n), modulus_number];
        let fault = first_fault(&numbers, table_fault(distr, tables));
        let rules = |left: &mut Left| coefficients(distr, n, tables, left);
        drawn(fault, rules, words, place, 0, output, |list, output| {
            for (residue, &value) in output.iter_mut().zip(list) {
                *residue = encode(value, modulus);
            }
        })
    }

    fn crt(
        &self,
        distr: &Distr,
        (count, moduli): (usize, &[u64]),
        tables: &Tables,
        words: &[u32],
        place: usize,
        output: &mut [u64],
    ) -> Answer {
        let shape = if output.len() as u128 == count as u128 * moduli.len() as u128 { 0 } else { 11 };
        let mut numbers = vec![past_end(words, place), shape, too_long(output.len())];
        numbers.extend(moduli.iter().map(|&modulus| match modulus {
            0 => 10,
            modulus if modulus <= largest(distr) => 9,
            _ => 0,
        }));
        let fault = first_fault(&numbers, table_fault(distr, tables));
        let n = if output.is_empty() { 0 } else { count };
        let rules = |left: &mut Left| coefficients(distr, n, tables, left);
        drawn(fault, rules, words, place, 0, output, |list, output| {
            for (row, &modulus) in moduli.iter().enumerate() {
                for (column, &value) in list.iter().enumerate() {
                    output[row * count + column] = encode(value, modulus);
                }
            }
        })
    }
}
