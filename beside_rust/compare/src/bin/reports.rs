//! Asks for reports over residues: number, sign, all four halves and every count of the other side are compared with those of
//! 128-bit arithmetic, and numbers and counts with those of the Rust's `gaussian_stats`, where it judges alike.
//! Arguments: how many random requests (1,000,000 where none is given), and a seed.

use std::env;

use compare::{
    UNTOUCHED,
    report::{Outcome, Request, model, other},
    report_requests::{for_crafted_requests, for_short_requests, random_request},
    rust_side::print_no_refusals,
    word_list::Random,
};

/// The numbers of a report.
const NUMBERS: [u32; 5] = [0, 6, 24, 25, 26];

/// What was compared.
#[derive(Default)]
struct Counts {
    /// The requests by their number, and those that the Rust judged too.
    by_number: [u64; NUMBERS.len()],
    rust: u64,
    /// The sums below zero, those that are zero though a value is not, and those with a high half; squares with a high half.
    negative: u64,
    cancelled: u64,
    wide_sums: u64,
    wide_squares: u64,
    residues: u64,
    limits: u64,
    differing: u64,
    /// The disagreement with the fewest residues and limits.
    smallest: Option<(usize, String)>,
}

impl Counts {
    fn compare(&mut self, request: &Request) {
        let [model, other] = [request.ask(model), request.ask(other)];
        let rust = request.is_the_rusts().then(|| request.rust_counts());
        self.tally(request, &model, rust.is_some());
        if model != other || rust.as_ref().is_some_and(|rust| *rust != judged(&other)) {
            self.differing += 1;
            let size = request.residues.len() + request.limits.len();
            if self.smallest.as_ref().is_none_or(|(smallest, _)| size < *smallest) {
                let sides = format!("  model {model:?}\n  Rust  {rust:?}\n  other {other:?}");
                self.smallest = Some((size, format!("  {request:?}\n{sides}")));
            }
        }
    }

    fn tally(&mut self, request: &Request, model: &Outcome, rust: bool) {
        let report = &model.report;
        let number = NUMBERS.iter().position(|number| *number == report.number);
        self.by_number[number.expect("a number of a report")] += 1;
        assert!(report.number == 0 || model.counts.iter().all(|&count| count == UNTOUCHED));
        self.rust += u64::from(rust);
        self.negative += u64::from(report.negative);
        self.cancelled += u64::from(report.sum() == 0 && report.squares() > 0);
        self.wide_sums += u64::from(report.sum_high > 0);
        self.wide_squares += u64::from(report.squares_high > 0);
        self.residues += request.residues.len() as u64;
        self.limits += if report.number == 0 { request.limits.len() as u64 } else { 0 };
    }

    fn print(&self, name: &str) {
        let Self { rust, negative, cancelled, wide_sums, wide_squares, residues, limits, differing, .. } = self;
        print!("{name:11}");
        for requests in self.by_number {
            print!(" {requests:>8}");
        }
        print!(" {rust:>8} {negative:>8} {cancelled:>8} {wide_sums:>9} {wide_squares:>12}");
        println!(" {residues:>12} {limits:>10} {differing:>7}");
        if let Some((_, text)) = &self.smallest {
            println!("{text}");
        }
    }
}

/// What the Rust says of a report: its counts, or the number that refuses it.
fn judged(outcome: &Outcome) -> Result<Vec<u64>, u32> {
    match outcome.report.number {
        0 => Ok(outcome.counts.clone()),
        number => Err(number),
    }
}

fn main() {
    let mut arguments = env::args().skip(1).map(|text| text.parse().expect("a whole number"));
    let requests = arguments.next().unwrap_or(1_000_000);
    let mut random = Random(arguments.next().unwrap_or(0));
    print_no_refusals();
    print!("{:11} {:>8} {:>8} {:>8} {:>8} {:>8} {:>8}", "", "answered", 6, 24, 25, 26, "Rust too");
    print!(" {:>8} {:>8} {:>9} {:>12}", "negative", "sum zero", "sum 2^64", "squares 2^64");
    println!(" {:>12} {:>10} {:>7}", "residues", "counts", "differ");
    let mut counts = [Counts::default(), Counts::default(), Counts::default()];
    for_short_requests(|request| counts[0].compare(request));
    counts[0].print("exhaustive");
    for_crafted_requests(&mut random, |request| counts[1].compare(request));
    counts[1].print("crafted");
    for _ in 0..requests {
        counts[2].compare(&random_request(&mut random));
    }
    counts[2].print("random");
    let disagreements: u64 = counts.iter().map(|counts| counts.differing).sum();
    println!("{disagreements} disagreements");
    std::process::exit((disagreements != 0).into());
}
