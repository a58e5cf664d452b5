//! Puts the same requests to the Rust and to the other side, and compares number, place, index, both sums of what was
//! skipped, and every element of the output; requests over damaged layer lists are put to the model instead of the Rust.
//! Arguments: how many random requests for each family (1,000,000 where none is given), and a seed.

use std::env;

use compare::{
    Call, Engine, Kind, OtherSide, Outcome, UNTOUCHED, ask,
    crafted::Given,
    damaged,
    families::{Family, makings, random_request},
    gaussians::gaussians,
    model_side::ModelSide,
    prepared::{Draw, Prepared},
    rust_side::{RustSide, print_no_refusals},
    word_list::{Random, WordList},
};

/// Word lists of up to four of these are put to every draw of up to six coefficients.
const EDGES: [u32; 8] = [0, 1, 5, 0xe4, 0x7fff_ffff, 0x8000_0000, 0xf3f3_f3f3, u32::MAX];
const EXHAUSTED_LENGTH: usize = 6;
const EXHAUSTED_WORDS: u32 = 4;

/// What was compared.
#[derive(Default)]
struct Counts {
    answered: u64,
    short: u64,
    refused: u64,
    coefficients: u64,
    /// The requests that skipped words, and those that rejected bytes.
    skipped_words: u64,
    skipped_bytes: u64,
    differing: u64,
    /// The disagreement with the fewest words and coefficients.
    smallest: Option<(usize, String)>,
}

impl Counts {
    fn compare(&mut self, prepared: &Prepared, draw: &Draw, words: &[u32]) {
        let Draw { distr, call, place, .. } = draw;
        let ours = OtherSide.make(distr).expect("made by both");
        let rust = ask(&RustSide, &prepared.sampler, call, &prepared.tables, words, *place);
        let other = ask(&OtherSide, &ours, call, &prepared.tables, words, *place);
        match rust.answer.number {
            0 => self.answered += 1,
            23 => self.short += 1,
            _ => self.refused += 1,
        }
        self.coefficients += rust.output.len() as u64;
        self.skipped_words += u64::from(rust.answer.skipped_words > 0);
        self.skipped_bytes += u64::from(rust.answer.skipped_bytes > 0);
        let refused = ![0, 23].contains(&rust.answer.number);
        assert!(!refused || rust.output.iter().all(|&element| element == UNTOUCHED));
        if rust != other {
            self.differing += 1;
            let size = words.len() + rust.output.len();
            if self.smallest.as_ref().is_none_or(|(smallest, _)| size < *smallest) {
                self.smallest = Some((size, described(draw, words, &rust, &other)));
            }
        }
    }

    fn print(&self, name: &str, what: &str) {
        let Self { answered, short, refused, coefficients, skipped_words, skipped_bytes, differing, smallest } = self;
        if answered + short + refused == 0 {
            return;
        }
        print!("{name:18} {what:12} {answered:>9} {short:>9} {refused:>9} {coefficients:>12}");
        println!(" {skipped_words:>13} {skipped_bytes:>14} {differing:>9}");
        if let Some((_, text)) = smallest {
            println!("{text}");
        }
    }
}

fn described(draw: &Draw, words: &[u32], rust: &Outcome, other: &Outcome) -> String {
    format!(
        "  {:?} {:?}\n  words {words:?} place {}\n  Rust  {rust:?}\n  other {other:?}",
        draw.distr, draw.call, draw.place
    )
}

/// The numbers by which requests over damaged layer lists are counted apart: 13, and those that have an index.
const LIST_NUMBERS: [u32; 4] = [13, 30, 31, 32];

/// What was compared over damaged layer lists.
#[derive(Default)]
struct DamagedCounts {
    requests: u64,
    answered: u64,
    short: u64,
    by_number: [u64; LIST_NUMBERS.len()],
    /// The requests whose index is not 0.
    indexed: u64,
    differing: u64,
    /// The disagreement with the fewest changes, words and coefficients.
    smallest: Option<(usize, String)>,
}

impl DamagedCounts {
    fn compare(&mut self, request: &damaged::Request) {
        let damaged::Request { draw, tables, damages } = request;
        let words = draw.words.words();
        let model = ask(&ModelSide, &draw.distr, &draw.call, tables, &words, draw.place);
        let other = ask(&OtherSide, &draw.distr, &draw.call, tables, &words, draw.place);
        let number = model.answer.number;
        self.requests += 1;
        self.answered += u64::from(number == 0);
        self.short += u64::from(number == 23);
        for (count, listed) in self.by_number.iter_mut().zip(LIST_NUMBERS) {
            *count += u64::from(number == listed);
        }
        self.indexed += u64::from(model.answer.index > 0);
        if model != other {
            self.differing += 1;
            let size = damages.len() + words.len() + model.output.len();
            if self.smallest.as_ref().is_none_or(|(smallest, _)| size < *smallest) {
                let Draw { distr, call, words, place } = draw;
                let text = format!("  {distr:?} {call:?}\n  {damages:?}\n  {words:?} place {place}");
                self.smallest = Some((size, format!("{text}\n  model {model:?}\n  other {other:?}")));
            }
        }
    }

    fn print(&self, what: &str) {
        let Self { requests, answered, short, by_number, indexed, differing, smallest } = self;
        print!("{:18} {what:12} {requests:>9} {answered:>9} {short:>9}", "damaged lists");
        for count in by_number {
            print!(" {count:>9}");
        }
        println!(" {indexed:>11} {differing:>9}");
        if let Some((_, text)) = smallest {
            println!("{text}");
        }
    }
}

fn main() {
    let mut arguments = env::args().skip(1).map(|text| text.parse().expect("a whole number"));
    let requests = arguments.next().unwrap_or(1_000_000);
    let mut random = Random(arguments.next().unwrap_or(0));
    print_no_refusals();
    let differing = makings().iter().filter(|distr| RustSide.make(distr).err() != OtherSide.make(distr).err()).count();
    println!("makings: {} compared, {differing} differ", makings().len());
    print!("{:31} {:>9} {:>9} {:>9} {:>12}", "", "answered", "short", "refused", "elements");
    println!(" {:>13} {:>14} {:>9}", "skipped words", "rejected bytes", "differ");
    let mut disagreements = differing as u64;
    for family in Family::ALL {
        let pool = gaussians_of(family, &mut random);
        let mut counts = Counts::default();
        for_short_requests(family, &pool, |prepared, draw, words| counts.compare(prepared, draw, words));
        counts.print(family.name(), "exhaustive");
        disagreements += counts.differing;
        let mut counts = [Counts::default(), Counts::default(), Counts::default()];
        for _ in 0..requests {
            random_comparison(family, &pool, &mut random, &mut counts);
        }
        for (counts, what) in counts.iter().zip(CALLS) {
            counts.print(family.name(), what);
            disagreements += counts.differing;
        }
    }
    disagreements += damaged_lists(requests, &mut random);
    println!("{disagreements} disagreements");
    std::process::exit((disagreements != 0).into());
}

fn gaussians_of(family: Family, random: &mut Random) -> Vec<Prepared> {
    match family {
        Family::Cumulative | Family::Layered => gaussians(family, 40, random),
        _ => Vec::new(),
    }
}

/// So many requests over damaged layer lists; how many disagree.
fn damaged_lists(requests: u64, random: &mut Random) -> u64 {
    let [layered, cumulative] = [Family::Layered, Family::Cumulative].map(|family| gaussians_of(family, random));
    let mut counts = [DamagedCounts::default(), DamagedCounts::default(), DamagedCounts::default()];
    for _ in 0..requests {
        let request = damaged::request(&layered, &cumulative, random);
        counts[which(&request.draw.call)].compare(&request);
    }
    print!("{:31} {:>9} {:>9} {:>9}", "", "requests", "answered", "short");
    for number in LIST_NUMBERS {
        print!(" {number:>9}");
    }
    println!(" {:>11} {:>9}", "index not 0", "differ");
    for (counts, what) in counts.iter().zip(CALLS) {
        counts.print(what);
    }
    counts.iter().map(|counts| counts.differing).sum()
}

/// The calls, and which of them one is.
const CALLS: [&str; 3] = ["signed", "encoded", "CRT"];

fn which(call: &Call) -> usize {
    match call {
        Call::Signed { .. } => 0,
        Call::Encoded { .. } => 1,
        Call::Crt { .. } => 2,
    }
}

/// One request of any call, with crafted words or others.
fn random_comparison(family: Family, pool: &[Prepared], random: &mut Random, counts: &mut [Counts; 3]) {
    let (distr, n) = random_request(family, random);
    let made;
    let prepared = match pool.len() as u64 {
        0 => {
            made = Prepared::new(distr);
            &made
        }
        count => &pool[random.below(count) as usize],
    };
    let what = random.below(3) as usize;
    let call = match prepared.distr.kind {
        Kind::CenteredBinomial | Kind::ErrorGaussian if what == 2 => prepared.crt_call(n, random),
        _ if what == 0 => Call::Signed { n },
        _ => Call::Encoded { n, modulus: prepared.modulus(random) },
    };
    let what = which(&call);
    let given = random.pick(&[Given::Nothing, Given::Nothing, Given::Edges, Given::Skips]);
    let draw = prepared.draw(call, given, random);
    counts[what].compare(prepared, &draw, &draw.words.words());
}

/// Every short list of edge words for every short draw of the family.
fn for_short_requests(family: Family, pool: &[Prepared], mut put: impl FnMut(&Prepared, &Draw, &[u32])) {
    for n in 0..=EXHAUSTED_LENGTH {
        let listed: Vec<Prepared> = family.distributions(n, &[]).into_iter().map(Prepared::new).collect();
        for prepared in listed.iter().chain(pool.iter().take(8)) {
            let calls = [Call::Signed { n }, Call::Encoded { n, modulus: prepared.largest() + 1 }];
            for call in calls {
                let words = WordList { count: 0, seed: 1, given: Vec::new() };
                let draw = Draw { distr: prepared.distr, call, words, place: 0 };
                for length in 0..=EXHAUSTED_WORDS {
                    for number in 0..EDGES.len().pow(length) {
                        let digit = |at| EDGES[number / EDGES.len().pow(at) % EDGES.len()];
                        let words: Vec<u32> = (0..length).map(digit).collect();
                        put(prepared, &draw, &words);
                    }
                }
            }
        }
    }
}
