//! Gaussians of many deviations, and odd tables for them.

use crate::{Tables, families::Family, prepared::Prepared, word_list::Random};

/// Gaussians of many deviations over the Rust's own tables, for every second deviation over odd ones too.
pub fn gaussians(family: Family, count: usize, random: &mut Random) -> Vec<Prepared> {
    let (least, most) = if family == Family::Layered { (21.34, 341.0) } else { (0.7, 21.0) };
    let mut deviations = family.deviations().to_vec();
    while deviations.len() < count {
        let deviation = least + (most - least) * (random.next() as f64 / 2f64.powi(64));
        deviations.push(if random.below(2) == 0 { deviation } else { deviation.ceil() });
    }
    let mut all = Vec::new();
    for (at, distr) in family.distributions(0, &deviations).into_iter().enumerate() {
        let prepared = Prepared::new(distr);
        if at % 4 < 2 {
            all.push(Prepared::over(distr, odd_tables(&prepared, random)));
        }
        all.push(prepared);
    }
    all
}

/// Tables of the same support and curve that document 01 allows and no constructor makes.
fn odd_tables(prepared: &Prepared, random: &mut Random) -> Tables {
    let mut tables = prepared.tables.clone();
    if tables.endpoints.is_empty() {
        let last = tables.bounds.len() - 1;
        tables.bounds[1..last].fill_with(|| random.next());
        tables.bounds.sort();
    } else {
        let layers = random.pick(&[128, 256, 512]);
        tables.endpoints = odd_endpoints(layers, prepared, random);
        tables.heights = tied_heights(&tables, random);
    }
    tables
}

/// Endpoints with gaps of a power of two, or none; the whole part of the deviation and the number below it are among them.
fn odd_endpoints(layers: usize, prepared: &Prepared, random: &mut Random) -> Vec<u64> {
    let deviation = prepared.distr.p as u64;
    let mut endpoints = vec![0, deviation - 1, deviation, prepared.largest()];
    let mut next = 0;
    while endpoints.len() <= layers {
        next = (next + random.pick(&[0, 1, 2, 4, 8, 16, 32])).min(prepared.largest());
        endpoints.push(next);
    }
    endpoints.sort();
    endpoints
}

/// Falling heights. Where it can be, the curve just past a layer's inner endpoint is halfway up the layer, so that the word
/// 2^31 gives a height equal to the curve's.
fn tied_heights(tables: &Tables, random: &mut Random) -> Vec<f64> {
    let mut heights = vec![random.pick(&[1.0, 0.9991, 1.25])];
    for ends in tables.endpoints.windows(2) {
        let above = heights[heights.len() - 1];
        let halfway = 2.0 * tables.curve[(ends[0] + 1).min(ends[1]) as usize] - above;
        let tied = 0.0 < halfway && halfway < above;
        heights.push(if tied { halfway } else { above * random.pick(&[0.5, 0.96875, 0.9921875]) });
    }
    *heights.last_mut().unwrap() = 0.0;
    heights
}
