//! Layer lists with figures changed, and the requests that lend them. The Rust judges no lent list: `model_side` does, by
//! document 02.

use crate::{
    Call, Tables,
    families::LENGTHS,
    prepared::{Draw, Prepared},
    word_list::{Random, WordList},
};

#[derive(Clone, Copy, Debug)]
pub enum List {
    Endpoints,
    Heights,
    Curve,
}

const LISTS: [List; 3] = [List::Endpoints, List::Heights, List::Curve];

/// A change of the lists, which may do no harm. `Exchanged` are the figures of an index and of the next; `Layers`, another R,
/// takes endpoints and heights out after the first, or puts some in before the last.
#[derive(Clone, Copy, Debug)]
pub enum Damage {
    Endpoint { at: usize, figure: u64 },
    Height { at: usize, figure: f64 },
    CurveValue { at: usize, figure: f64 },
    Exchanged { list: List, at: usize },
    Longer { list: List },
    Shorter { list: List },
    Emptied { list: List },
    Layers { count: usize },
}

impl Damage {
    /// A change of good lists whose support is given.
    fn random(tables: &Tables, most: u64, random: &mut Random) -> Self {
        let list = random.pick(&LISTS);
        match random.below(20) {
            0 => Self::Longer { list },
            1 => Self::Shorter { list },
            2 => Self::Emptied { list },
            3 => Self::Layers { count: random.pick(&[0, 1, 127, 128, 129, 255, 256, 257, 511, 512, 513, 1_024]) },
            4 | 5 => Self::Exchanged { list, at: some_index(length(list, tables) - 1, random) },
            _ => {
                let at = some_index(length(list, tables), random);
                match list {
                    List::Endpoints => Self::Endpoint { at, figure: endpoint(&tables.endpoints, at, most, random) },
                    List::Heights => Self::Height { at, figure: height(&tables.heights, at, random) },
                    List::Curve => Self::CurveValue { at, figure: curve_value(random) },
                }
            }
        }
    }

    /// Changes the lists. What another change took away stays away.
    fn apply(self, tables: &mut Tables) {
        let Tables { endpoints, heights, curve, .. } = tables;
        match self {
            Self::Endpoint { at, figure } => put(endpoints, at, figure),
            Self::Height { at, figure } => put(heights, at, figure),
            Self::CurveValue { at, figure } => put(curve, at, figure),
            Self::Exchanged { list: List::Endpoints, at } => exchange(endpoints, at),
            Self::Exchanged { list: List::Heights, at } => exchange(heights, at),
            Self::Exchanged { list: List::Curve, at } => exchange(curve, at),
            Self::Longer { list: List::Endpoints } => endpoints.extend(endpoints.last().copied()),
            Self::Longer { list: List::Heights } => heights.extend(heights.last().copied()),
            Self::Longer { list: List::Curve } => curve.extend(curve.last().copied()),
            Self::Shorter { list: List::Endpoints } => drop(endpoints.pop()),
            Self::Shorter { list: List::Heights } => drop(heights.pop()),
            Self::Shorter { list: List::Curve } => drop(curve.pop()),
            Self::Emptied { list: List::Endpoints } => endpoints.clear(),
            Self::Emptied { list: List::Heights } => heights.clear(),
            Self::Emptied { list: List::Curve } => curve.clear(),
            Self::Layers { count } => {
                resize(endpoints, count, |before| before);
                resize(heights, count, |before| before / 2.0);
            }
        }
    }
}

/// A request over changed lists, and the changes.
#[derive(Debug)]
pub struct Request {
    pub draw: Draw,
    pub tables: Tables,
    pub damages: Vec<Damage>,
}

/// A request over the lists of a layered Gaussian, some figures changed. It may be refused by another number too; in some
/// requests the sampler is a cumulative one, which does not look at the lists.
pub fn request(layered: &[Prepared], cumulative: &[Prepared], random: &mut Random) -> Request {
    let lent = &layered[random.below(layered.len() as u64) as usize];
    let count = random.pick(&[0, 1, 1, 1, 1, 1, 2, 2, 3]);
    let damages: Vec<Damage> = (0..count).map(|_| Damage::random(&lent.tables, lent.largest(), random)).collect();
    let mut tables = lent.tables.clone();
    for damage in &damages {
        damage.apply(&mut tables);
    }
    let mut prepared = lent;
    if random.below(16) == 0 {
        prepared = &cumulative[random.below(cumulative.len() as u64) as usize];
        tables.bounds.clone_from(&prepared.tables.bounds);
        tables.bounds.truncate(tables.bounds.len() - random.pick(&[0, 0, 1]));
    }
    Request { draw: draw(prepared, random), tables, damages }
}

/// Any call, with words that may be too few, or the place past them.
fn draw(prepared: &Prepared, random: &mut Random) -> Draw {
    let n = if random.below(64) == 0 { 65_537 } else { random.pick(&LENGTHS) };
    let modulus = if random.below(16) == 0 { 0 } else { prepared.modulus(random) };
    let call = match random.below(3) {
        0 => Call::Signed { n },
        1 => Call::Encoded { n, modulus },
        _ if n > 65_536 => Call::Crt { length: n, count: n, moduli: vec![modulus] },
        _ => prepared.crt_call(n, random),
    };
    let place = random.below(4) as usize;
    let enough = 12 * call.coefficients().min(65) + 64;
    let count = place + random.pick(&[0, 3, enough, enough, enough]);
    let place = if random.below(12) == 0 { random.pick(&[count + 1, usize::MAX]) } else { place };
    let words = WordList { count, seed: random.seed(), given: Vec::new() };
    Draw { distr: prepared.distr, call, words, place }
}

fn length(list: List, tables: &Tables) -> usize {
    match list {
        List::Endpoints => tables.endpoints.len(),
        List::Heights => tables.heights.len(),
        List::Curve => tables.curve.len(),
    }
}

/// The first index of so many, the last, one beside these, or any.
fn some_index(count: usize, random: &mut Random) -> usize {
    let any = random.below(count as u64) as usize;
    random.pick(&[0, 1, any, any, any, count - 2, count - 1])
}

/// An endpoint for an index: at and beside its neighbours, itself and both ends.
fn endpoint(endpoints: &[u64], at: usize, most: u64, random: &mut Random) -> u64 {
    let before = if at == 0 { 0 } else { endpoints[at - 1] };
    let after = endpoints.get(at + 1).copied().unwrap_or(most);
    let near = random.pick(&[before, endpoints[at], after, 0, most]);
    let any = random.below(most + 1);
    random.pick(&[near, near, near.wrapping_sub(1), near + 1, any, u64::MAX])
}

/// A height for an index: at and beside its neighbours, itself and both limits, or none that is finite.
fn height(heights: &[f64], at: usize, random: &mut Random) -> f64 {
    let before = if at == 0 { 1.0 } else { heights[at - 1] };
    let after = heights.get(at + 1).copied().unwrap_or(0.0);
    let near = random.pick(&[before, heights[at], -heights[at], after, 0.0, -0.0, 0.999, 1.0]);
    let wild = random.pick(&[f64::NAN, -f64::NAN, f64::INFINITY, f64::NEG_INFINITY, f64::MAX, f64::MIN]);
    random.pick(&[near, near, near.next_down(), near.next_up(), wild])
}

/// A curve value at and beside both limits, inside, or far from them.
fn curve_value(random: &mut Random) -> f64 {
    let near = random.pick(&[0.0, -0.0, 1.0, 0.5]);
    let wild = random.pick(&[f64::NAN, -f64::NAN, f64::INFINITY, f64::NEG_INFINITY, 2.0, -1.0]);
    random.pick(&[near, near.next_down(), near.next_up(), wild])
}

fn put<T>(list: &mut [T], at: usize, figure: T) {
    if let Some(old) = list.get_mut(at) {
        *old = figure;
    }
}

fn exchange<T>(list: &mut [T], at: usize) {
    if at + 1 < list.len() {
        list.swap(at, at + 1);
    }
}

/// Brings a list of at least two figures to one more than so many; the first and the last stay where they can.
fn resize<T: Copy>(list: &mut Vec<T>, count: usize, next: impl Fn(T) -> T) {
    if list.len() < 2 {
        return;
    }
    if count + 1 < list.len() {
        list.drain(1..list.len() - count);
    }
    while list.len() < count + 1 {
        let last = list.len() - 1;
        list.insert(last, next(list[last - 1]));
    }
}
