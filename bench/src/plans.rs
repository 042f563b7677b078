//! The plans that are measured on: the same rows in every run.

use second::plan::Row;
use second::random::Random;
use second::units::{LATEST_TIME, NODES, ROWS};

const MINUTE: u64 = 60_000;
const HOUR: u64 = 60 * MINUTE;

/// A plan's rows.
#[derive(Clone, Debug, Default, PartialEq, Eq)]
pub struct Rows {
    pub contacts: Vec<Row>,
    pub ranges: Vec<Row>,
}

impl Rows {
    /// The rows of both tables by start.
    fn in_time_order(mut self) -> Self {
        self.contacts.sort();
        self.ranges.sort();
        self
    }

    /// When the last contact ends.
    pub fn end(&self) -> u64 {
        let ends = self.contacts.iter().map(|contact| contact[1]);
        ends.max().unwrap_or(0)
    }
}

/// The nodes of the full plan.
pub const FULL_NODES: u64 = 20;
/// The nodes of the full plan in which pairs of nodes share slots.
pub const SPREAD_NODES: u64 = 32;

/// The full plan: for each pair two or three ranges.
pub fn full() -> Rows {
    full_among(FULL_NODES)
}

/// As many contacts as there may be, among so many nodes, some minutes to an
/// hour long, and as many ranges: for each pair some, which touch and together
/// cover all of the time.
pub fn full_among(nodes: u64) -> Rows {
    let random = &mut Random::new(FULL_SEED);
    let nodes = 1..=nodes;
    let pairs: Vec<[u64; 2]> = nodes
        .clone()
        .flat_map(|from| nodes.clone().map(move |to| [from, to]))
        .filter(|[from, to]| from != to)
        .collect();
    let mut next: Vec<u64> = pairs.iter().map(|_| random.between(0, 3_000_000)).collect();
    let mut rows = Rows::default();
    while rows.contacts.len() < ROWS {
        let pair = random.index(pairs.len());
        let [from, to] = pairs[pair];
        let start = next[pair];
        let end = start + random.between(MINUTE, HOUR);
        let rate = random.pick(&[1000, 2000, 10_000, 50_000]);
        rows.contacts.push([start, end, from, to, rate]);
        next[pair] = end + random.between(0, 4_000_000);
    }
    let span = rows.end() + 1000;
    let rising: Vec<_> = pairs.into_iter().filter(|[a, b]| a < b).collect();
    for (place, [a, b]) in rising.iter().enumerate() {
        let more = usize::from(place < ROWS % rising.len());
        let pieces = (ROWS / rising.len() + more) as u64;
        let length = span / pieces + 1;
        for piece in 0..pieces {
            let light = random.between(1, 2000);
            let start = piece * length;
            rows.ranges.push([start, start + length, *a, *b, light]);
        }
    }
    rows.in_time_order()
}

/// The seed of the full plan.
const FULL_SEED: u64 = 7;

/// The full plan with the rows of both tables in any order.
pub fn shuffled() -> Rows {
    let random = &mut Random::new(FULL_SEED + 1);
    let mut rows = full();
    random.shuffle(&mut rows.contacts);
    random.shuffle(&mut rows.ranges);
    rows
}

/// The first so many contacts of the full plan with as many ranges: those
/// that share time with one of the contacts, and others of the full plan.
pub fn first(count: usize) -> Rows {
    let Rows {
        mut contacts,
        ranges,
    } = full();
    contacts.truncate(count);
    let serves = |range: &Row| {
        let pair = |contact: &Row| [contact[2].min(contact[3]), contact[2].max(contact[3])];
        let mut contacts = contacts.iter();
        contacts.any(|c| range[2..4] == pair(c) && range[0] < c[1] && c[0] < range[1])
    };
    let (mut ranges, others): (Vec<Row>, Vec<Row>) = ranges.into_iter().partition(serves);
    ranges.extend(others);
    ranges.truncate(count);
    Rows { contacts, ranges }.in_time_order()
}

/// The nodes of the lunar plan.
pub const STATIONS: [u64; 5] = [1, 2, 3, 4, 5];
pub const RELAYS: [u64; 3] = [6, 7, 8];
pub const ORBITERS: [u64; 6] = [9, 10, 11, 12, 13, 14];
pub const LANDERS: [u64; 6] = [15, 16, 17, 18, 19, 20];

/// The day of the lunar plan.
pub const DAY: u64 = 24 * HOUR;

/// A day of passes at the moon: stations on earth see each relay once,
/// orbiters come round every two hours and pass landers every six. A pass has
/// one range until the afternoon, and later ranges are cut at each hour.
pub fn lunar() -> Rows {
    let mut lunar = Lunar {
        rows: Rows::default(),
        random: Random::new(LUNAR_SEED),
    };
    for (s, station) in (0..).zip(STATIONS) {
        for (r, relay) in (0..).zip(RELAYS) {
            let start = s * 5 * HOUR + r * 175 * MINUTE;
            lunar.passes([station, relay], start % DAY, DAY, 170 * MINUTE);
        }
    }
    for (o, orbiter) in (0..).zip(ORBITERS) {
        for relay in [RELAYS[o as usize % 3], RELAYS[(o as usize + 1) % 3]] {
            let period = (112 + 3 * o) * MINUTE;
            let start = lunar.random.below(period);
            lunar.passes([relay, orbiter], start, period, 48 * MINUTE);
        }
    }
    for (l, lander) in (0..).zip(LANDERS) {
        for orbiter in [ORBITERS[l], ORBITERS[(l + 1) % 6]] {
            let start = lunar.random.below(6 * HOUR);
            lunar.passes([orbiter, lander], start, 6 * HOUR, 9 * MINUTE);
        }
        let start = lunar.random.below(8 * HOUR);
        lunar.passes([RELAYS[l % 3], lander], start, 8 * HOUR, 80 * MINUTE);
    }
    lunar.rows.in_time_order()
}

const LUNAR_SEED: u64 = 3;

struct Lunar {
    rows: Rows,
    random: Random,
}

impl Lunar {
    /// The passes of two nodes through the day, both ways, with their ranges.
    fn passes(&mut self, pair: [u64; 2], first: u64, period: u64, length: u64) {
        let [a, b] = pair;
        let to_earth = STATIONS.contains(&a);
        let mut start = first;
        while start < DAY {
            let end = start + length;
            let rate = self.random.pick(&[4000, 16_000, 125_000]);
            self.rows.contacts.push([start, end, b, a, rate]);
            self.rows.contacts.push([start, end, a, b, rate / 4]);
            for [start, end] in pieces(start, end) {
                let light = match to_earth {
                    true => self.random.between(1255, 1350),
                    false => self.random.between(2, 250),
                };
                self.rows.ranges.push([start, end, a, b, light]);
            }
            start += period;
        }
    }
}

/// The pieces of a pass for which light times are told apart.
fn pieces(start: u64, end: u64) -> Vec<[u64; 2]> {
    if end <= 16 * HOUR {
        return vec![[start, end]];
    }
    let hours = start / HOUR..end.div_ceil(HOUR);
    let piece = |hour| [start.max(hour * HOUR), end.min((hour + 1) * HOUR)];
    hours.map(piece).collect()
}

/// A line through all nodes, each contact of which is open all the time.
pub fn line() -> Rows {
    let mut rows = Rows::default();
    for node in 1..NODES {
        let (start, end) = (0, 1_000_000);
        rows.contacts.push([start, end, node, node + 1, 1000]);
        rows.ranges.push([start, end, node, node + 1, 100]);
    }
    rows
}

/// The size of the file for which the jumps of [`layers`] are slow.
pub const JUMP_SIZE: u64 = 1_000_000;

/// A line through all nodes with as many jumps past some of them as there may
/// be. A jump takes longer than the steps it leaves out, so that one contact
/// more always brings the file earlier, up to the 63 of the line.
pub fn layers() -> Rows {
    let mut rows = Rows::default();
    let jumps = (1..NODES).flat_map(|length| (1..=NODES - length).map(move |from| (length, from)));
    for (length, from) in jumps.take(ROWS) {
        let time = 1000 * length + 100 * (length - 1);
        let rate = second::timing::consumption(JUMP_SIZE) * 1000 / time;
        rows.contacts
            .push([0, LATEST_TIME, from, from + length, rate]);
        rows.ranges.push([0, LATEST_TIME, from, from + length, 1]);
    }
    rows
}

/// When one of the contacts of [`two_nodes`] is followed by the next.
const TURN: u64 = MINUTE;

/// As many contacts as there may be between two nodes, to and fro, and as many
/// ranges. Those to are in one range each, those fro in two.
pub fn two_nodes() -> Rows {
    let mut rows = Rows::default();
    for turn in 0..ROWS as u64 {
        let contact = match turn % 2 {
            0 => [turn * TURN + 5000, turn * TURN + 55_000, 1, 2, 10_000],
            _ => [turn * TURN - 20_000, turn * TURN + 30_000, 2, 1, 10_000],
        };
        rows.contacts.push(contact);
        let light = 1000 + turn;
        rows.ranges
            .push([turn * TURN, (turn + 1) * TURN, 1, 2, light]);
    }
    rows
}

/// How many of [`two_nodes`]'s ranges [`gaps`] keeps whole: one of so many.
const WHOLE: u64 = 16;

/// The plan of [`two_nodes`] with all ranges but some cut short, so that seven
/// contacts of eight have a gap in their ranges.
pub fn gaps() -> Rows {
    let mut rows = two_nodes();
    for (turn, range) in (0..).zip(&mut rows.ranges) {
        if turn % WHOLE != 0 {
            range[1] = turn * TURN + 54_999;
        }
    }
    rows
}
