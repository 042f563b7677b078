//! Families of large plans.

use crate::cases::draft::{Draft, Kind};
use crate::cases::ranging::{
    add_range, range_all_somehow, range_all_wide, range_by_clock, some_nodes, two_of,
};
use crate::random::Random;
use crate::units::{HIGHEST_RATE, LATEST_TIME, LONGEST_LIGHT, NODES, ROWS};

/// As many contacts and ranges as there may be, between all nodes.
pub fn crowd(random: &mut Random) -> Draft {
    let mut draft = Draft::default();
    let nodes: Vec<u64> = (1..=random.pick(&[NODES, NODES, 30, 12])).collect();
    let grain = random.pick(&[1, 1000, 60_000, 600_000]);
    let spans = 36_000_000 / grain;
    while draft.contacts.len() < ROWS {
        let (from, to) = two_of(random, &nodes);
        let start = random.below(spans) * grain;
        let end = start + random.between(1, 1 + spans / 5) * grain;
        let rate = random.pick(&[1000, 1000, 2000, 64_000, 1_000_000]);
        draft.add(Kind::Contact, [start, end, from, to, rate]);
    }
    let light = random.pick(&[0, 1, 1300, 1_000_000]);
    range_all_somehow(&mut draft, random, light);
    draft.fill(random, Kind::Range, ROWS);
    draft
}

/// A line through all nodes, 63 contacts, with a few ways past some of them.
pub fn line(random: &mut Random) -> Draft {
    let nodes = some_nodes(random, NODES as usize);
    let mut draft = Draft::default();
    let staged = random.percent(50);
    let length = random.pick(&[300, 700, 10_000]);
    for (stage, pair) in nodes.windows(2).enumerate() {
        let start = if staged { stage as u64 * 10 } else { 0 };
        draft.add(
            Kind::Contact,
            [start, start + length, pair[0], pair[1], 1000],
        );
    }
    if random.percent(50) {
        for _ in 0..random.between(1, 60) {
            let (from, to) = two_of(random, &nodes);
            draft.add(Kind::Contact, [random.below(700), 20_000, from, to, 1000]);
        }
    }
    if random.percent(70) {
        draft.renumber(random);
    }
    let light = random.below(2);
    range_all_wide(&mut draft, random, light);
    draft
}

/// A ring, passed in both directions.
pub fn ring(random: &mut Random) -> Draft {
    let count = random.between(3, NODES) as usize;
    let nodes = some_nodes(random, count);
    let mut draft = Draft::default();
    for place in 0..count {
        let (one, next) = (nodes[place], nodes[(place + 1) % count]);
        let start = if random.percent(80) {
            0
        } else {
            random.below(200)
        };
        draft.add(Kind::Contact, [start, 5000, one, next, 1000]);
        draft.add(Kind::Contact, [0, 5000, next, one, 1000]);
    }
    draft.renumber(random);
    range_all_wide(&mut draft, random, 0);
    draft
}

/// All contacts between two nodes, there and back, most of them touching.
pub fn two_nodes(random: &mut Random) -> Draft {
    let nodes = some_nodes(random, 2);
    let mut draft = Draft::default();
    let mut times = [0, 0];
    while draft.contacts.len() < ROWS {
        let way = random.index(2);
        let start = times[way]
            + if random.percent(80) {
                0
            } else {
                random.below(30)
            };
        times[way] = start + random.between(1, 60);
        let rate = random.pick(&[500, 1000, 2000]);
        draft.add(
            Kind::Contact,
            [start, times[way], nodes[way], nodes[1 - way], rate],
        );
    }
    draft.renumber(random);
    let mut start = 0;
    while draft.ranges.len() < ROWS {
        let end = start + random.between(20, 90);
        let light = random.below(40);
        let pair = draft.contacts[0];
        add_range(&mut draft, &pair, start, end, light);
        start = end
            + if random.percent(80) {
                0
            } else {
                random.below(9)
            };
    }
    draft
}

/// A square of nodes with equal contacts to the right and down, and some
/// back: very many best chains but for their numbers.
pub fn grid(random: &mut Random) -> Draft {
    let side = random.between(2, 8) as usize;
    let nodes = some_nodes(random, side * side);
    let mut draft = Draft::default();
    let back = random.percent(40);
    for row in 0..side {
        for column in 0..side {
            let here = nodes[row * side + column];
            let right = (column + 1 < side).then(|| nodes[row * side + column + 1]);
            let down = (row + 1 < side).then(|| nodes[(row + 1) * side + column]);
            for there in [right, down].into_iter().flatten() {
                draft.add(Kind::Contact, [0, 1000, here, there, 1000]);
                if back {
                    draft.add(Kind::Contact, [0, 1000, there, here, 1000]);
                }
            }
        }
    }
    draft.renumber(random);
    range_all_wide(&mut draft, random, 0);
    draft
}

/// Stages of a few nodes each, every one linked to all of the next stage,
/// some over two passes that touch; late stages wait for one time.
pub fn stages(random: &mut Random) -> Draft {
    let width = random.between(2, 5) as usize;
    let nodes = some_nodes(random, NODES as usize);
    let stages: Vec<&[u64]> = nodes.chunks(width).collect();
    let mut draft = Draft::default();
    for (stage, pair) in stages.windows(2).enumerate() {
        let start = if random.percent(20) {
            stage as u64 * 50
        } else {
            0
        };
        for &from in pair[0] {
            for &to in pair[1] {
                let end = start + random.pick(&[100, 2000, 2000]);
                draft.add(Kind::Contact, [start, end, from, to, 1000]);
                if random.percent(20) {
                    draft.add(Kind::Contact, [end, end + 500, from, to, 2000]);
                }
            }
        }
    }
    draft.renumber(random);
    let light = random.below(2);
    range_all_wide(&mut draft, random, light);
    draft
}

/// A day of passes of orbiters over ground stations and landers, with light
/// times that change by the hour.
pub fn day(random: &mut Random) -> Draft {
    const HOUR: u64 = 3_600_000;
    let nodes = some_nodes(random, 12);
    let (fixed, orbiters) = nodes.split_at(7);
    let mut draft = Draft::default();
    for &orbiter in orbiters {
        let period = random.between(80, 130) * 60_000;
        for &place in fixed {
            let mut start = random.below(period);
            while start + period < 24 * HOUR {
                let end = start + random.between(5, 40) * 60_000;
                let rate = random.pick(&[4000, 16_000, 125_000]);
                draft.add(Kind::Contact, [start, end, orbiter, place, rate]);
                draft.add(Kind::Contact, [start, end, place, orbiter, rate / 4]);
                start += period;
            }
        }
    }
    draft.renumber(random);
    let hours = random.pick(&[1, 3, 24]);
    for contact in draft.contacts.clone() {
        range_by_clock(&mut draft, random, &contact, hours * HOUR, 1350);
    }
    draft
}

/// Long passes there and back between a few nodes, under ranges that are cut
/// every ten minutes as long as there is room for them.
pub fn ten_minutes(random: &mut Random) -> Draft {
    const MINUTE: u64 = 60_000;
    let nodes = some_nodes(random, 6);
    let mut draft = Draft::default();
    for _ in 0..random.between(20, 60) {
        let (from, to) = two_of(random, &nodes);
        let start = random.below(24 * 60) * MINUTE;
        let end = start + random.between(5, 200) * MINUTE;
        let rate = random.pick(&[1000, 4000, 64_000]);
        draft.add(Kind::Contact, [start, end, from, to, rate]);
        draft.add(Kind::Contact, [start, end, to, from, rate / 4]);
    }
    draft.renumber(random);
    for contact in draft.contacts.clone() {
        range_by_clock(&mut draft, random, &contact, 10 * MINUTE, 90_000);
    }
    random.shuffle(&mut draft.ranges);
    draft
}

/// As many rows as there may be, with the longest values there are: the
/// longest text.
pub fn full_limits(random: &mut Random) -> Draft {
    let mut draft = Draft::default();
    for _ in 0..10 * ROWS {
        let (from, to) = (random.between(10, NODES), random.between(10, NODES));
        let start = 8_000_000_000 + random.below(500_000_000);
        let end = random.between(start + 1, LATEST_TIME);
        let rate = random.pick(&[HIGHEST_RATE, HIGHEST_RATE - 1, HIGHEST_RATE / 2]);
        draft.add(Kind::Contact, [start, end, from, to, rate]);
        let light = LONGEST_LIGHT - random.below(1000);
        let (a, b) = (from.min(to), from.max(to));
        draft.add(Kind::Range, [8_000_000_000, LATEST_TIME, a, b, light]);
    }
    draft
}
