//! Families of plans small enough to try all chains: at most 12 contacts.

use crate::cases::draft::{Draft, Kind};
use crate::cases::ranging::{
    add_range, range_all_somehow, range_all_wide, range_by_clock, range_in_pieces, range_somehow,
    some_nodes, two_of,
};
use crate::random::Random;
use crate::units::{HIGHEST_RATE, LATEST_TIME, LONGEST_LIGHT};

/// A few contacts between a few nodes, on a coarse grid of times.
pub fn tangle(random: &mut Random) -> Draft {
    let count = random.between(2, 5) as usize;
    let nodes = some_nodes(random, count);
    let grain = random.pick(&[2, 5, 10, 20]);
    let mut draft = Draft::default();
    for _ in 0..random.between(1, 12) {
        let (from, to) = two_of(random, &nodes);
        let start = random.below(8) * grain;
        let end = start + random.between(1, 8) * grain;
        let rate = random.pick(&[500, 1000, 1000, 2000, 1_000_000]);
        draft.add(Kind::Contact, [start, end, from, to, rate]);
    }
    range_all_somehow(&mut draft, random, 3);
    draft
}

/// A hub with contacts out and back in, and a way on from one neighbour:
/// where that neighbour is excluded, a loop through the hub must not help.
pub fn loops(random: &mut Random) -> Draft {
    let nodes = some_nodes(random, 5);
    let [hub, near, gate, other, far] = [0, 1, 2, 3, 4].map(|place| nodes[place]);
    let mut draft = Draft::default();
    let ways = [
        (hub, near, 0),
        (near, hub, 10),
        (hub, gate, 10),
        (gate, far, 20),
        (hub, other, 20),
        (other, far, 40),
        (other, hub, 5),
        (far, hub, 30),
    ];
    for (from, to, spread) in ways {
        let start = random.between(0, spread);
        let end = start + random.pick(&[20, 60, 120]);
        if random.percent(85) {
            draft.add(Kind::Contact, [start, end, from, to, 1000]);
        }
    }
    for _ in 0..random.between(0, 3) {
        let (from, to) = two_of(random, &nodes);
        let start = random.below(60);
        draft.add(Kind::Contact, [start, start + 60, from, to, 1000]);
    }
    draft.renumber(random);
    if random.percent(80) {
        range_all_wide(&mut draft, random, 1);
    } else {
        range_all_somehow(&mut draft, random, 1);
    }
    draft
}

/// A way of short steps and later shortcuts past them, then passes that all
/// open at one late time: ways of different lengths wait for these and deliver
/// together (case H).
pub fn waits(random: &mut Random) -> Draft {
    let nodes = some_nodes(random, 6);
    let mut draft = Draft::default();
    for from in 0..4 {
        for to in from + 1..4 {
            let start = (to - from - 1) as u64 * random.pick(&[0, 8, 15]);
            if random.percent(85) {
                draft.add(
                    Kind::Contact,
                    [start, start + 40, nodes[from], nodes[to], 1000],
                );
            }
        }
    }
    for from in 1..4 {
        if random.percent(60) {
            draft.add(Kind::Contact, [80, 120, nodes[from], nodes[4], 1000]);
        }
    }
    draft.add(Kind::Contact, [90, 150, nodes[4], nodes[5], 2000]);
    draft.renumber(random);
    range_all_wide(&mut draft, random, 0);
    draft
}

/// Passes of few pairs, one after the other, most of them touching, under
/// ranges that touch too.
pub fn touching(random: &mut Random) -> Draft {
    let count = random.between(2, 4) as usize;
    let nodes = some_nodes(random, count);
    let mut draft = Draft::default();
    for _ in 0..random.between(1, 3) {
        let (from, to) = two_of(random, &nodes);
        let mut time = random.below(5);
        for _ in 0..random.between(2, 4) {
            let end = time + random.between(2, 15);
            let rate = random.pick(&[500, 1000, 2000]);
            draft.add(Kind::Contact, [time, end, from, to, rate]);
            time = end
                + if random.percent(75) {
                    0
                } else {
                    random.below(5)
                };
        }
    }
    draft.renumber(random);
    for contact in draft.contacts.clone() {
        let light = random.pick(&[0, 0, 1, 20]);
        if random.percent(70) {
            add_range(&mut draft, &contact, contact[0], contact[1], light);
        } else {
            range_somehow(&mut draft, random, &contact, 20);
        }
    }
    draft
}

/// One chain of three contacts beside a slower one; ranges cover exactly, or
/// are a millisecond short at one end or between two of them.
pub fn short_ranges(random: &mut Random) -> Draft {
    let nodes = some_nodes(random, 4);
    let mut draft = Draft::default();
    for pair in nodes.windows(2) {
        let start = random.below(10);
        draft.add(Kind::Contact, [start, start + 40, pair[0], pair[1], 1000]);
    }
    draft.add(Kind::Contact, [5, 90, nodes[0], nodes[3], 100]);
    draft.add(Kind::Contact, [5, 60, nodes[0], nodes[2], 500]);
    for contact in draft.contacts.clone() {
        let [start, end, ..] = contact;
        let (light, other) = (random.below(4), random.below(4));
        let middle = random.between(start + 1, end - 2);
        match random.below(8) {
            0 => add_range(&mut draft, &contact, start + 1, end + 9, light),
            1 => add_range(&mut draft, &contact, 0, end - 1, light),
            2 => add_range(&mut draft, &contact, start, end, light),
            turn @ 3..=5 => {
                let gap = u64::from(turn == 3);
                add_range(&mut draft, &contact, middle + gap, end, light);
                add_range(&mut draft, &contact, 0, middle, other);
            }
            _ => add_range(
                &mut draft,
                &contact,
                start.saturating_sub(1),
                end + 1,
                light,
            ),
        }
    }
    draft
}

/// Passes of a few pairs under ranges that were cut: each pass in its own way,
/// or all of them by a clock.
pub fn cut_ranges(random: &mut Random) -> Draft {
    let count = random.between(2, 4) as usize;
    let nodes = some_nodes(random, count);
    let mut draft = Draft::default();
    for _ in 0..random.between(2, 8) {
        let (from, to) = two_of(random, &nodes);
        let start = random.below(40);
        let end = start + random.pick(&[1, 2, 8, 20, 40, 60]);
        let rate = random.pick(&[500, 1000, 2000, 1_000_000]);
        draft.add(Kind::Contact, [start, end, from, to, rate]);
    }
    let longest_light = random.pick(&[0, 3, 3, 20]);
    let by_clock = random.percent(40);
    let length = random.pick(&[1, 5, 10, 25]);
    for contact in draft.contacts.clone() {
        if by_clock && random.percent(85) {
            range_by_clock(&mut draft, random, &contact, length, longest_light);
        } else {
            range_in_pieces(&mut draft, random, &contact, longest_light);
        }
    }
    draft
}

/// Equal ways over two stages of nodes, in any numbering (case I).
pub fn small_ties(random: &mut Random) -> Draft {
    let nodes = some_nodes(random, 6);
    let mut draft = Draft::default();
    let first = &nodes[1..3];
    let second = &nodes[3..5];
    for &middle in first {
        draft.add(Kind::Contact, [0, 1000, nodes[0], middle, 1000]);
        for &later in second {
            draft.add(Kind::Contact, [0, 1000, middle, later, 1000]);
        }
    }
    for &later in second {
        draft.add(Kind::Contact, [0, 1000, later, nodes[5], 1000]);
    }
    draft.renumber(random);
    range_all_wide(&mut draft, random, 0);
    draft
}

/// Values at every limit.
pub fn limits(random: &mut Random) -> Draft {
    let nodes = random.pick(&[[1, 64, 2, 63], [1, 2, 3, 4], [64, 63, 62, 61]]);
    let mut draft = Draft::default();
    for _ in 0..random.between(2, 8) {
        let (from, to) = two_of(random, &nodes);
        let (start, end) = limit_span(random);
        let rate = random.pick(&[1, 2, 1000, HIGHEST_RATE - 1, HIGHEST_RATE]);
        draft.add(Kind::Contact, [start, end, from, to, rate]);
    }
    for contact in draft.contacts.clone() {
        let light = random.pick(&[0, 1, LONGEST_LIGHT - 1, LONGEST_LIGHT]);
        match random.below(4) {
            0 | 1 => add_range(&mut draft, &contact, contact[0], contact[1], light),
            2 => add_range(&mut draft, &contact, 0, LATEST_TIME, light),
            _ => range_in_pieces(&mut draft, random, &contact, LONGEST_LIGHT),
        }
    }
    draft
}

/// A span at the lower limit, at the upper one, at both, or a short one.
fn limit_span(random: &mut Random) -> (u64, u64) {
    match random.below(6) {
        0 => (0, LATEST_TIME),
        1 => (0, random.pick(&[1, 2, 1000])),
        2 => (
            LATEST_TIME - random.pick(&[1, 2, 1000, 90_000_000]),
            LATEST_TIME,
        ),
        3 => (random.below(3), LATEST_TIME - random.below(3)),
        4 => (4_000_000_000, 4_294_967_296),
        _ => {
            let start = random.below(LATEST_TIME);
            (start, start + random.between(1, LATEST_TIME - start))
        }
    }
}
