//! Asks: random ones, ones at the edge of another's answer, damaged ones.

use crate::ask::Ask;
use crate::cases::draft::Draft;
use crate::cases::lines::{too_long, Pieces, FORMS};
use crate::plan::Row;
use crate::random::Random;
use crate::refusal::{Refusal, ASK_SHAPE, ASK_VALUE, NO_ALLOWED_CHAIN, SOURCE_IS_DESTINATION};
use crate::route::Network;
use crate::router::{Best, Router};
use crate::units::{LARGEST_SIZE, LATEST_TIME, NODES};

/// The ask's line.
pub fn line(ask: &Ask) -> Vec<u8> {
    pieces(ask).bytes()
}

fn pieces(ask: &Ask) -> Pieces {
    Pieces::new("ask", &ask.numbers())
}

/// A good ask, most of them to a node that contacts lead to.
pub fn ask(random: &mut Random, draft: &Draft) -> Ask {
    let source = match some_contact(random, draft) {
        Some(contact) if random.percent(97) => contact[2],
        _ => random.between(1, NODES),
    };
    let mut destination = some_way_on(random, draft, source);
    while destination == source {
        destination = random.between(1, NODES);
    }
    Ask {
        source,
        destination,
        time: some_time(random, draft),
        size: some_size(random, draft),
        deadline: some_deadline(random, draft),
        excluded: some_exclusion(random, draft, source),
    }
}

/// The first of so many asks for which a chain is allowed, or the last.
pub fn likely(network: &Network, tries: usize, mut some_ask: impl FnMut() -> Ask) -> Ask {
    let is_allowed = |ask: &Ask| {
        let answer = ask.check().and_then(|good| network.best(&good));
        answer.err() != Some(Refusal::bare(NO_ALLOWED_CHAIN))
    };
    let tried = (1..tries).map(|_| some_ask()).find(is_allowed);
    tried.unwrap_or_else(some_ask)
}

fn some_contact(random: &mut Random, draft: &Draft) -> Option<Row> {
    (!draft.contacts.is_empty()).then(|| random.pick(&draft.contacts))
}

/// A node some contacts on from another, or any contact's.
fn some_way_on(random: &mut Random, draft: &Draft, source: u64) -> u64 {
    let mut node = source;
    let most = random.pick(&[1, 2, 4, 8, NODES, NODES]);
    for _ in 0..random.between(1, most) {
        let leaving = draft.contacts.iter().filter(|c| c[2] == node);
        let next: Vec<u64> = leaving.map(|c| c[3]).collect();
        if next.is_empty() {
            break;
        }
        node = random.pick(&next);
    }
    if node == source || random.percent(20) {
        node = some_contact(random, draft).map_or(node, |contact| contact[3]);
    }
    node
}

fn some_time(random: &mut Random, draft: &Draft) -> u64 {
    let contact = some_contact(random, draft).unwrap_or_default();
    let time = match random.below(24) {
        0..=14 => 0,
        15..=17 => (contact[0] + random.below(5)).saturating_sub(2),
        18 => contact[1].saturating_sub(random.below(12)),
        19..=21 => random.between(contact[0], contact[1]),
        22 => LATEST_TIME - random.below(3),
        _ => random.below(LATEST_TIME + 1),
    };
    time.min(LATEST_TIME)
}

fn some_size(random: &mut Random, draft: &Draft) -> u64 {
    let size = match random.below(24) {
        0..=11 => random.between(1, 12),
        12 | 13 => random.between(1, 3000),
        14..=18 => fitting_size(random, draft) / random.between(2, 40),
        19..=21 => fitting_size(random, draft),
        22 => random.pick(&[1, 33, 34, 67, 100, LARGEST_SIZE - 1, LARGEST_SIZE]),
        _ => random.between(1, LARGEST_SIZE),
    };
    size.clamp(1, LARGEST_SIZE)
}

/// A size that about fills a contact, or a part of it.
fn fitting_size(random: &mut Random, draft: &Draft) -> u64 {
    let [start, end, _, _, rate] = some_contact(random, draft).unwrap_or_default();
    let volume = (end - start) / random.between(1, 3) * rate / 1000;
    (volume / 103 * 100 + volume % 103 + random.below(5)).saturating_sub(random.below(6))
}

fn some_deadline(random: &mut Random, draft: &Draft) -> u64 {
    let contact = some_contact(random, draft).unwrap_or_default();
    let deadline = match random.below(12) {
        0..=6 => LATEST_TIME,
        7 | 8 => contact[1] + random.below(5),
        9 => contact[0] + random.below(20),
        10 => random.below(100_000),
        _ => random.pick(&[0, 1, LATEST_TIME - 1]),
    };
    deadline.min(LATEST_TIME)
}

/// An exclusion: none, some of the source's neighbours, or anything.
fn some_exclusion(random: &mut Random, draft: &Draft, source: u64) -> u64 {
    match random.below(20) {
        0..=10 => 0,
        11..=16 => some_neighbours(random, draft, source),
        17 => bit(source) | bit(random.between(1, NODES)),
        18 => random.word(),
        _ => random.pick(&[u64::MAX, u64::MAX - bit(source), 1, 1 << 63]),
    }
}

fn some_neighbours(random: &mut Random, draft: &Draft, source: u64) -> u64 {
    let leaving = draft.contacts.iter().filter(|c| c[2] == source);
    let all = leaving.fold(0, |bits, contact| bits | bit(contact[3]));
    all & random.word()
}

fn bit(node: u64) -> u64 {
    1 << (node - 1)
}

/// An ask that differs from an answered one in one value, which is at or just
/// past the edge that the answer says.
pub fn around(random: &mut Random, ask: &Ask, best: &Best, draft: &Draft) -> Ask {
    let mut next = *ask;
    let step = random.below(2);
    match random.below(6) {
        0 => next.deadline = best.figures.delivery + step,
        1 => next.time = best.figures.last_call + step,
        2 => next.size = best.figures.room + step,
        3 => next.excluded |= first_neighbour(best, draft),
        4 => next.time = best.figures.opens + step,
        _ => {
            next.deadline = best.figures.delivery + 1;
            next.excluded |= random.pick(&[0, first_neighbour(best, draft)]);
        }
    }
    next.size = next.size.min(LARGEST_SIZE);
    next.deadline = next.deadline.min(LATEST_TIME);
    next
}

/// The exclusion of the node that the best chain goes to first.
fn first_neighbour(best: &Best, draft: &Draft) -> u64 {
    let row = best.chain.first().and_then(|number| number.row());
    row.map_or(0, |row| bit(draft.contacts[row][3]))
}

/// The ask with one value at a limit, just past it or far from it, or with
/// its source as its destination.
pub fn at_limits(random: &mut Random, ask: &Ask) -> Ask {
    let mut ask = *ask;
    let node = random.pick(&[0, 1, NODES, NODES + 1, u64::MAX]);
    let time = random.pick(&[0, LATEST_TIME, LATEST_TIME + 1, u64::MAX]);
    match random.below(7) {
        0 => ask.source = node,
        1 => ask.destination = node,
        2 => ask.time = time,
        3 => ask.deadline = time,
        4 => ask.size = random.pick(&[0, 1, LARGEST_SIZE, LARGEST_SIZE + 1, u64::MAX]),
        5 => ask.excluded = random.pick(&[0, 1, u64::MAX]),
        _ => ask.destination = ask.source,
    }
    ask
}

/// The sets of faults that one ask line can carry, all with the one that is
/// found first in front.
pub const FAULTS: [&[u64]; 7] = [
    &[ASK_SHAPE],
    &[ASK_VALUE],
    &[SOURCE_IS_DESTINATION],
    &[ASK_SHAPE, ASK_VALUE],
    &[ASK_SHAPE, SOURCE_IS_DESTINATION],
    &[ASK_VALUE, SOURCE_IS_DESTINATION],
    &[ASK_SHAPE, ASK_VALUE, SOURCE_IS_DESTINATION],
];

/// The ask's line with these faults.
pub fn damaged(random: &mut Random, ask: &Ask, faults: &[u64]) -> Vec<u8> {
    let mut ask = *ask;
    let same_node = faults.contains(&SOURCE_IS_DESTINATION);
    if same_node {
        ask.destination = ask.source;
    }
    let mut line = pieces(&ask);
    if faults.contains(&ASK_VALUE) {
        break_value(random, &mut line, same_node);
    }
    if faults.contains(&ASK_SHAPE) {
        let form = random.below(FORMS);
        line.misshapen(random, form)
    } else {
        line.bytes()
    }
}

/// Puts a value out of its range, at one limit or far from it.
fn break_value(random: &mut Random, line: &mut Pieces, same_node: bool) {
    let far = random.word() | 1 << 40;
    let wrong = match random.below(8) {
        0 | 1 if same_node => {
            let node = random.pick(&[0, NODES + 1]).to_string();
            line.fields[1] = node.clone().into();
            (0, node.into())
        }
        0 | 1 => {
            let node = random.pick(&[0, NODES + 1, 128, far]);
            (random.index(2), node.to_string().into())
        }
        2 => (2, random.pick(&[LATEST_TIME + 1, far]).to_string().into()),
        3 => (
            3,
            random.pick(&[0, LARGEST_SIZE + 1, far]).to_string().into(),
        ),
        4 => (4, random.pick(&[LATEST_TIME + 1, far]).to_string().into()),
        5 => (5, too_long(random, 0)),
        _ => {
            let place = random.index(line.fields.len());
            (place, too_long(random, 1))
        }
    };
    line.fields[wrong.0] = wrong.1;
}
