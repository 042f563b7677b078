//! How a plan's nodes are chosen and its contacts are ranged.

use crate::cases::draft::{Draft, Kind};
use crate::plan::Row;
use crate::random::Random;
use crate::units::{LATEST_TIME, NODES};

/// So many different nodes: the lowest ones, or any.
pub fn some_nodes(random: &mut Random, count: usize) -> Vec<u64> {
    let mut nodes: Vec<u64> = (1..=NODES).collect();
    if random.percent(60) {
        nodes.truncate(count);
    }
    random.shuffle(&mut nodes);
    nodes.truncate(count);
    nodes
}

pub fn two_of(random: &mut Random, nodes: &[u64]) -> (u64, u64) {
    let from = random.index(nodes.len());
    let step = random.between(1, nodes.len() as u64 - 1) as usize;
    (nodes[from], nodes[(from + step) % nodes.len()])
}

/// Adds a range of the contact's pair over a span, cut off at the limits.
pub fn add_range(draft: &mut Draft, contact: &Row, start: u64, end: u64, light: u64) {
    let (a, b) = (contact[2].min(contact[3]), contact[2].max(contact[3]));
    draft.add(Kind::Range, [start, end.min(LATEST_TIME), a, b, light]);
}

/// Ranges a contact in one of the ways there are, some of which leave it
/// unranged: by nothing, or a millisecond short.
pub fn range_somehow(draft: &mut Draft, random: &mut Random, contact: &Row, longest_light: u64) {
    let [start, end, ..] = *contact;
    let light = random.between(0, longest_light);
    match random.below(16) {
        0..=3 => add_range(draft, contact, start, end, light),
        4..=6 => {
            let before = start.min(random.below(20));
            add_range(
                draft,
                contact,
                start - before,
                end + random.below(20),
                light,
            );
        }
        7 => add_range(draft, contact, start + 1, end, light),
        8 => add_range(draft, contact, start, end - 1, light),
        9..=13 => range_in_pieces(draft, random, contact, longest_light),
        14 => add_range(draft, contact, 0, LATEST_TIME, light),
        _ => {}
    }
}

/// Ranges a contact by pieces that touch one another, in any order in the
/// table: two or many, some of which may only touch the contact. At times a
/// millisecond is left out, or a whole piece.
pub fn range_in_pieces(draft: &mut Draft, random: &mut Random, contact: &Row, longest_light: u64) {
    let mut pieces = pieces_of(&some_cuts(random, contact));
    if random.percent(30) {
        leave_out(random, &mut pieces);
    }
    add_pieces(draft, random, contact, &pieces, longest_light);
}

/// Ranges a contact by pieces of one length, as a clock cuts them; those that
/// another contact of the pair has already stay as they are.
pub fn range_by_clock(
    draft: &mut Draft,
    random: &mut Random,
    contact: &Row,
    length: u64,
    longest_light: u64,
) {
    let ticks = contact[0] / length..=contact[1].div_ceil(length);
    let cuts: Vec<u64> = ticks.map(|tick| tick * length).collect();
    add_pieces(draft, random, contact, &pieces_of(&cuts), longest_light);
}

/// The moments at which a contact's ranges are cut, rising: from its start or
/// a little before to its end or a little behind.
fn some_cuts(random: &mut Random, &[start, end, ..]: &Row) -> Vec<u64> {
    let first = start.saturating_sub(random.pick(&[0, 0, 1, 7]));
    let last = end + random.pick(&[0, 0, 1, 7]);
    let mut cuts = vec![first, last];
    for _ in 0..random.pick(&[1, 1, 1, 2, 2, 3, 6]) {
        let inside = random.between(start, end);
        let at_edge = random.pick(&[start, start + 1, end - 1, end]);
        cuts.push(random.pick(&[inside, inside, inside, at_edge]));
    }
    cuts.sort();
    cuts.dedup();
    cuts
}

/// The spans between one cut and the next.
fn pieces_of(cuts: &[u64]) -> Vec<(u64, u64)> {
    cuts.windows(2).map(|cut| (cut[0], cut[1])).collect()
}

/// Leaves out the first or the last millisecond of a piece, or all of it.
fn leave_out(random: &mut Random, pieces: &mut Vec<(u64, u64)>) {
    let place = random.index(pieces.len());
    match random.below(5) {
        0 | 1 => pieces[place].0 += 1,
        2 | 3 => pieces[place].1 -= 1,
        _ => {
            pieces.remove(place);
        }
    }
}

/// Adds these ranges of a contact's pair in any order.
fn add_pieces(
    draft: &mut Draft,
    random: &mut Random,
    contact: &Row,
    pieces: &[(u64, u64)],
    longest_light: u64,
) {
    let lights = some_lights(random, pieces.len(), longest_light);
    let mut pieces: Vec<((u64, u64), u64)> = pieces.iter().copied().zip(lights).collect();
    if random.percent(70) {
        random.shuffle(&mut pieces);
    }
    for ((start, end), light) in pieces {
        add_range(draft, contact, start, end, light);
    }
}

/// So many light times in the order of time: any, all the same, rising or
/// falling, or with the largest at one place or at both ends; many are 0.
fn some_lights(random: &mut Random, count: usize, longest: u64) -> Vec<u64> {
    let mut lights: Vec<u64> = (0..count)
        .map(|_| random.between(0, longest) * random.pick(&[0, 1, 1, 1]))
        .collect();
    match random.below(6) {
        0 => lights.fill(random.between(0, longest)),
        1 => lights.sort(),
        2 => {
            lights.sort();
            lights.reverse();
        }
        3 if count > 0 => lights[random.index(count)] = longest,
        4 if count > 0 => {
            lights[0] = longest;
            lights[count - 1] = longest;
        }
        _ => {}
    }
    lights
}

/// Ranges every contact somehow, in random order.
pub fn range_all_somehow(draft: &mut Draft, random: &mut Random, longest_light: u64) {
    let mut contacts = draft.contacts.clone();
    random.shuffle(&mut contacts);
    for contact in &contacts {
        range_somehow(draft, random, contact, longest_light);
    }
}

/// Ranges every pair of a contact for all time, with light times up to a limit;
/// at times the range is cut once within a contact.
pub fn range_all_wide(draft: &mut Draft, random: &mut Random, longest_light: u64) {
    for contact in draft.contacts.clone() {
        let cuts = if random.percent(30) {
            vec![0, random.between(contact[0] + 1, contact[1]), LATEST_TIME]
        } else {
            vec![0, LATEST_TIME]
        };
        add_pieces(draft, random, &contact, &pieces_of(&cuts), longest_light);
    }
}
