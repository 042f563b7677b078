//! Tables in which rows of two pairs of nodes stand in one slot of the proved
//! validity test, and rows of one pair overlap, or just do not. What a slot is
//! is the proved code's own affair: it is known here only to aim at, and no
//! answer depends on it.

use crate::cases::draft::{Draft, Kind};
use crate::cases::tables::Tables;
use crate::plan::Row;
use crate::random::Random;
use crate::units::{NODES, ROWS};

/// Up to this node each pair has a slot of its own.
const LAST_ALONE: u64 = 21;

fn slot((one, other): (u64, u64)) -> u64 {
    ((one - 1) * 24 + (other - 1)) % 512
}

/// A table of one kind in which two rows of a pair touch, or overlap by a
/// millisecond or more, with rows of a pair of the same slot before, between
/// and behind them; among as many other rows as there may be, or none.
pub fn tables(random: &mut Random) -> Tables {
    let kind = random.pick(&[Kind::Contact, Kind::Range]);
    let mut draft = Draft::default();
    if random.percent(50) {
        let others = random.between(1, ROWS as u64 - 8);
        draft.fill(random, kind, others as usize);
    }
    let rows = rows_of_one_slot(random, kind);
    let is_other = |row: &Row| {
        rows.iter()
            .all(|some| (some[2], some[3]) != (row[2], row[3]))
    };
    let mut all: Vec<Row> = draft.rows(kind).to_vec();
    all.retain(is_other);
    for row in rows {
        let first = all.len().saturating_sub(random.index(4));
        all.insert(first, row);
    }
    if random.percent(30) {
        random.shuffle(&mut all);
    }
    of_rows(kind, &all)
}

/// Rows of two pairs in turn: those of the first one after the other in time,
/// but for two of them, and those of the second at any time.
fn rows_of_one_slot(random: &mut Random, kind: Kind) -> Vec<Row> {
    let (pair, other) = two_pairs(random, kind);
    let last = kind.last_limits().1;
    let mut rows = Vec::new();
    let (mut start, mut other_start) = (random.below(50), random.below(50));
    let wrong = random.below(4);
    for place in 0..4 {
        let end = start + random.between(5, 30);
        rows.push([start, end, pair.0, pair.1, last]);
        let other_end = other_start + random.between(1, 60);
        rows.push([other_start, other_end, other.0, other.1, last]);
        let overlap = random.pick(&[0, 1, 1, 5]);
        start = end - if place == wrong { overlap } else { 0 };
        other_start = other_end;
    }
    rows
}

/// Two pairs of one slot, at least one of them with a node that shares.
fn two_pairs(random: &mut Random, kind: Kind) -> ((u64, u64), (u64, u64)) {
    let is_good = |&(one, other): &(u64, u64)| match kind {
        Kind::Contact => one != other,
        Kind::Range => one < other,
    };
    let all = (1..=NODES).flat_map(|one| (1..=NODES).map(move |other| (one, other)));
    let all: Vec<(u64, u64)> = all.filter(is_good).collect();
    loop {
        let pair = random.pick(&all);
        let shares = |&some: &(u64, u64)| some != pair && slot(some) == slot(pair);
        let sharing: Vec<(u64, u64)> = all.iter().copied().filter(shares).collect();
        if pair.0.max(pair.1) > LAST_ALONE && !sharing.is_empty() {
            return (pair, random.pick(&sharing));
        }
    }
}

/// The rows as one of the two lent tables; the other is empty.
fn of_rows(kind: Kind, rows: &[Row]) -> Tables {
    let (words, count) = (rows.concat(), rows.len() as u64);
    let (none, no_words) = (0, Vec::new());
    match kind {
        Kind::Contact => Tables {
            contacts: words,
            contact_count: count,
            ranges: no_words,
            range_count: none,
        },
        Kind::Range => Tables {
            contacts: no_words,
            contact_count: none,
            ranges: words,
            range_count: count,
        },
    }
}

#[cfg(test)]
mod tests {
    use super::tables;
    use crate::plan::Plan;
    use crate::random::Random;

    #[test]
    fn most_are_no_plan_and_some_are() {
        let is_plan = |case: u64| {
            let some = tables(&mut Random::new(case));
            let (m, n) = (some.contact_count, some.range_count);
            Plan::of_tables(&some.contacts, m, &some.ranges, n).is_ok()
        };
        let plans = (0..400).filter(|&case| is_plan(case)).count();
        assert!((60..300).contains(&plans), "{plans} of 400");
    }
}
