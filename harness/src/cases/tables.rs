//! Lent tables: most hold the plan, others are damaged.

use second::cases::draft::{Draft, Kind};
use second::cases::shared_slots;
use second::cases::tables::Tables;
use second::random::Random;
use second::units::{ROWS, WORDS};

use super::words;

/// The draft's tables; so many of a hundred are damaged.
pub fn some(random: &mut Random, draft: &Draft, damaged: u64) -> Tables {
    let mut tables = Tables::of(random, draft);
    if !random.percent(damaged) {
        return tables;
    }
    match random.below(60) {
        0 => one_row_too_many(random, draft),
        1..=3 => anything(random),
        4..=6 => {
            let count = if random.percent(50) {
                &mut tables.contact_count
            } else {
                &mut tables.range_count
            };
            *count = random.word();
            tables
        }
        7..=12 => shared_slots::tables(random),
        _ => {
            for _ in 0..random.between(1, 3) {
                tables.damage(random);
            }
            tables
        }
    }
}

/// Good rows, but 513 of one kind, all of them lent and counted.
fn one_row_too_many(random: &mut Random, draft: &Draft) -> Tables {
    let kind = random.pick(&[Kind::Contact, Kind::Range]);
    let mut draft = draft.clone();
    draft.fill(random, kind, ROWS);
    let row = draft.fresh(random, kind);
    let mut tables = Tables::of(random, &draft);
    let (table, count) = match kind {
        Kind::Contact => (&mut tables.contacts, &mut tables.contact_count),
        Kind::Range => (&mut tables.ranges, &mut tables.range_count),
    };
    table.truncate(ROWS * WORDS);
    table.extend(row);
    *count += 1;
    tables
}

/// Words of any value, or any small values, as many rows as they may be.
fn anything(random: &mut Random) -> Tables {
    let mut table = || {
        let most = random.pick(&[u64::MAX, 1 << 34, 70, 3]);
        let length = random.index(6 * WORDS);
        let words = words(random, length);
        let count = random.below(length as u64 / WORDS as u64 + 1);
        (words.iter().map(|word| word % most).collect(), count)
    };
    let (contacts, contact_count) = table();
    let (ranges, range_count) = table();
    Tables {
        contacts,
        contact_count,
        ranges,
        range_count,
    }
}
