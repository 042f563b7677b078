//! Lent tables: a plan's rows with whatever stands behind them, and tables
//! that are no valid plan.

use crate::cases::draft::{Draft, Kind};
use crate::plan::Row;
use crate::random::Random;
use crate::units::{LATEST_TIME, NODES, ROWS, WORDS};

/// The four arguments by which a plan is lent.
#[derive(Clone)]
pub struct Tables {
    pub contacts: Vec<u64>,
    pub contact_count: u64,
    pub ranges: Vec<u64>,
    pub range_count: u64,
}

impl Tables {
    /// The draft's rows, then words that belong to no row.
    pub fn of(random: &mut Random, draft: &Draft) -> Self {
        let (mut contacts, mut ranges) = draft.tables();
        for table in [&mut contacts, &mut ranges] {
            let spare = random.pick(&[0, 0, 1, WORDS - 1, WORDS, 3 * WORDS + 2]);
            table.extend((0..spare).map(|_| random.word()));
        }
        Self {
            contacts,
            contact_count: draft.contacts.len() as u64,
            ranges,
            range_count: draft.ranges.len() as u64,
        }
    }

    /// Damages the tables, though they may by chance stay a valid plan.
    pub fn damage(&mut self, random: &mut Random) {
        let (kind, table, count) = if random.percent(50) {
            (Kind::Contact, &mut self.contacts, &mut self.contact_count)
        } else {
            (Kind::Range, &mut self.ranges, &mut self.range_count)
        };
        match random.below(10) {
            0 => *count = random.pick(&[count.saturating_add(1), ROWS as u64 + 1, u64::MAX]),
            1 => *count = table.len() as u64 / WORDS as u64 + random.below(2),
            2 => table.truncate(random.index(table.len() + 1)),
            3..=6 if !table.is_empty() => {
                let place = random.index(table.len());
                table[place] = edge_value(random, kind, place % WORDS);
            }
            _ => repeat_row(random, table, count),
        }
    }
}

/// A value at or just past a limit of a word.
fn edge_value(random: &mut Random, kind: Kind, word: usize) -> u64 {
    let (least, most) = match word {
        0 | 1 => (0, LATEST_TIME),
        2 | 3 => (1, NODES),
        _ => kind.last_limits(),
    };
    random.pick(&[0, least, least + 1, most, most + 1, u64::MAX])
}

/// Adds a row like one that is there, with its times changed a little.
fn repeat_row(random: &mut Random, table: &mut Vec<u64>, count: &mut u64) {
    let rows = (*count as usize).min(table.len() / WORDS);
    if rows == 0 {
        return;
    }
    let first = random.index(rows) * WORDS;
    let mut row: Row = std::array::from_fn(|word| table[first + word]);
    let length = row[1].saturating_sub(row[0]);
    let shift = random.pick(&[
        0,
        1,
        length.saturating_sub(1),
        length,
        length.saturating_add(1),
    ]);
    row[0] = row[0].saturating_add(shift);
    row[1] = row[1].saturating_add(shift);
    table.truncate(rows * WORDS);
    table.extend(row);
    *count = rows as u64 + 1;
}
