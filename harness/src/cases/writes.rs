//! What `write` is given: tables, and room for their text or too little.

use second::random::Random;

use super::{bytes, plain_tables, plans, tables, Given};

/// The longest text of a plan.
pub const LONGEST_PLAN: usize = 46_087;

pub fn given(random: &mut Random, turn: u64) -> Given {
    if turn == 0 {
        let tables = plain_tables(&plans::longest_text());
        return Given::write(tables, bytes(random, LONGEST_PLAN));
    }
    let draft = plans::some(random, 15);
    let tables = tables::some(random, &draft, 30);
    let text = draft.text().len();
    let room = match random.below(20) {
        0..=7 => text,
        8..=10 => text - 1,
        11 => 0,
        12 => random.index(text),
        13 => LONGEST_PLAN,
        _ => text + random.index(200),
    };
    Given::write(tables, bytes(random, room))
}
