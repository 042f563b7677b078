//! What `read` is given: texts good and damaged, and tables to fill.

use second::cases::damage::{self, Damage};
use second::cases::draft::Kind;
use second::cases::edges::long_number_text;
use second::random::Random;
use second::units::{LONGEST_TEXT, ROWS, WORDS};

use super::{plans, texts, words, Given};

/// The words of a table that has room for every plan.
const TABLE: usize = ROWS * WORDS;

pub fn given(random: &mut Random, damages: &[Damage], turn: u64) -> Given {
    let text = match turn {
        0 => plans::longest_text().text(),
        1 => longest(),
        _ => some_text(random, damages),
    };
    let (contacts, ranges) = lengths(random);
    Given::read(text, words(random, contacts), words(random, ranges))
}

fn some_text(random: &mut Random, damages: &[Damage]) -> Vec<u8> {
    match random.below(21) {
        0..=6 => {
            let damage = &damages[random.index(damages.len())];
            damage::make(random, damage).text
        }
        7..=12 => plans::some(random, 20).text(),
        13..=18 => {
            let draft = plans::some(random, 5);
            texts::scratched(random, &draft)
        }
        19 => {
            let kind = random.pick(&[Kind::Contact, Kind::Range]);
            let zeros = random.percent(30);
            long_number_text(random, kind, zeros)
        }
        _ => texts::odd(random),
    }
}

/// A text of 65,536 bytes that is good but for its very last number.
pub fn longest() -> Vec<u8> {
    let mut draft = plans::longest_text();
    draft.ranges.pop();
    let mut text = draft.text();
    text.extend_from_slice(b"range\t0\t1\t1\t2\t");
    text.resize(LONGEST_TEXT - 1, b'7');
    text.push(b'\n');
    text
}

/// The words of both tables: room enough, or at times too few rows.
fn lengths(random: &mut Random) -> (usize, usize) {
    let enough = |random: &mut Random| TABLE + random.pick(&[0, 0, 0, 1, WORDS - 1, WORDS, 23]);
    let short = |random: &mut Random| {
        let any = random.index(TABLE);
        random.pick(&[TABLE - 1, TABLE - WORDS, 0, any])
    };
    match random.below(50) {
        0 => (short(random), enough(random)),
        1 => (enough(random), short(random)),
        2 => (short(random), short(random)),
        _ => (enough(random), enough(random)),
    }
}
