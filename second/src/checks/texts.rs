//! Reading and writing: round trips, damaged texts and damaged asks.

use crate::cases::asks::{self, FAULTS};
use crate::cases::damage;
use crate::cases::draft::Draft;
use crate::cases::plans::{LARGE, SMALL};
use crate::checks::tally::Tally;
use crate::program::ask_of;
use crate::random::Random;
use crate::refusal::{Refusal, ASK_SHAPE, SHORT_OUTPUT, SHORT_TABLES};
use crate::text::{lines, read, write};
use crate::units::{ROWS, WORDS};

/// The words of a lent table that is just long enough.
const TABLE: usize = ROWS * WORDS;
/// What lent memory holds before a call.
const UNTOUCHED: u64 = 0xdead_beef;
const UNTOUCHED_BYTE: u8 = 0xa5;

/// What a plan writes is read as that plan; what is read is written as it was.
pub fn check_round_trip(random: &mut Random, turn: u64, tally: &mut Tally) {
    let large = LARGE[turn as usize % LARGE.len()];
    for (_, family) in SMALL.into_iter().chain([large]) {
        let draft = family(random);
        check_plan(random, &draft, tally);
    }
}

fn check_plan(random: &mut Random, draft: &Draft, tally: &mut Tally) {
    let (contacts, ranges) = draft.tables();
    let counts = (draft.contacts.len(), draft.ranges.len());
    let text = draft.text();
    let spare = random.index(9);
    let mut out = vec![UNTOUCHED_BYTE; text.len() + spare];
    let written = write(
        &contacts,
        counts.0 as u64,
        &ranges,
        counts.1 as u64,
        &mut out,
    );
    let wanted = [&text[..], &vec![UNTOUCHED_BYTE; spare]].concat();
    tally.same(
        "write a plan",
        (written, out),
        (Ok(text.len()), wanted),
        || shown(&text),
    );

    let length = TABLE + random.index(7);
    let (mut read_contacts, mut read_ranges) = (vec![UNTOUCHED; length], vec![UNTOUCHED; length]);
    let answer = read(&text, &mut read_contacts, &mut read_ranges);
    let wanted = (Ok(counts), padded(contacts, length), padded(ranges, length));
    tally.same(
        "read a plan",
        (answer, read_contacts, read_ranges),
        wanted,
        || shown(&text),
    );
    check_short_room(draft, &text, tally);
}

fn padded(mut table: Vec<u64>, length: usize) -> Vec<u64> {
    table.resize(length, UNTOUCHED);
    table
}

/// Output a byte short, and tables a word short.
fn check_short_room(draft: &Draft, text: &[u8], tally: &mut Tally) {
    let (contacts, ranges) = draft.tables();
    let counts = (draft.contacts.len() as u64, draft.ranges.len() as u64);
    let mut out = vec![UNTOUCHED_BYTE; text.len() - 1];
    let unchanged = out.clone();
    let written = write(&contacts, counts.0, &ranges, counts.1, &mut out);
    let refused = Refusal::new(SHORT_OUTPUT, text.len() as u64);
    tally.same(
        "write, short output",
        (written, out),
        (Err(refused), unchanged),
        || shown(text),
    );

    for (one, other) in [(TABLE - 1, TABLE), (TABLE, TABLE - 1), (0, 0)] {
        let (mut contacts, mut ranges) = (vec![UNTOUCHED; one], vec![UNTOUCHED; other]);
        let answer = read(b"", &mut contacts, &mut ranges);
        let found = (answer, contacts, ranges);
        let refused = Err(Refusal::bare(SHORT_TABLES));
        let wanted = (refused, vec![UNTOUCHED; one], vec![UNTOUCHED; other]);
        tally.same("read, short tables", found, wanted, || "no text".into());
    }
}

/// A damaged text gets the refusal that was put into it, and so does a
/// damaged ask.
pub fn check_damaged(random: &mut Random, round: u64, tally: &mut Tally) {
    let damages = damage::all();
    let damage = &damages[round as usize % damages.len()];
    check_refused(&damage::make(random, damage), tally);
    for faults in FAULTS {
        let draft = Draft::default();
        let ask = asks::ask(random, &draft);
        let line = asks::damaged(random, &ask, faults);
        let place = if faults[0] == ASK_SHAPE { 1 } else { 0 };
        let first = lines(&line).next();
        let answer = first.map(|line| ask_of(&line).and_then(|ask| ask.check().map(|_| ())));
        let wanted = Some(Err(Refusal::new(faults[0], place)));
        tally.same("damaged ask", answer, wanted, || shown(&line));
    }
}

fn check_refused(damaged: &damage::DamagedText, tally: &mut Tally) {
    let (mut contacts, mut ranges) = (vec![UNTOUCHED; TABLE], vec![UNTOUCHED; TABLE]);
    let unchanged = contacts.clone();
    let answer = read(&damaged.text, &mut contacts, &mut ranges);
    let wanted = (Err(damaged.refusal), unchanged.clone(), unchanged);
    tally.same(
        "read, damaged text",
        (answer, contacts, ranges),
        wanted,
        || shown(&damaged.text),
    );
}

fn shown(text: &[u8]) -> String {
    text.escape_ascii().to_string().replace("\\n", "\n")
}
