//! Damaged tables, books, asks and classes in every call on a book: the
//! refusals 15, 9, 11, 24, 12 and 26 and their order, that they come before
//! those of a walked chain, and that a refused call changes nothing.

use crate::ask::Ask;
use crate::cases::asks;
use crate::cases::books::{self, FAMILIES};
use crate::cases::damaged_books::damage;
use crate::cases::lent::{Lent, LentBook};
use crate::cases::plans::SMALL;
use crate::cases::tables::Tables;
use crate::checks::tally::Tally;
use crate::plain::{ask_refusal_in, book_is_valid, is_valid};
use crate::random::Random;
use crate::refusal::{
    Refusal, ASK_VALUE, ENDS_ELSEWHERE, NOT_OPEN, NO_SUCH_CLASS, NO_SUCH_CONTACT, NO_VALID_PLAN,
    SHORT_CHAIN, SOURCE_IS_DESTINATION,
};
use crate::units::{LONGEST_BEST, PLACES};

const BOOKS: usize = 12;
/// What lent places hold before a call.
const UNTOUCHED: u64 = 0xdead_beef;

/// What is damaged is refused exactly where the definitions say so.
pub fn check(random: &mut Random, tally: &mut Tally) {
    for _ in 0..BOOKS {
        let (_, family) = random.pick(&SMALL);
        let draft = family(random);
        let book_family = random.pick(&FAMILIES);
        let book = books::of_family(&book_family, random, &draft);
        let tables = Tables::of(random, &draft);
        let mut lent = Lent { tables, book };
        if random.percent(15) {
            lent.tables.damage(random);
        }
        for _ in 0..random.pick(&[0, 0, 1, 2]) {
            damage(random, &mut lent.book, draft.contacts.len() as u64);
        }
        let mut ask = asks::ask(random, &draft);
        for _ in 0..random.pick(&[0, 0, 1, 2]) {
            ask = asks::at_limits(random, &ask);
        }
        let class = if random.percent(50) {
            books::class(random)
        } else {
            books::class_at_limits(random)
        };
        check_on_ask(&lent, ask, class, tally);
        check_release(random, &lent, tally);
    }
}

fn check_on_ask(lent: &Lent, ask: Ask, class: u64, tally: &mut Tally) {
    let about = || format!("{ask:?} in class {class}, {}", about(lent));
    let wanted = no_valid(lent).or(ask_refusal_in(&ask, class));
    let what = match wanted.map(|refusal| refusal.number) {
        None => "book calls, all valid",
        Some(NO_VALID_PLAN) => "book calls, tables or book not valid",
        Some(NO_SUCH_CLASS) => "book calls, no such class",
        Some(_) => "book calls, ask out of range or to its source",
    };
    for (chain, of_chain) in [
        (&[0][..], Refusal::new(NO_SUCH_CONTACT, 1)),
        (&[], Refusal::bare(ENDS_ELSEWHERE)),
    ] {
        let walked = lent.walk(ask, class, chain).err();
        tally.same(what, walked, wanted.or(Some(of_chain)), about);
    }
    let routed = lent.route(ask, class, &mut [0; LONGEST_BEST]).err();
    tally.same(what, early(routed), wanted, about);
    for places in [LONGEST_BEST, LONGEST_BEST - 1] {
        let mut after = lent.clone();
        let mut chain = vec![UNTOUCHED; places];
        let booked = after.book(ask, class, &mut chain).err();
        if booked.is_some() {
            let found = (after.book, chain);
            let unchanged = (lent.book.clone(), vec![UNTOUCHED; places]);
            let what = "book calls, a refusal changes nothing";
            tally.same(what, found, unchanged, about);
        }
        if places == LONGEST_BEST {
            tally.same(what, early(booked), wanted, about);
        } else {
            let routed = lent.route(ask, class, &mut vec![0; places]).err();
            let short = Some(Refusal::bare(SHORT_CHAIN));
            let what = "book calls, short chain first";
            tally.same(what, (routed, booked), (short, short), about);
        }
    }
}

fn check_release(random: &mut Random, lent: &Lent, tally: &mut Tally) {
    let place = some_place(random);
    let mut after = lent.clone();
    let released = after.release(place);
    let is_open = (1..=PLACES as u64).contains(&place)
        && lent.book.words.get(4 * (place as usize - 1)) == Some(&1);
    let mut book = lent.book.clone();
    let (what, wanted) = match no_valid(lent) {
        Some(refusal) => ("release, tables or book not valid", Err(refusal)),
        None if is_open => {
            book.words[4 * (place as usize - 1)] = 0;
            ("release, an open place", Ok(()))
        }
        None => ("release, not open", Err(Refusal::bare(NOT_OPEN))),
    };
    tally.same(what, (released, after.book), (wanted, book), || {
        format!("place {place}, {}", about(lent))
    });
}

fn some_place(random: &mut Random) -> u64 {
    match random.below(5) {
        0 => random.pick(&[0, PLACES as u64 + 1, (1 << 32) + 1, u64::MAX]),
        1 => random.pick(&[1, PLACES as u64]),
        _ => random.between(1, PLACES as u64),
    }
}

fn no_valid(lent: &Lent) -> Option<Refusal> {
    let (tables, book) = (&lent.tables, &lent.book);
    let count = tables.contact_count;
    let is_valid = is_valid(&tables.contacts, count, &tables.ranges, tables.range_count)
        && book_is_valid(&book.words, &book.numbers, count);
    (!is_valid).then_some(Refusal::bare(NO_VALID_PLAN))
}

/// A refusal if it is one that comes before the work of a call.
fn early(refusal: Option<Refusal>) -> Option<Refusal> {
    let numbers = [
        NO_VALID_PLAN,
        ASK_VALUE,
        NO_SUCH_CLASS,
        SOURCE_IS_DESTINATION,
    ];
    refusal.filter(|refusal| numbers.contains(&refusal.number))
}

fn about(lent: &Lent) -> String {
    let Lent { tables, book } = lent;
    let LentBook { words, numbers } = book;
    let (contacts, ranges) = (&tables.contacts, &tables.ranges);
    let (contact_count, range_count) = (tables.contact_count, tables.range_count);
    format!(
        "{contact_count} of {contacts:?}, {range_count} of {ranges:?}, book {words:?}, {} numbers",
        numbers.len()
    )
}
