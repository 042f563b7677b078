//! The books that calls are lent: most are valid, others are damaged.

use second::book::{BOOKED_NUMBERS, BOOK_WORDS, FREE};
use second::cases::books::{of_family, FAMILIES};
use second::cases::damaged_books::damage;
use second::cases::draft::Draft;
use second::cases::lent::LentBook;
use second::random::Random;
use second::units::{CLASSES, NODES, PLACES};

/// A book for a plan: of any family, or empty.
pub fn some(random: &mut Random, draft: &Draft) -> LentBook {
    if random.percent(10) {
        return LentBook::empty(random);
    }
    let family = random.pick(&FAMILIES);
    of_family(&family, random, draft)
}

/// The book after some damage, in so many of a hundred cases.
pub fn damaged(random: &mut Random, mut book: LentBook, draft: &Draft, share: u64) -> LentBook {
    if random.percent(share) {
        for _ in 0..random.between(1, 2) {
            damage(random, &mut book, draft.contacts.len() as u64);
        }
    }
    book
}

/// As many bookings as there may be, each of a byte all along the line of the
/// plan `full_line`; so many of the last places are free.
pub fn full_line(free: usize) -> LentBook {
    let mut book = LentBook {
        words: vec![FREE; BOOK_WORDS],
        numbers: vec![0; BOOKED_NUMBERS],
    };
    let line: Vec<u64> = (1..NODES).collect();
    for place in 0..PLACES - free {
        let class = 1 + place as u64 % CLASSES;
        book.open(place, class, 1, &line);
    }
    book
}
