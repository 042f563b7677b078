//! Lent books that are not valid, each by one word or by a length.

use crate::book::{BOOKED_NUMBERS, BOOK_WORDS, OPEN};
use crate::cases::books;
use crate::cases::lent::LentBook;
use crate::random::Random;
use crate::units::{CLASSES, LARGEST_CONSUMPTION, LONGEST_BEST, PLACE_WORDS, ROWS};

/// Damages a book, though it may by chance stay a valid one of a plan of so
/// many contacts.
pub fn damage(random: &mut Random, book: &mut LentBook, contact_count: u64) {
    if book.words.len() < BOOK_WORDS || book.numbers.len() < BOOKED_NUMBERS {
        return;
    }
    let place = some_place(random, book);
    let first = place * PLACE_WORDS;
    match random.below(10) {
        0 => book.words[first] = random.pick(&[2, 3, 256, 1 << 32, (1 << 32) + 1, u64::MAX]),
        1 => book.words[first + 1] = random.pick(&[0, 1, CLASSES, CLASSES + 1, 257, u64::MAX]),
        2 => {
            let most = LARGEST_CONSUMPTION;
            book.words[first + 2] = random.pick(&[0, 1, most, most + 1, 1 << 32, u64::MAX]);
        }
        3 => {
            let most = LONGEST_BEST as u64;
            book.words[first + 3] = random.pick(&[0, 1, most, most + 1, 1 << 32, u64::MAX]);
        }
        4..=6 => {
            let step = random.pick(&[0, 0, 1, LONGEST_BEST - 1]);
            let last = contact_count as u16;
            let number = random.pick(&[0, 1, last, last + 1, ROWS as u16 + 1, u16::MAX]);
            book.numbers[place * LONGEST_BEST + step] = number;
        }
        7 => book.words[first] = OPEN,
        8 => add_behind(random, book),
        _ => cut_off(random, book),
    }
}

/// An open place where there is one, at times any.
fn some_place(random: &mut Random, book: &LentBook) -> usize {
    let open = book.places(true);
    if open.is_empty() || random.percent(20) {
        books::some_place(random)
    } else {
        random.pick(&open)
    }
}

/// Puts a place that is not valid behind the others, where nobody looks.
fn add_behind(random: &mut Random, book: &mut LentBook) {
    book.words.truncate(BOOK_WORDS);
    book.numbers.truncate(BOOKED_NUMBERS);
    let mark = random.pick(&[OPEN, 2]);
    book.words.extend([mark, CLASSES + 1, 0, 1]);
    book.numbers.extend([0; LONGEST_BEST]);
}

/// Cuts one of the slices to its least length, or shorter.
fn cut_off(random: &mut Random, book: &mut LentBook) {
    let some = random.pick(&[0, 1, PLACE_WORDS, LONGEST_BEST, BOOK_WORDS]);
    if random.percent(50) {
        book.words.truncate(BOOK_WORDS - some);
    } else {
        book.numbers.truncate(BOOKED_NUMBERS - some);
    }
}
