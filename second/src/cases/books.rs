//! Lent books: families of valid ones, each aimed at something that goes wrong
//! easily, and asks about what they leave.

use crate::ask::Ask;
use crate::cases::asks;
use crate::cases::draft::Draft;
use crate::cases::lent::LentBook;
use crate::plain;
use crate::random::Random;
use crate::units::{CLASSES, LARGEST_CONSUMPTION, LARGEST_SIZE, LONGEST_BEST, PLACES};

/// A class that there is.
pub fn class(random: &mut Random) -> u64 {
    random.between(1, CLASSES)
}

/// A class at a limit or past it.
pub fn class_at_limits(random: &mut Random) -> u64 {
    random.pick(&[0, 1, CLASSES, CLASSES + 1, u64::MAX])
}

/// An ask of a class, at times for a file that about fills what is left of a
/// contact.
pub fn ask(random: &mut Random, draft: &Draft, book: &LentBook, class: u64) -> Ask {
    let mut ask = asks::ask(random, draft);
    if random.percent(40) && !draft.contacts.is_empty() {
        let left = book.left(draft, some_number(random, draft), class);
        if left > 0 {
            let size = left / 103 * 100 + left % 103 + i128::from(random.below(5)) - 4;
            ask.size = size.clamp(1, i128::from(LARGEST_SIZE)) as u64;
        }
    }
    ask
}

/// A family: its name, and how it fills an empty book of a plan that has
/// contacts.
pub type Family = (&'static str, fn(&mut LentBook, &mut Random, &Draft));

pub const FAMILIES: [Family; 7] = [
    ("few", few),
    ("tight", tight),
    ("overbooked", overbooked),
    ("released", released),
    ("nearly full", nearly_full),
    ("full", full),
    ("wild", wild),
];

/// A book of a family for a plan.
pub fn of_family((_, fill): &Family, random: &mut Random, draft: &Draft) -> LentBook {
    let mut book = LentBook::empty(random);
    if !draft.contacts.is_empty() {
        fill(&mut book, random, draft);
    }
    book
}

/// Any place: the first, the last or another.
pub fn some_place(random: &mut Random) -> usize {
    let any = random.index(PLACES);
    random.pick(&[0, PLACES - 1, any, any])
}

fn some_number(random: &mut Random, draft: &Draft) -> u64 {
    random.between(1, draft.contacts.len() as u64)
}

/// So many contacts, any of them twice.
fn some_numbers(random: &mut Random, draft: &Draft, count: u64) -> Vec<u64> {
    (0..count).map(|_| some_number(random, draft)).collect()
}

/// A contact by itself, twice, or among others.
fn some_with(random: &mut Random, draft: &Draft, number: u64) -> Vec<u64> {
    let others = random.pick(&[0, 0, 0, 1, 2, 4]);
    let mut numbers = some_numbers(random, draft, others);
    numbers.push(number);
    if random.percent(30) {
        numbers.push(number);
    }
    random.shuffle(&mut numbers);
    numbers
}

/// A part of a contact's volume that can be booked.
fn some_part(random: &mut Random, draft: &Draft, number: u64) -> u64 {
    let volume = plain::volume(&draft.contacts[number as usize - 1]);
    let most = (volume as u64 / random.between(1, 4)).clamp(1, LARGEST_CONSUMPTION);
    random.between(1, most)
}

/// Opens a few bookings over a contact that leave just so much of it in a
/// class, as far as more is left and places are free.
pub fn leave(
    book: &mut LentBook,
    random: &mut Random,
    draft: &Draft,
    number: u64,
    class: u64,
    wanted: i128,
) {
    for _ in 0..4 {
        let over = book.left(draft, number, class) - wanted;
        let free = book.places(false);
        if over <= 0 || free.is_empty() {
            break;
        }
        let consumption = over.min(i128::from(LARGEST_CONSUMPTION)) as u64;
        let contacts = some_with(random, draft, number);
        let class = random.between(class, CLASSES);
        book.open(random.pick(&free), class, consumption, &contacts);
    }
}

/// A few bookings anywhere.
fn few(book: &mut LentBook, random: &mut Random, draft: &Draft) {
    for _ in 0..random.between(1, 6) {
        let number = some_number(random, draft);
        let consumption = some_part(random, draft, number);
        let contacts = some_with(random, draft, number);
        book.open(random.index(PLACES), class(random), consumption, &contacts);
    }
}

/// Contacts of which a few bytes are left in one of the classes.
fn tight(book: &mut LentBook, random: &mut Random, draft: &Draft) {
    for _ in 0..random.between(1, 2 * draft.contacts.len().min(20) as u64) {
        let number = some_number(random, draft);
        let wanted = i128::from(random.below(16));
        let class = class(random);
        leave(book, random, draft, number, class, wanted);
    }
}

/// Contacts that are used up in the lowest class and booked again in higher
/// ones, the highest too: less than nothing is left.
fn overbooked(book: &mut LentBook, random: &mut Random, draft: &Draft) {
    for _ in 0..random.between(1, 4) {
        let number = some_number(random, draft);
        leave(book, random, draft, number, 1, 0);
        for _ in 0..random.between(1, 3) {
            let consumption = some_part(random, draft, number);
            let contacts = some_with(random, draft, number);
            let class = random.between(2, CLASSES);
            book.open(random.index(PLACES), class, consumption, &contacts);
        }
    }
}

/// Bookings of all kinds, most of them freed again: only their marks went.
fn released(book: &mut LentBook, random: &mut Random, draft: &Draft) {
    overbooked(book, random, draft);
    tight(book, random, draft);
    for place in book.places(true) {
        if random.percent(80) {
            book.free(place);
        }
    }
}

/// All but a few places open.
fn nearly_full(book: &mut LentBook, random: &mut Random, draft: &Draft) {
    full(book, random, draft);
    for _ in 0..random.between(1, 3) {
        book.free(some_place(random));
    }
}

/// All places open, for a byte or two each of one contact, or of all.
fn full(book: &mut LentBook, random: &mut Random, draft: &Draft) {
    let one = some_number(random, draft);
    let on_all = random.percent(20);
    for place in 0..PLACES {
        let number = if on_all {
            some_number(random, draft)
        } else {
            one
        };
        let consumption = random.between(1, 2);
        book.open(
            place,
            class(random),
            consumption,
            &vec![number; 1 + place % 2],
        );
    }
}

/// Values at their limits: the longest chains, and the least and the greatest
/// consumption.
fn wild(book: &mut LentBook, random: &mut Random, draft: &Draft) {
    for _ in 0..random.pick(&[1, 3, 10, 100]) {
        let count = random.pick(&[1, 2, LONGEST_BEST as u64]);
        let contacts = some_numbers(random, draft, count);
        let consumption = match random.below(4) {
            0 => LARGEST_CONSUMPTION,
            1 => random.between(1, LARGEST_CONSUMPTION),
            _ => random.between(1, 3),
        };
        book.open(random.index(PLACES), class(random), consumption, &contacts);
    }
}
