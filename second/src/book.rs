//! The lent book: which bookings are open, and what they leave of a contact.
//!
//! A book has 256 places and is lent as two slices. `book` has four words a
//! place: the mark (0 free, 1 open), the class, the consumption and how many
//! contacts; `booked` has 63 contact numbers a place, the first so many of
//! which are the booking's. Words of a free place, numbers after a booking's
//! and all that stands behind the 256 places are nobody's.

use std::collections::{BTreeMap, BTreeSet};

use crate::plan::Plan;
use crate::refusal::{Refusal, NO_VALID_PLAN};
use crate::units::{
    Class, ContactNo, PlaceNo, LARGEST_CONSUMPTION, LONGEST_BEST, PLACES, PLACE_WORDS,
};

/// The mark of a free place.
pub const FREE: u64 = 0;
/// The mark of an open one.
pub const OPEN: u64 = 1;
/// The words of a lent book that is just long enough.
pub const BOOK_WORDS: usize = PLACES * PLACE_WORDS;
/// The contact numbers of a lent book that is just long enough.
pub const BOOKED_NUMBERS: usize = PLACES * LONGEST_BEST;

/// The first slice of a book in which nothing is open.
pub static EMPTY_BOOK: [u64; BOOK_WORDS] = [FREE; BOOK_WORDS];
/// The second slice of a book in which nothing is open.
pub static EMPTY_BOOKED: [u16; BOOKED_NUMBERS] = [0; BOOKED_NUMBERS];

/// A booking that is open.
struct Booking {
    class: Class,
    consumption: u64,
    /// Each contact once, however often the booking names it.
    contacts: BTreeSet<ContactNo>,
}

impl Booking {
    /// The booking of an open place; none if a value is out of its range or a
    /// contact is not in the plan.
    fn of(words: &[u64], numbers: &[u16], plan: &Plan) -> Option<Self> {
        let class = Class(words[1]);
        let consumption = words[2];
        let numbers = numbers.get(..usize::try_from(words[3]).ok()?)?;
        let contacts: BTreeSet<ContactNo> = numbers
            .iter()
            .map(|&number| ContactNo(u64::from(number)))
            .collect();
        let is_in_plan = |number: &ContactNo| {
            let row = number.row();
            row.is_some_and(|row| row < plan.contacts().len())
        };
        let is_good = class.exists()
            && (1..=LARGEST_CONSUMPTION).contains(&consumption)
            && !contacts.is_empty()
            && contacts.iter().all(is_in_plan);
        is_good.then_some(Self {
            class,
            consumption,
            contacts,
        })
    }
}

/// A valid book: the bookings that are open, by place.
#[derive(Default)]
pub struct Book {
    open: BTreeMap<PlaceNo, Booking>,
}

impl Book {
    /// The book in two lent slices, or refusal 9.
    pub fn of_lent(book: &[u64], booked: &[u16], plan: &Plan) -> Result<Self, Refusal> {
        Self::of_places(book, booked, plan).ok_or(Refusal::bare(NO_VALID_PLAN))
    }

    fn of_places(book: &[u64], booked: &[u16], plan: &Plan) -> Option<Self> {
        let words = book.get(..BOOK_WORDS)?.chunks_exact(PLACE_WORDS);
        let numbers = booked.get(..BOOKED_NUMBERS)?.chunks_exact(LONGEST_BEST);
        let mut open = BTreeMap::new();
        for (place, (words, numbers)) in PlaceNo::all().zip(words.zip(numbers)) {
            match words[0] {
                FREE => {}
                OPEN => {
                    open.insert(place, Booking::of(words, numbers, plan)?);
                }
                _ => return None,
            }
        }
        Some(Self { open })
    }

    pub fn is_open(&self, place: PlaceNo) -> bool {
        self.open.contains_key(&place)
    }

    pub fn lowest_free(&self) -> Option<PlaceNo> {
        PlaceNo::all().find(|&place| !self.is_open(place))
    }

    /// What is left in a class of each of the plan's contacts, in their order:
    /// the volume less the open bookings of that class or a higher one.
    pub fn left(&self, plan: &Plan, class: Class) -> Vec<i64> {
        let volumes = plan
            .contacts()
            .iter()
            .map(|contact| contact.volume() as i64);
        let mut left: Vec<i64> = volumes.collect();
        for booking in self.open.values().filter(|open| open.class >= class) {
            for row in booking.contacts.iter().filter_map(|number| number.row()) {
                left[row] -= booking.consumption as i64;
            }
        }
        left
    }
}

/// Opens a booking of a chain in a place of two lent slices.
pub fn open(
    book: &mut [u64],
    booked: &mut [u16],
    place: PlaceNo,
    class: Class,
    consumption: u64,
    chain: &[ContactNo],
) {
    let words = [OPEN, class.0, consumption, chain.len() as u64];
    let first = place.index() * PLACE_WORDS;
    book[first..first + PLACE_WORDS].copy_from_slice(&words);
    let numbers = booked.iter_mut().skip(place.index() * LONGEST_BEST);
    for (word, number) in numbers.zip(chain) {
        *word = number.0 as u16;
    }
}

/// Frees a place of a lent book.
pub fn free(book: &mut [u64], place: PlaceNo) {
    book[place.index() * PLACE_WORDS] = FREE;
}
