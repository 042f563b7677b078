//! A plan and its book as they are lent to one call after the other.

use crate::ask::Ask;
use crate::book::{BOOKED_NUMBERS, BOOK_WORDS, FREE, OPEN};
use crate::calls::{book_route, release, route_booked, walk_booked, Routed};
use crate::cases::draft::Draft;
use crate::cases::tables::Tables;
use crate::plain;
use crate::random::Random;
use crate::refusal::Refusal;
use crate::timing::Figures;
use crate::units::{LONGEST_BEST, PLACES, PLACE_WORDS};

/// The two slices by which a book is lent. Its places are counted from 0 here.
#[derive(Clone, Debug, PartialEq, Eq)]
pub struct LentBook {
    pub words: Vec<u64>,
    pub numbers: Vec<u16>,
}

impl LentBook {
    /// A book in which every place is free, with any words where nobody looks.
    pub fn empty(random: &mut Random) -> Self {
        let spare = random.pick(&[0, 0, 1, PLACE_WORDS, 2 * LONGEST_BEST]);
        let mut words: Vec<u64> = (0..BOOK_WORDS + spare).map(|_| random.word()).collect();
        for place in 0..PLACES {
            words[place * PLACE_WORDS] = FREE;
        }
        let spare = random.pick(&[0, 0, 1, PLACE_WORDS, 2 * LONGEST_BEST]);
        let numbers = (0..BOOKED_NUMBERS + spare).map(|_| random.word() as u16);
        Self {
            words,
            numbers: numbers.collect(),
        }
    }

    pub fn is_open(&self, place: usize) -> bool {
        self.words[place * PLACE_WORDS] == OPEN
    }

    /// The places that are open, or those that are not.
    pub fn places(&self, open: bool) -> Vec<usize> {
        let places = 0..PLACES;
        places
            .filter(|&place| self.is_open(place) == open)
            .collect()
    }

    /// Opens a booking in a place, whatever stood there.
    pub fn open(&mut self, place: usize, class: u64, consumption: u64, contacts: &[u64]) {
        let first = place * PLACE_WORDS;
        let words = [OPEN, class, consumption, contacts.len() as u64];
        self.words[first..first + PLACE_WORDS].copy_from_slice(&words);
        for (step, &number) in contacts.iter().enumerate() {
            self.numbers[place * LONGEST_BEST + step] = number as u16;
        }
    }

    pub fn free(&mut self, place: usize) {
        self.words[place * PLACE_WORDS] = FREE;
    }

    /// What is left of a contact in a class.
    pub fn left(&self, draft: &Draft, number: u64, class: u64) -> i128 {
        let contact = &draft.contacts[number as usize - 1];
        plain::left(number, contact, &self.words, &self.numbers, class)
    }
}

/// The tables of a plan and its book.
#[derive(Clone)]
pub struct Lent {
    pub tables: Tables,
    pub book: LentBook,
}

impl Lent {
    pub fn walk(&self, ask: Ask, class: u64, chain: &[u64]) -> Result<Figures, Refusal> {
        walk_booked(
            &self.tables.contacts,
            self.tables.contact_count,
            &self.tables.ranges,
            self.tables.range_count,
            &self.book.words,
            &self.book.numbers,
            ask,
            class,
            chain,
        )
    }

    pub fn route(&self, ask: Ask, class: u64, chain: &mut [u64]) -> Result<Routed, Refusal> {
        route_booked(
            &self.tables.contacts,
            self.tables.contact_count,
            &self.tables.ranges,
            self.tables.range_count,
            &self.book.words,
            &self.book.numbers,
            ask,
            class,
            chain,
        )
    }

    pub fn book(
        &mut self,
        ask: Ask,
        class: u64,
        chain: &mut [u64],
    ) -> Result<(Routed, u64), Refusal> {
        book_route(
            &self.tables.contacts,
            self.tables.contact_count,
            &self.tables.ranges,
            self.tables.range_count,
            &mut self.book.words,
            &mut self.book.numbers,
            ask,
            class,
            chain,
        )
    }

    pub fn release(&mut self, place: u64) -> Result<(), Refusal> {
        release(
            &self.tables.contacts,
            self.tables.contact_count,
            &self.tables.ranges,
            self.tables.range_count,
            &mut self.book.words,
            &self.book.numbers,
            place,
        )
    }
}
