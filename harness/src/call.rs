//! One call of a C function: all that is given and lent.

use oivarnum::raw::{ANSWER_WORDS, BOOKED_WORDS};
use second::Ask;

use crate::lent::Lent;

/// The exported functions.
#[derive(Clone, Copy, Debug, PartialEq, Eq)]
pub enum Function {
    Read,
    Write,
    Walk,
    Route,
    WalkBooked,
    RouteBooked,
    BookRoute,
    Release,
}

impl Function {
    pub const COUNT: usize = 8;

    pub const ALL: [Self; Self::COUNT] = [
        Self::Read,
        Self::Write,
        Self::Walk,
        Self::Route,
        Self::WalkBooked,
        Self::RouteBooked,
        Self::BookRoute,
        Self::Release,
    ];

    /// Those that are lent a book.
    pub const ON_BOOK: [Self; 4] = [
        Self::WalkBooked,
        Self::RouteBooked,
        Self::BookRoute,
        Self::Release,
    ];

    pub fn name(self) -> &'static str {
        match self {
            Self::Read => "read",
            Self::Write => "write",
            Self::Walk => "walk",
            Self::Route => "route",
            Self::WalkBooked => "walk_booked",
            Self::RouteBooked => "route_booked",
            Self::BookRoute => "book_route",
            Self::Release => "release",
        }
    }

    /// The words that its answer must have.
    pub fn answer_words(self) -> usize {
        match self {
            Self::BookRoute => BOOKED_WORDS,
            _ => ANSWER_WORDS,
        }
    }

    /// Whether it finds a chain.
    pub fn routes(self) -> bool {
        matches!(self, Self::Route | Self::RouteBooked | Self::BookRoute)
    }

    /// Whether a chain of any length is given to it.
    pub fn walks(self) -> bool {
        matches!(self, Self::Walk | Self::WalkBooked)
    }
}

/// All memory lent to a call; what its function does not take is empty.
#[derive(Clone)]
pub struct Memory {
    /// The text to read, or the place for the text written.
    pub bytes: Lent<u8>,
    pub contacts: Lent<u64>,
    pub ranges: Lent<u64>,
    pub book: Lent<u64>,
    pub booked: Lent<u16>,
    pub chain: Lent<u64>,
    pub answer: Lent<u64>,
}

impl Memory {
    /// The bytes lent in all.
    pub fn size(&self) -> usize {
        let words = [
            &self.contacts,
            &self.ranges,
            &self.book,
            &self.chain,
            &self.answer,
        ];
        let words: usize = words.iter().map(|lent| lent.len()).sum();
        self.bytes.len() + self.booked.len() * size_of::<u16>() + words * size_of::<u64>()
    }
}

pub struct Call {
    pub function: Function,
    pub contact_count: u64,
    pub range_count: u64,
    pub ask: Ask,
    pub class: u64,
    /// The place to release.
    pub place: u64,
    pub memory: Memory,
}
