//! The kinds of number that are kept apart, and every limit: those of document
//! 01, and those of the book.

use std::ops::Add;

/// The latest time, in milliseconds.
pub const LATEST_TIME: u64 = 8_589_934_591;
/// The highest rate, in bytes a second; the lowest is 1.
pub const HIGHEST_RATE: u64 = 1_000_000_000;
/// The longest light time, in milliseconds.
pub const LONGEST_LIGHT: u64 = 86_400_000;
/// The largest file, in bytes; the smallest is 1.
pub const LARGEST_SIZE: u64 = 1_000_000_000;
/// Nodes are numbered from 1 to this.
pub const NODES: u64 = 64;
/// The most contacts, and the most ranges, of a plan.
pub const ROWS: usize = 512;
/// The words of a row in a lent table.
pub const WORDS: usize = 5;
/// The longest plan text and the longest input of asks, in bytes.
pub const LONGEST_TEXT: usize = 65_536;
/// The most contacts of a best chain, and of a booked one.
pub const LONGEST_BEST: usize = 63;
/// Bookings are in classes from 1, the lowest, to this.
pub const CLASSES: u64 = 3;
/// The most that a file consumes of a contact, in bytes; the least is 1.
pub const LARGEST_CONSUMPTION: u64 = 1_030_000_000;
/// The places of a book.
pub const PLACES: usize = 256;
/// The words of a place in the lent book; its contact numbers stand apart.
pub const PLACE_WORDS: usize = 4;

/// A contact's number: 1 for the first row of its table.
#[derive(Clone, Copy, Debug, PartialEq, Eq, PartialOrd, Ord)]
pub struct ContactNo(pub u64);

impl ContactNo {
    /// The number of the contact on a row, the first being row 0.
    pub fn of_row(row: usize) -> Self {
        Self(row as u64 + 1)
    }

    /// The row of the contact; none for the number 0.
    pub fn row(self) -> Option<usize> {
        usize::try_from(self.0.checked_sub(1)?).ok()
    }
}

/// A node's number, from 1.
#[derive(Clone, Copy, Debug, PartialEq, Eq, PartialOrd, Ord)]
pub struct NodeNo(pub u64);

impl NodeNo {
    /// Whether there is a node of this number.
    pub fn exists(self) -> bool {
        (1..=NODES).contains(&self.0)
    }

    /// The place of an existing node in a table of nodes.
    pub fn index(self) -> usize {
        (self.0 - 1) as usize
    }
}

/// A class of booking: a higher one goes before a lower one.
#[derive(Clone, Copy, Debug, PartialEq, Eq, PartialOrd, Ord)]
pub struct Class(pub u64);

impl Class {
    pub const LOWEST: Self = Self(1);

    /// Whether there is a class of this number.
    pub fn exists(self) -> bool {
        (1..=CLASSES).contains(&self.0)
    }
}

/// The number of a place in the book: 1 for the first.
#[derive(Clone, Copy, Debug, PartialEq, Eq, PartialOrd, Ord)]
pub struct PlaceNo(pub u64);

impl PlaceNo {
    /// Every place of a book, the lowest first.
    pub fn all() -> impl Iterator<Item = Self> {
        (1..=PLACES as u64).map(Self)
    }

    /// The index of a place of a book, the first being 0.
    pub fn index(self) -> usize {
        (self.0 - 1) as usize
    }
}

/// A moment or a span of time, in milliseconds.
#[derive(Clone, Copy, Debug, PartialEq, Eq, PartialOrd, Ord)]
pub struct Millis(pub u64);

impl Add for Millis {
    type Output = Self;

    fn add(self, other: Self) -> Self {
        Self(self.0 + other.0)
    }
}

impl Millis {
    /// The time a span earlier, unless that is before time 0.
    pub fn earlier_by(self, span: Self) -> Option<Self> {
        self.0.checked_sub(span.0).map(Self)
    }
}
