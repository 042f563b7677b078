//! A refusal, and the names of the numbers in documents 01 and 02.

/// Why a call refuses: its number, and the place that goes with it.
#[derive(Clone, Copy, Debug, PartialEq, Eq)]
pub struct Refusal {
    pub number: u64,
    pub place: u64,
}

impl Refusal {
    pub const fn new(number: u64, place: u64) -> Self {
        Self { number, place }
    }

    /// A refusal that has no place.
    pub const fn bare(number: u64) -> Self {
        Self::new(number, 0)
    }
}

pub const TEXT_TOO_LONG: u64 = 1;
pub const HEADER: u64 = 2;
pub const LINE_SHAPE: u64 = 3;
pub const VALUE: u64 = 4;
pub const CONTACT_AFTER_RANGE: u64 = 5;
pub const TOO_MANY_ROWS: u64 = 6;
pub const OVERLAP: u64 = 7;
pub const SHORT_TABLES: u64 = 8;
/// Also where the book is not valid, or names a contact that the plan lacks.
pub const NO_VALID_PLAN: u64 = 9;
pub const SHORT_OUTPUT: u64 = 10;
pub const ASK_VALUE: u64 = 11;
pub const SOURCE_IS_DESTINATION: u64 = 12;
pub const NO_ALLOWED_CHAIN: u64 = 13;
pub const NOT_IN_TIME: u64 = 14;
pub const SHORT_CHAIN: u64 = 15;
pub const ASK_SHAPE: u64 = 17;
/// This and the next four are the causes for which a contact of a walked chain
/// is at fault. Their place is its position, counted from 1.
pub const NO_SUCH_CONTACT: u64 = 18;
pub const DOES_NOT_JOIN: u64 = 19;
pub const EXCLUDED_NEIGHBOUR: u64 = 20;
pub const UNRANGED: u64 = 21;
pub const DOES_NOT_FIT: u64 = 22;
/// Also where the chain is empty; the place is the chain's length.
pub const ENDS_ELSEWHERE: u64 = 23;
pub const NO_SUCH_CLASS: u64 = 24;
pub const BOOK_FULL: u64 = 25;
pub const NOT_OPEN: u64 = 26;
