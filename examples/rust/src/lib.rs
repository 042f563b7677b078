//! The proved contact-plan router for Rust: [`read`], [`write`], [`walk`] and
//! [`route`] as safe functions over lent slices, and with a book of bookings
//! [`walk_booked`], [`route_booked`], [`book_route`] and [`release`]. They stand
//! on [`lent`], which gives back number and answer as the archive does.
//!
//! A table is flat words, five a row: start, end, from, to and rate of a
//! contact; start, end, a, b and light time of a range. [`ROWS`] rows and
//! [`CHAIN`] places are always enough, and [`TEXT`] bytes hold any plan's text.

mod booked;
pub mod lent;
pub mod raw;

pub use booked::{book_route, release, route_booked, walk_booked};
pub use booked::{Book, Booked, BOOKED_NUMBERS, BOOK_WORDS, PLACES};

use raw::BOOKED_WORDS;

/// The words of a row.
pub const WORDS: usize = 5;
/// The most rows of a plan's table.
pub const ROWS: usize = 512;
/// The places that `route` must be lent.
pub const CHAIN: usize = 63;
/// The longest text of a plan, in bytes.
pub const TEXT: usize = 46_087;

/// Why a call refuses: a number, and the place that goes with it.
#[derive(Clone, Copy, Debug, PartialEq, Eq)]
pub struct Refusal {
    pub number: u64,
    pub place: u64,
}

/// A plan in the first rows of two lent tables.
#[derive(Clone, Copy)]
pub struct Plan<'a> {
    pub contacts: &'a [u64],
    pub contact_count: usize,
    pub ranges: &'a [u64],
    pub range_count: usize,
}

/// Who asks for what: nodes, milliseconds, bytes, and excluded neighbours.
#[derive(Clone, Copy, Debug)]
pub struct Ask {
    pub source: u64,
    pub destination: u64,
    pub time: u64,
    pub size: u64,
    pub deadline: u64,
    pub excluded: u64,
}

/// The ask of six numbers in the order of its fields.
impl From<[u64; 6]> for Ask {
    fn from([source, destination, time, size, deadline, excluded]: [u64; 6]) -> Self {
        Self {
            source,
            destination,
            time,
            size,
            deadline,
            excluded,
        }
    }
}

/// What is said of an allowed chain in time.
#[derive(Clone, Copy, Debug, PartialEq, Eq)]
pub struct Figures {
    pub delivery: u64,
    pub opens: u64,
    pub last_call: u64,
    pub room: u64,
}

/// Words enough for every function.
type Answer = [u64; BOOKED_WORDS];

/// Runs a call on an answer; the answer if the call did not refuse.
fn answered(call: impl FnOnce(&mut Answer) -> u64) -> Result<Answer, Refusal> {
    let mut answer = [0; BOOKED_WORDS];
    match call(&mut answer) {
        0 => Ok(answer),
        number => Err(Refusal {
            number,
            place: answer[1],
        }),
    }
}

fn figures(answer: &Answer) -> Figures {
    Figures {
        delivery: answer[2],
        opens: answer[3],
        last_call: answer[4],
        room: answer[5],
    }
}

/// Reads a plan's text into two lent tables; the counts of contacts and ranges.
pub fn read(
    text: &[u8],
    contacts: &mut [u64],
    ranges: &mut [u64],
) -> Result<(usize, usize), Refusal> {
    let answer = answered(|answer| lent::read(text, contacts, ranges, answer))?;
    Ok((answer[2] as usize, answer[3] as usize))
}

/// Writes a plan's text into lent bytes; its length.
pub fn write(plan: Plan, out: &mut [u8]) -> Result<usize, Refusal> {
    let answer = answered(|answer| lent::write(plan, out, answer))?;
    Ok(answer[2] as usize)
}

/// The figures of a given chain of contact numbers.
pub fn walk(plan: Plan, ask: Ask, chain: &[u64]) -> Result<Figures, Refusal> {
    let answer = answered(|answer| lent::walk(plan, ask, chain, answer))?;
    Ok(figures(&answer))
}

/// The best chain for an ask, in the first places of the lent chain; its
/// figures and how many contacts it has.
pub fn route(plan: Plan, ask: Ask, chain: &mut [u64]) -> Result<(Figures, usize), Refusal> {
    let answer = answered(|answer| lent::route(plan, ask, chain, answer))?;
    Ok((figures(&answer), answer[6] as usize))
}
