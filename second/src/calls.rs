//! The calls on a plan: `walk` and `route`, on an empty book and on a lent one,
//! and those that change the book. Each judges its refusals in their order
//! and changes nothing before the last of them.

// A call is lent each slice and each count by itself, as the proved ones are.
#![allow(clippy::too_many_arguments)]

use crate::ask::Ask;
use crate::book::{self, Book};
use crate::plan::Plan;
use crate::refusal::{Refusal, BOOK_FULL, NOT_OPEN, SHORT_CHAIN};
use crate::route::Network;
use crate::router::{Best, Router};
use crate::timing::{consumption, figures, Figures, Links};
use crate::units::{Class, ContactNo, PlaceNo, LONGEST_BEST};

/// What `route` answers beside the chain it fills.
#[derive(Clone, Copy, Debug, PartialEq, Eq)]
pub struct Routed {
    pub figures: Figures,
    pub count: u64,
}

/// The figures of a given chain of contact numbers.
pub fn walk(
    contacts: &[u64],
    contact_count: u64,
    ranges: &[u64],
    range_count: u64,
    ask: Ask,
    chain: &[u64],
) -> Result<Figures, Refusal> {
    let plan = Plan::of_tables(contacts, contact_count, ranges, range_count)?;
    walked(&plan, &Book::default(), ask, Class::LOWEST.0, chain)
}

/// Finds the best chain for an ask and fills it into the lent places.
pub fn route(
    contacts: &[u64],
    contact_count: u64,
    ranges: &[u64],
    range_count: u64,
    ask: Ask,
    chain: &mut [u64],
) -> Result<Routed, Refusal> {
    has_places(chain)?;
    let plan = Plan::of_tables(contacts, contact_count, ranges, range_count)?;
    let found = find(&plan, &Book::default(), ask, Class::LOWEST.0)?;
    Ok(fill(chain, &found.best))
}

/// The figures of a given chain for an ask of a class, on a lent book.
pub fn walk_booked(
    contacts: &[u64],
    contact_count: u64,
    ranges: &[u64],
    range_count: u64,
    book: &[u64],
    booked: &[u16],
    ask: Ask,
    class: u64,
    chain: &[u64],
) -> Result<Figures, Refusal> {
    let plan = Plan::of_tables(contacts, contact_count, ranges, range_count)?;
    let book = Book::of_lent(book, booked, &plan)?;
    walked(&plan, &book, ask, class, chain)
}

/// Finds the best chain for an ask of a class, on a lent book, and fills it
/// into the lent places.
pub fn route_booked(
    contacts: &[u64],
    contact_count: u64,
    ranges: &[u64],
    range_count: u64,
    book: &[u64],
    booked: &[u16],
    ask: Ask,
    class: u64,
    chain: &mut [u64],
) -> Result<Routed, Refusal> {
    has_places(chain)?;
    let plan = Plan::of_tables(contacts, contact_count, ranges, range_count)?;
    let book = Book::of_lent(book, booked, &plan)?;
    let found = find(&plan, &book, ask, class)?;
    Ok(fill(chain, &found.best))
}

/// Finds the best chain as `route_booked` does, fills it into the lent places
/// and books it in the lowest free place; that place beside route's answer.
pub fn book_route(
    contacts: &[u64],
    contact_count: u64,
    ranges: &[u64],
    range_count: u64,
    book: &mut [u64],
    booked: &mut [u16],
    ask: Ask,
    class: u64,
    chain: &mut [u64],
) -> Result<(Routed, u64), Refusal> {
    has_places(chain)?;
    let plan = Plan::of_tables(contacts, contact_count, ranges, range_count)?;
    let before = Book::of_lent(book, booked, &plan)?;
    let Found {
        best,
        class,
        consumption,
    } = find(&plan, &before, ask, class)?;
    let place = before.lowest_free().ok_or(Refusal::bare(BOOK_FULL))?;
    book::open(book, booked, place, class, consumption, &best.chain);
    Ok((fill(chain, &best), place.0))
}

/// Frees the place of an open booking.
pub fn release(
    contacts: &[u64],
    contact_count: u64,
    ranges: &[u64],
    range_count: u64,
    book: &mut [u64],
    booked: &[u16],
    place: u64,
) -> Result<(), Refusal> {
    let plan = Plan::of_tables(contacts, contact_count, ranges, range_count)?;
    let before = Book::of_lent(book, booked, &plan)?;
    let place = PlaceNo(place);
    if !before.is_open(place) {
        return Err(Refusal::bare(NOT_OPEN));
    }
    book::free(book, place);
    Ok(())
}

/// Refusal 15 where a lent chain has too few places.
pub(crate) fn has_places(chain: &[u64]) -> Result<(), Refusal> {
    if chain.len() < LONGEST_BEST {
        return Err(Refusal::bare(SHORT_CHAIN));
    }
    Ok(())
}

/// The figures of a chain on a plan with its book.
fn walked(
    plan: &Plan,
    book: &Book,
    ask: Ask,
    class: u64,
    chain: &[u64],
) -> Result<Figures, Refusal> {
    let (ask, class) = ask.check_in(class)?;
    let links = Links::booked(plan, book, class);
    let numbers = chain.iter().map(|&number| ContactNo(number));
    figures(&links, &ask, numbers)
}

/// The best chain of an ask, and what a booking of it would take.
struct Found {
    best: Best,
    class: Class,
    consumption: u64,
}

/// The best chain on a plan with its book, or refusal 11, 24, 12, 13 or 14.
fn find(plan: &Plan, book: &Book, ask: Ask, class: u64) -> Result<Found, Refusal> {
    let (ask, class) = ask.check_in(class)?;
    let best = Network::booked(plan, book, class).best(&ask)?;
    Ok(Found {
        best,
        class,
        consumption: consumption(ask.size),
    })
}

/// Fills the best chain into the first of the lent places.
pub(crate) fn fill(chain: &mut [u64], best: &Best) -> Routed {
    for (place, number) in chain.iter_mut().zip(&best.chain) {
        *place = number.0;
    }
    Routed {
        figures: best.figures,
        count: best.chain.len() as u64,
    }
}
