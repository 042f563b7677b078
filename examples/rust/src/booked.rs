//! The functions over a plan with its book: [`walk_booked`], [`route_booked`],
//! [`book_route`] and [`release`].

use crate::{answered, figures, lent, Ask, Figures, Plan, Refusal, CHAIN};

/// The places of a book.
pub const PLACES: usize = 256;
/// The words that a book must be lent: mark, class, consumption and count of
/// each place.
pub const BOOK_WORDS: usize = PLACES * 4;
/// The contact numbers that a book must be lent.
pub const BOOKED_NUMBERS: usize = PLACES * CHAIN;

/// A book in two lent slices; one of zeros is empty.
pub struct Book<'a> {
    pub book: &'a mut [u64],
    pub booked: &'a mut [u16],
}

/// A route that is booked, and where.
#[derive(Clone, Copy, Debug, PartialEq, Eq)]
pub struct Booked {
    pub figures: Figures,
    /// How many contacts the chain has.
    pub count: usize,
    /// The place in the book, counted from 1.
    pub place: u64,
}

/// The figures of a given chain of contact numbers, for an ask of a class.
pub fn walk_booked(
    plan: Plan,
    book: &Book,
    ask: Ask,
    class: u64,
    chain: &[u64],
) -> Result<Figures, Refusal> {
    let Book { book, booked } = book;
    let answer =
        answered(|answer| lent::walk_booked(plan, book, booked, ask, class, chain, answer))?;
    Ok(figures(&answer))
}

/// The best chain for an ask of a class, in the first places of the lent
/// chain; its figures and how many contacts it has.
pub fn route_booked(
    plan: Plan,
    book: &Book,
    ask: Ask,
    class: u64,
    chain: &mut [u64],
) -> Result<(Figures, usize), Refusal> {
    let Book { book, booked } = book;
    let answer =
        answered(|answer| lent::route_booked(plan, book, booked, ask, class, chain, answer))?;
    Ok((figures(&answer), answer[6] as usize))
}

/// Finds the best chain as [`route_booked`] does and books it in the lowest
/// free place; the figures are those on the book before.
pub fn book_route(
    plan: Plan,
    book: &mut Book,
    ask: Ask,
    class: u64,
    chain: &mut [u64],
) -> Result<Booked, Refusal> {
    let Book { book, booked } = book;
    let answer =
        answered(|answer| lent::book_route(plan, book, booked, ask, class, chain, answer))?;
    Ok(Booked {
        figures: figures(&answer),
        count: answer[6] as usize,
        place: answer[7],
    })
}

/// Frees the place of a booking, and what it took.
pub fn release(plan: Plan, book: &mut Book, place: u64) -> Result<(), Refusal> {
    let Book { book, booked } = book;
    answered(|answer| lent::release(plan, book, booked, place, answer))?;
    Ok(())
}
