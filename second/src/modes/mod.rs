//! `route_booked` in three modes, for `bench/` to hold times against: they
//! differ in when and how plan and book are checked, and each gives what
//! [`route_booked`](crate::route_booked) gives.
//!
//! [`Kept`] checks once, and an ask only searches. [`sorted`] and [`pairwise`]
//! check at each ask: rows are sorted and neighbours compared, or each row is
//! compared with each. They go straight from the lent words to a [`search`]
//! for the one ask, and keep nothing.

mod check;
mod search;
#[cfg(test)]
mod tests;

use crate::ask::Ask;
use crate::book::Book;
use crate::calls::{fill, has_places, Routed};
use crate::plain::book_is_valid;
use crate::plan::{Plan, Row};
use crate::refusal::{Refusal, NO_VALID_PLAN};
use crate::route::Network;
use crate::router::Router;
use crate::units::Class;

use check::Lights;
use search::Search;

/// The plan and the book that are lent to a call.
#[derive(Clone, Copy)]
pub struct Lent<'a> {
    pub contacts: &'a [u64],
    pub contact_count: u64,
    pub ranges: &'a [u64],
    pub range_count: u64,
    pub book: &'a [u64],
    pub booked: &'a [u16],
}

/// A plan with its book, checked once, for asks of a class.
pub struct Kept {
    network: Network,
    class: u64,
}

impl Kept {
    pub fn of(lent: Lent, class: u64) -> Result<Self, Refusal> {
        let counts = (lent.contact_count, lent.range_count);
        let plan = Plan::of_tables(lent.contacts, counts.0, lent.ranges, counts.1)?;
        let book = Book::of_lent(lent.book, lent.booked, &plan)?;
        let network = Network::booked(&plan, &book, Class(class));
        Ok(Self { network, class })
    }

    pub fn route(&self, ask: Ask, chain: &mut [u64]) -> Result<Routed, Refusal> {
        has_places(chain)?;
        let (ask, _) = ask.check_in(self.class)?;
        Ok(fill(chain, &self.network.best(&ask)?))
    }
}

/// The route where the plan is checked with a sort.
pub fn sorted(lent: Lent, ask: Ask, class: u64, chain: &mut [u64]) -> Result<Routed, Refusal> {
    checked(lent, check::by_sort, ask, class, chain)
}

/// The route where each row of the plan is compared with each.
pub fn pairwise(lent: Lent, ask: Ask, class: u64, chain: &mut [u64]) -> Result<Routed, Refusal> {
    checked(lent, check::by_pairs, ask, class, chain)
}

/// The route after a check that gives the light times of a valid plan.
fn checked(
    lent: Lent,
    check: impl Fn(&[Row], &[Row]) -> Option<Lights>,
    ask: Ask,
    class: u64,
    chain: &mut [u64],
) -> Result<Routed, Refusal> {
    has_places(chain)?;
    let no_plan = Refusal::bare(NO_VALID_PLAN);
    let contacts = check::rows(lent.contacts, lent.contact_count).ok_or(no_plan)?;
    let ranges = check::rows(lent.ranges, lent.range_count).ok_or(no_plan)?;
    let lights = check(contacts, ranges).ok_or(no_plan)?;
    if !book_is_valid(lent.book, lent.booked, lent.contact_count) {
        return Err(no_plan);
    }
    let (ask, class) = ask.check_in(class)?;
    let left = check::left(contacts, &lent, class);
    let best = Search::new(contacts, &lights, &left, ask).best()?;
    Ok(fill(chain, &best))
}
