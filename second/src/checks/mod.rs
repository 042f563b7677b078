//! The checks of the second program against itself and against documents 01
//! and 02.

pub mod book_refusals;
pub mod booked_figures;
pub mod booked_routes;
pub mod booked_walks;
pub mod causes;
pub mod figures;
pub mod history;
pub mod lights;
pub mod routes;
pub mod sessions;
pub mod tables;
pub mod tally;
pub mod texts;
pub mod walks;

use crate::random::Random;
use tally::Tally;

/// Every kind of case that the checks must meet.
pub fn kinds() -> Vec<String> {
    [
        lights::kinds(),
        causes::kinds(walks::CALL),
        causes::kinds(booked_walks::CALL),
        causes::kinds_of_fit(booked_walks::FOR_BOOKINGS),
    ]
    .concat()
}

/// Makes every check; those on random cases so many times.
pub fn all(seed: u64, rounds: u64, tally: &mut Tally) {
    figures::check(tally);
    booked_figures::check(tally);
    walks::check_long_chains(tally);
    for round in 0..rounds {
        let random = &mut Random::for_case(seed, round);
        lights::check_small(random, tally);
        routes::check_small(random, tally);
        routes::check_limits_of_call(random, tally);
        walks::check(random, tally);
        texts::check_damaged(random, round, tally);
        tables::check(random, tally);
        if round.is_multiple_of(5) {
            lights::check_large(random, round / 5, tally);
            routes::check_large(random, round / 5, tally);
            texts::check_round_trip(random, round / 5, tally);
        }
        check_books(random, round, tally);
        tally.show_progress(round + 1, rounds);
    }
}

/// The checks of a round that lend a book.
fn check_books(random: &mut Random, round: u64, tally: &mut Tally) {
    booked_routes::check_small(random, tally);
    booked_walks::check(random, tally);
    booked_walks::check_empty(random, tally);
    book_refusals::check(random, tally);
    sessions::check(random, tally);
    if round.is_multiple_of(5) {
        booked_routes::check_large(random, round / 5, tally);
    }
    if round.is_multiple_of(20) {
        sessions::check_full(random, tally);
    }
}

#[cfg(test)]
mod tests {
    use super::{all, kinds, tally::Tally};

    #[test]
    fn all_checks_hold() {
        let mut tally = Tally::default();
        all(1, 60, &mut tally);
        assert_eq!(tally.differences(), 0);
        assert_eq!(tally.never_met(kinds()), Vec::<String>::new());
    }
}
