//! Bookings on the plan of cases A to G, with figures worked out by hand.
//!
//! Case A's file consumes 1030 bytes, and contact 2 has a volume of 2500: two
//! bookings of class 1 leave 440 of it, so that a third goes by contacts 1 and
//! 4. For class 2 nothing is booked.

mod common;

use common::on_plan;
use oivarnum::{book_route, release, route, route_booked, walk_booked, Book, Booked};
use oivarnum::{Figures, Plan, Refusal, BOOKED_NUMBERS, BOOK_WORDS, CHAIN};

const CASE_A: [u64; 6] = [1, 3, 0, 1000, 30000, 0];

/// The figures by contacts 1 and 2, with so much room.
fn by_1_and_2(room: u64) -> Figures {
    Figures {
        delivery: 6080,
        opens: 0,
        last_call: 5900,
        room,
    }
}

/// Runs a test on the plan and an empty book.
fn on_empty_book(test: impl FnOnce(Plan, &mut Book)) {
    let mut book = Book {
        book: &mut [0; BOOK_WORDS],
        booked: &mut [0; BOOKED_NUMBERS],
    };
    on_plan(|plan| test(plan, &mut book));
}

/// Books case A's file in a class: the answer, and the chain.
fn book_case_a(plan: Plan, book: &mut Book, class: u64) -> (Booked, Vec<u64>) {
    let mut chain = [0; CHAIN];
    let booked = book_route(plan, book, CASE_A.into(), class, &mut chain).expect("a way is left");
    (booked, chain[..booked.count].to_vec())
}

#[test]
fn an_empty_book_changes_nothing() {
    on_empty_book(|plan, book| {
        let (mut chain, mut chain_booked) = ([0; CHAIN], [0; CHAIN]);
        let routed = route(plan, CASE_A.into(), &mut chain);
        let routed_booked = route_booked(plan, book, CASE_A.into(), 1, &mut chain_booked);
        assert_eq!((routed_booked, chain_booked), (routed, chain));
    });
}

#[test]
fn bookings_take_volume_and_releases_give_it_back() {
    on_empty_book(|plan, book| {
        for (place, room) in [(1, 2427), (2, 1427)] {
            let (booked, chain) = book_case_a(plan, book, 1);
            assert_eq!((booked.figures, booked.place), (by_1_and_2(room), place));
            assert_eq!(chain, [1, 2]);
        }
        let (booked, chain) = book_case_a(plan, book, 1);
        assert_eq!((booked.figures.delivery, booked.place), (13050, 3));
        assert_eq!(chain, [1, 4]);
        let walked = |book: &Book, class| walk_booked(plan, book, CASE_A.into(), class, &[1, 2]);
        assert!(walked(book, 1).is_err());
        assert_eq!(walked(book, 2), Ok(by_1_and_2(2427)));

        assert_eq!(release(plan, book, 1), Ok(()));
        assert_eq!(walked(book, 1), Ok(by_1_and_2(1427)));
        let (booked, chain) = book_case_a(plan, book, 1);
        assert_eq!((booked.figures, booked.place), (by_1_and_2(1427), 1));
        assert_eq!(chain, [1, 2]);
    });
}

#[test]
fn what_is_not_open_is_not_released() {
    on_empty_book(|plan, book| {
        let (booked, _) = book_case_a(plan, book, 3);
        let refused = |number| Refusal { number, place: 0 };
        for place in [0, 2, 257] {
            assert_eq!(release(plan, book, place), Err(refused(26)));
        }
        assert_eq!(release(plan, book, booked.place), Ok(()));
        assert_eq!(release(plan, book, booked.place), Err(refused(26)));
        let routed = route_booked(plan, book, CASE_A.into(), 4, &mut [0; CHAIN]);
        assert_eq!(routed, Err(refused(24)));
    });
}
