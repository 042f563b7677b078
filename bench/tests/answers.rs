//! On each input the second program's three modes and the archive give what
//! the second program's own call gives. No times.

use bench::archive;
use bench::inputs::{full_book, growth, plans, Input, SIZES};
use second::calls::Routed;
use second::modes::{pairwise, sorted, Kept};
use second::units::LONGEST_BEST;
use second::{route_booked, Ask, Refusal};

/// An answer, and the chain that was filled.
type Answer = (Result<Routed, Refusal>, [u64; LONGEST_BEST]);

fn answer(route: impl FnOnce(&mut [u64]) -> Result<Routed, Refusal>) -> Answer {
    let mut chain = [0; LONGEST_BEST];
    (route(&mut chain), chain)
}

/// What the second program's own call gives.
fn wanted(input: &Input, ask: Ask) -> Answer {
    let lent = input.lent();
    answer(|chain| {
        route_booked(
            lent.contacts,
            lent.contact_count,
            lent.ranges,
            lent.range_count,
            lent.book,
            lent.booked,
            ask,
            Input::CLASS,
            chain,
        )
    })
}

#[test]
fn the_modes_give_what_route_gives() {
    let inputs = plans().into_iter().chain(growth()).chain([full_book()]);
    for input in inputs {
        let lent = input.lent();
        let kept = Kept::of(lent, Input::CLASS).expect("a valid plan");
        for &ask in &input.asks {
            let found = [
                answer(|chain| kept.route(ask, chain)),
                answer(|chain| sorted(lent, ask, Input::CLASS, chain)),
                answer(|chain| pairwise(lent, ask, Input::CLASS, chain)),
            ];
            assert_eq!(found, [wanted(&input, ask); 3], "{}: {ask:?}", input.title);
        }
    }
}

#[test]
fn the_archive_gives_what_route_gives() {
    for input in plans().into_iter().chain(growth()) {
        for ask in &input.asks {
            let found = answer(|chain| archive::route(&input, ask, chain));
            assert_eq!(found, wanted(&input, *ask), "{}: {ask:?}", input.title);
        }
    }
}

#[test]
fn each_ask_has_a_route() {
    for input in plans() {
        for ask in &input.asks {
            let (found, _) = wanted(&input, *ask);
            let count = found.map(|routed| routed.count);
            match input.name.as_str() {
                "line" | "layers" => assert_eq!(count, Ok(63)),
                _ => assert!(count.is_ok(), "{}: {ask:?}", input.title),
            }
        }
    }
}

#[test]
fn growth_is_answered_by_one_of_the_first_contacts() {
    for input in growth() {
        for ask in &input.asks {
            let (found, chain) = wanted(&input, *ask);
            assert_eq!(found.map(|routed| routed.count), Ok(1));
            assert!(chain[0] <= SIZES[0] as u64, "{}: {ask:?}", input.title);
        }
    }
}
