//! The modes on random plans with their books, good and damaged: what
//! `route_booked` gives.

use super::{check, pairwise, sorted, Kept, Lent};
use crate::calls::Routed;
use crate::cases::books::{self, FAMILIES};
use crate::cases::draft::Draft;
use crate::cases::plans::{LARGE, SMALL};
use crate::cases::tables::Tables;
use crate::cases::{asks, lent};
use crate::random::Random;
use crate::refusal::Refusal;
use crate::units::LONGEST_BEST;

type Answer = (Result<Routed, Refusal>, Vec<u64>);

/// An answer and what stands in the lent places.
fn answer(places: usize, route: impl FnOnce(&mut [u64]) -> Result<Routed, Refusal>) -> Answer {
    let mut chain = vec![7; places];
    (route(&mut chain), chain)
}

/// A plan with its book, and what is to be compared of it.
fn case(random: &mut Random, draft: &Draft) -> lent::Lent {
    let family = random.pick(&FAMILIES);
    let mut tables = Tables::of(random, draft);
    if random.percent(10) {
        tables.damage(random);
    }
    let book = books::of_family(&family, random, draft);
    lent::Lent { tables, book }
}

/// Compares the modes on an ask of any kind.
fn compare(random: &mut Random, draft: &Draft, all: &lent::Lent) {
    let class = match random.below(20) {
        0 => books::class_at_limits(random),
        _ => books::class(random),
    };
    let mut ask = books::ask(random, draft, &all.book, class);
    if random.percent(10) {
        ask = asks::at_limits(random, &ask);
    }
    let places = LONGEST_BEST - usize::from(random.percent(5)) + random.index(2);
    let lent = Lent {
        contacts: &all.tables.contacts,
        contact_count: all.tables.contact_count,
        ranges: &all.tables.ranges,
        range_count: all.tables.range_count,
        book: &all.book.words,
        booked: &all.book.numbers,
    };
    let wanted = answer(places, |chain| all.route(ask, class, chain));
    let by_sort = answer(places, |chain| sorted(lent, ask, class, chain));
    let by_pairs = answer(places, |chain| pairwise(lent, ask, class, chain));
    assert_eq!([&by_sort, &by_pairs], [&wanted; 2], "{ask:?}");
    if let Ok(kept) = Kept::of(lent, class) {
        assert_eq!(answer(places, |chain| kept.route(ask, chain)), wanted);
    }
}

/// Whether light times are those that the plan tells.
fn has_the_same_lights(draft: &Draft) -> bool {
    let plan = draft.plan();
    let lights = check::by_sort(&draft.contacts, &draft.ranges).expect("a valid plan");
    let mut rows = plan.contacts().iter().zip(lights);
    rows.all(|(contact, light)| plan.light(contact).map(|light| light.0) == light)
}

#[test]
fn the_modes_give_what_route_booked_gives() {
    let random = &mut Random::new(1);
    for round in 0..40 {
        for (_, family) in SMALL.iter().chain(&LARGE[round % 2..]) {
            let draft = family(random);
            assert!(has_the_same_lights(&draft));
            let all = case(random, &draft);
            (0..5).for_each(|_| compare(random, &draft, &all));
        }
    }
}
