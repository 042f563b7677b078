//! Bookings on the plan of cases A to G, with figures worked out by hand.
//!
//! Case A's file consumes 1030 bytes. Contact 1 has a volume of 10,000, contact
//! 2 of 2500 and contact 4 of 18,000. Two bookings of class 1 by contacts 1 and
//! 2 leave 440 of contact 2, so a third goes by 1 and 4. For class 2 nothing is
//! booked yet: it goes by 1 and 2 again, and leaves 590 less than nothing of
//! contact 2 for class 1.

use crate::ask::Ask;
use crate::cases::lent::{Lent, LentBook};
use crate::cases::plans::figures_plan;
use crate::cases::tables::Tables;
use crate::checks::tally::Tally;
use crate::random::Random;
use crate::refusal::{Refusal, DOES_NOT_FIT};
use crate::units::LONGEST_BEST;

const WHAT: &str = "figures of bookings, by hand";

const ASK_A: Ask = Ask {
    source: 1,
    destination: 3,
    time: 0,
    size: 1000,
    deadline: 30000,
    excluded: 0,
};

/// A booking of case A's file: its class, what is answered (delivery, opens,
/// last call and room), the chain and the place.
type Booked = (u64, [u64; 4], [u64; 2], u64);

pub fn check(tally: &mut Tally) {
    let random = &mut Random::new(1);
    let draft = figures_plan();
    let mut lent = Lent {
        tables: Tables::of(random, &draft),
        book: LentBook::empty(random),
    };
    book_all(
        &mut lent,
        &[
            (1, [6080, 0, 5900, 2427], [1, 2], 1),
            (1, [6080, 0, 5900, 1427], [1, 2], 2),
            (1, [13050, 0, 8970, 7708], [1, 4], 3),
            (2, [6080, 0, 5900, 2427], [1, 2], 4),
        ],
        tally,
    );
    let at_contact_2 = Refusal::new(DOES_NOT_FIT, 2);
    walk_short_way(&lent, 1, Err(at_contact_2), tally);
    walk_short_way(&lent, 2, Ok(1427), tally);
    walk_short_way(&lent, 3, Ok(2427), tally);
    let left = [1, 2, 3].map(|class| lent.book.left(&draft, 2, class));
    tally.same(WHAT, left, [-590, 1470, 2500], || "contact 2".into());
    for (place, wanted) in [(1, Ok(())), (1, Err(26)), (5, Err(26)), (0, Err(26))] {
        let released = lent.release(place).map_err(|refusal| refusal.number);
        tally.same(WHAT, released, wanted, || format!("release {place}"));
    }
    book_all(
        &mut lent,
        &[
            (1, [13050, 0, 8970, 6708], [1, 4], 1),
            (3, [6080, 0, 5900, 2427], [1, 2], 5),
        ],
        tally,
    );
}

fn book_all(lent: &mut Lent, wanted: &[Booked], tally: &mut Tally) {
    for &(class, figures, contacts, place) in wanted {
        let mut chain = [0; LONGEST_BEST];
        let booked = lent.book(ASK_A, class, &mut chain);
        let found = booked.map(|(routed, place)| {
            let figures = routed.figures;
            let figures = [
                figures.delivery,
                figures.opens,
                figures.last_call,
                figures.room,
            ];
            (figures, chain[..routed.count as usize].to_vec(), place)
        });
        let wanted: Result<_, Refusal> = Ok((figures, contacts.to_vec(), place));
        tally.same(WHAT, found, wanted, || {
            format!("class {class}, place {place}")
        });
    }
}

/// Walks contacts 1 and 2: the room, or the refusal.
fn walk_short_way(lent: &Lent, class: u64, wanted: Result<u64, Refusal>, tally: &mut Tally) {
    let walked = lent.walk(ASK_A, class, &[1, 2]);
    let found = walked.map(|figures| figures.room);
    tally.same(WHAT, found, wanted, || format!("walk in class {class}"));
}
