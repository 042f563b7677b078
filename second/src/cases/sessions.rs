//! Sessions: a plan, a book, and steps on them one after the other.

use crate::cases::books;
use crate::cases::draft::Draft;
use crate::cases::lent::{Lent, LentBook};
use crate::cases::plans::{self, LARGE, SMALL};
use crate::cases::steps::{self, Mix, Step, FILLING, MIXED};
use crate::cases::tables::Tables;
use crate::random::Random;

/// What is lent to the first step, and all steps.
pub struct Session {
    pub name: &'static str,
    pub draft: Draft,
    pub lent: Lent,
    pub steps: Vec<Step>,
}

/// The session of a seed with a number, counted from 0: its kinds in turn.
pub fn session(seed: u64, number: u64, count: usize) -> Session {
    let random = &mut Random::for_case(seed, number);
    KINDS[number as usize % KINDS.len()](random, count)
}

const KINDS: [fn(&mut Random, usize) -> Session; 4] = [from_empty, from_any, filling, large];

/// A small plan, at first without a booking.
pub fn from_empty(random: &mut Random, count: usize) -> Session {
    let (name, draft) = small(random);
    let book = LentBook::empty(random);
    Session::of(random, name, draft, book, count, &MIXED)
}

/// A small plan with a book of any family.
pub fn from_any(random: &mut Random, count: usize) -> Session {
    let (name, draft) = small(random);
    let family = random.pick(&books::FAMILIES);
    let book = books::of_family(&family, random, &draft);
    Session::of(random, name, draft, book, count, &MIXED)
}

/// A roomy plan, at first without a booking, and small files: of 400 steps
/// some find the book full.
pub fn filling(random: &mut Random, count: usize) -> Session {
    let roomy = [plans::figures_plan, plans::case_h, plans::case_i];
    let draft = random.pick(&roomy)();
    let book = LentBook::empty(random);
    Session::of(random, "filling", draft, book, count, &FILLING)
}

/// A large plan with a book of any family.
pub fn large(random: &mut Random, count: usize) -> Session {
    let (name, family) = random.pick(&LARGE);
    let draft = family(random);
    let family = random.pick(&books::FAMILIES);
    let book = books::of_family(&family, random, &draft);
    Session::of(random, name, draft, book, count, &MIXED)
}

fn small(random: &mut Random) -> (&'static str, Draft) {
    let (name, family) = random.pick(&SMALL);
    (name, family(random))
}

impl Session {
    fn of(
        random: &mut Random,
        name: &'static str,
        draft: Draft,
        book: LentBook,
        count: usize,
        mix: &Mix,
    ) -> Self {
        let tables = Tables::of(random, &draft);
        let lent = Lent { tables, book };
        let steps = steps::some(random, &draft, &lent, count, mix);
        Self {
            name,
            draft,
            lent,
            steps,
        }
    }
}

#[cfg(test)]
mod tests {
    use std::collections::BTreeSet;

    use super::{filling, session, Session, Step, KINDS};
    use crate::faults::CAUSES;
    use crate::random::Random;
    use crate::refusal::{Refusal, BOOK_FULL, ENDS_ELSEWHERE};
    use crate::units::LONGEST_BEST;

    #[test]
    fn a_seed_gives_the_same_session_again() {
        for number in 0..2 * KINDS.len() as u64 {
            let (one, other) = (session(7, number, 25), session(7, number, 25));
            assert_eq!(one.steps, other.steps);
            assert_eq!(one.lent.book, other.lent.book);
            assert_eq!(one.draft.text(), other.draft.text());
        }
    }

    /// Takes a session's steps; the refusals of its bookings, and of its walks
    /// with the length of the chain.
    fn refusals(session: Session) -> (Vec<Refusal>, Vec<(Refusal, u64)>) {
        let mut lent = session.lent;
        let (mut of_bookings, mut of_walks) = (Vec::new(), Vec::new());
        for step in session.steps {
            match step {
                Step::Book { ask, class } => {
                    let booked = lent.book(ask, class, &mut [0; LONGEST_BEST]);
                    of_bookings.extend(booked.err());
                }
                Step::Walk { ask, class, chain } => {
                    let walked = lent.walk(ask, class, &chain).err();
                    of_walks.extend(walked.map(|refusal| (refusal, chain.len() as u64)));
                }
                Step::Release { place } => drop(lent.release(place)),
                Step::Ask { .. } => {}
            }
        }
        (of_bookings, of_walks)
    }

    #[test]
    fn a_filling_session_finds_the_book_full() {
        let session = filling(&mut Random::for_case(1, 1), 400);
        let (of_bookings, _) = refusals(session);
        assert!(of_bookings.contains(&Refusal::bare(BOOK_FULL)));
    }

    #[test]
    fn walks_of_sessions_meet_every_cause() {
        let all = (0..400).flat_map(|number| refusals(session(7, number, 40)).1);
        let met: BTreeSet<(u64, bool, bool)> = all
            .map(|(Refusal { number, place }, length)| (number, place <= 1, place == length))
            .collect();
        for cause in CAUSES {
            for (is_first, is_last) in [(true, false), (false, false), (false, true)] {
                assert!(met.contains(&(cause, is_first, is_last)), "{cause}");
            }
        }
        assert!(met.contains(&(ENDS_ELSEWHERE, true, true)));
        assert!(met.contains(&(ENDS_ELSEWHERE, false, true)));
    }
}
