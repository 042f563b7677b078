//! Sessions of bookings and releases from an empty book. Every answer is held
//! against all chains, where what is left of a contact and which places are
//! open is counted from the history.

use std::fmt::Debug;

use crate::ask::Ask;
use crate::book::Book;
use crate::calls::Routed;
use crate::cases::lent::Lent;
use crate::cases::sessions::{filling, from_empty, Session};
use crate::cases::steps::Step;
use crate::checks::history::{Event, History, Made};
use crate::checks::tally::Tally;
use crate::definitions::consumption;
use crate::plain::volume;
use crate::random::Random;
use crate::refusal::{Refusal, BOOK_FULL, NOT_OPEN};
use crate::timing::Figures;
use crate::units::{Class, LONGEST_BEST};

const STEPS: usize = 40;
/// Enough to find the book full.
const STEPS_TO_FULL: usize = 420;
/// What lent places hold before a call.
const UNTOUCHED: u64 = 0xdead_beef;

/// Steps on a small plan, many of which release what was booked.
pub fn check(random: &mut Random, tally: &mut Tally) {
    run(from_empty(random, STEPS), tally);
}

/// Steps that book small files until the book is full, and go on.
pub fn check_full(random: &mut Random, tally: &mut Tally) {
    run(filling(random, STEPS_TO_FULL), tally);
}

fn run(session: Session, tally: &mut Tally) {
    let mut course = Course {
        history: History::of(&session.draft),
        name: session.name,
        lent: session.lent,
        tally,
    };
    for step in session.steps {
        match step {
            Step::Ask { ask, class } => course.ask(ask, class),
            Step::Walk { ask, class, chain } => course.walk(ask, class, &chain),
            Step::Book { ask, class } => course.book(ask, class),
            Step::Release { place } => course.release(place),
        }
    }
}

/// A session under way: what happened, and what is lent.
struct Course<'a> {
    history: History<'a>,
    name: &'static str,
    lent: Lent,
    tally: &'a mut Tally,
}

impl Course<'_> {
    fn ask(&mut self, ask: Ask, class: u64) {
        let mut places = [UNTOUCHED; LONGEST_BEST];
        let routed = self.lent.route(ask, class, &mut places);
        let found = (routed, places);
        let wanted = match self.history.best(ask, class) {
            Ok((figures, contacts)) => (Ok(routed_by(figures, &contacts)), filled(&contacts)),
            Err(refusal) => (Err(refusal), filled(&[])),
        };
        self.same("history, ask", found, wanted, &(ask, class));
    }

    fn walk(&mut self, ask: Ask, class: u64, chain: &[u64]) {
        let found = self.lent.walk(ask, class, chain);
        let wanted = self.history.figures(ask, class, chain);
        self.same("history, walk", found, wanted, &(ask, class, chain));
    }

    /// A booking must take the lowest place that is free by the history.
    fn book(&mut self, ask: Ask, class: u64) {
        let best = self.history.best(ask, class);
        let free = self.history.lowest_free();
        let mut book = self.lent.book.clone();
        let mut booked = Vec::new();
        let (what, wanted) = match (best, free) {
            (Ok((figures, contacts)), Some(place)) => {
                book.open(place as usize - 1, class, consumption(ask.size), &contacts);
                let answer = (routed_by(figures, &contacts), place);
                booked = contacts;
                ("history, booking made", Ok(answer))
            }
            (Ok(_), None) => {
                let full = Refusal::bare(BOOK_FULL);
                ("history, booking in a full book", Err(full))
            }
            (Err(refusal), _) => ("history, booking refused", Err(refusal)),
        };
        let mut places = [UNTOUCHED; LONGEST_BEST];
        let found = self.lent.book(ask, class, &mut places);
        let found = (found, places, self.lent.book.clone());
        self.same(what, found, (wanted, filled(&booked), book), &(ask, class));
        if let Ok((_, place)) = wanted {
            self.history.events.push(Event::Booked(Made {
                place,
                class,
                consumption: consumption(ask.size),
                contacts: booked.clone(),
            }));
            self.compare_left();
            self.holds(&booked, class);
        }
    }

    fn release(&mut self, place: u64) {
        let mut book = self.lent.book.clone();
        let is_open = self.history.is_open(place);
        let (what, wanted) = if is_open {
            book.free(place as usize - 1);
            self.history.events.push(Event::Released(place));
            ("history, release", Ok(()))
        } else {
            let not_open = Refusal::bare(NOT_OPEN);
            ("history, release of what is not open", Err(not_open))
        };
        let released = self.lent.release(place);
        let found = (released, self.lent.book.clone());
        self.same(what, found, (wanted, book), &place);
        if is_open {
            self.compare_left();
        }
    }

    /// What the book leaves in every class is what the history does.
    fn compare_left(&mut self) {
        let (plan, book) = (&self.history.plan, &self.lent.book);
        let book = Book::of_lent(&book.words, &book.numbers, plan);
        let found = book.map(|book| {
            [1, 2, 3].map(|class| {
                let left = book.left(plan, Class(class)).into_iter();
                left.map(i128::from).collect::<Vec<i128>>()
            })
        });
        let wanted = Ok([1, 2, 3].map(|class| self.history.left(class)));
        self.same("history, what is left", found, wanted, &"all classes");
    }

    /// Right after a booking in a class, the bookings in it and in higher ones
    /// are no more than the volume of each of the booking's contacts.
    fn holds(&mut self, contacts: &[u64], class: u64) {
        let held = contacts.iter().all(|&number| {
            let contact = &self.history.draft.contacts[number as usize - 1];
            self.history.taken(number, class) <= volume(contact)
        });
        let what = "history, a booking within the volume";
        self.same(what, held, true, &(contacts, class));
    }

    fn same<T: PartialEq + Debug>(
        &mut self,
        what: &'static str,
        found: T,
        wanted: T,
        step: &dyn Debug,
    ) {
        let History { draft, events, .. } = &self.history;
        let name = self.name;
        self.tally.same(what, found, wanted, || {
            let plan = String::from_utf8_lossy(&draft.text()).into_owned();
            format!("{name}: {step:?} after {events:?}\n{plan}")
        });
    }
}

fn routed_by(figures: Figures, contacts: &[u64]) -> Routed {
    Routed {
        figures,
        count: contacts.len() as u64,
    }
}

/// The lent places after these contacts are filled in.
fn filled(contacts: &[u64]) -> [u64; LONGEST_BEST] {
    let mut places = [UNTOUCHED; LONGEST_BEST];
    places[..contacts.len()].copy_from_slice(contacts);
    places
}
