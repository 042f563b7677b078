//! A history of bookings and releases: what is left of a contact, and what a
//! call must answer, counted from what happened and not read in the book.

use crate::ask::Ask;
use crate::cases::draft::Draft;
use crate::definitions::Definitions;
use crate::exhaustive::AllChains;
use crate::plain::{ask_refusal_in, volume};
use crate::plan::Plan;
use crate::refusal::Refusal;
use crate::router::Router;
use crate::timing::Figures;
use crate::units::PLACES;

/// A booking that was made.
#[derive(Debug)]
pub struct Made {
    pub place: u64,
    pub class: u64,
    pub consumption: u64,
    pub contacts: Vec<u64>,
}

/// What changed the book.
#[derive(Debug)]
pub enum Event {
    Booked(Made),
    Released(u64),
}

/// A plan, and all that happened to its book since it was empty.
pub struct History<'a> {
    pub draft: &'a Draft,
    pub plan: Plan,
    pub events: Vec<Event>,
}

/// An answer to an ask: its figures and its chain.
pub type Answer = Result<(Figures, Vec<u64>), Refusal>;

impl<'a> History<'a> {
    pub fn of(draft: &'a Draft) -> Self {
        Self {
            draft,
            plan: draft.plan(),
            events: Vec::new(),
        }
    }

    /// The bookings made and not released.
    fn standing(&self) -> Vec<&Made> {
        let mut standing = Vec::new();
        for event in &self.events {
            match event {
                Event::Booked(made) => standing.push(made),
                Event::Released(place) => standing.retain(|made| made.place != *place),
            }
        }
        standing
    }

    /// What the standing bookings of a class or a higher one take of a contact.
    pub fn taken(&self, number: u64, class: u64) -> i128 {
        let standing = self.standing().into_iter();
        let taking = standing.filter(|made| made.class >= class && made.contacts.contains(&number));
        taking.map(|made| i128::from(made.consumption)).sum()
    }

    /// What is left in a class of each contact.
    pub fn left(&self, class: u64) -> Vec<i128> {
        let contacts = (1..).zip(&self.draft.contacts);
        contacts
            .map(|(number, contact)| volume(contact) - self.taken(number, class))
            .collect()
    }

    pub fn is_open(&self, place: u64) -> bool {
        self.standing().iter().any(|made| made.place == place)
    }

    pub fn lowest_free(&self) -> Option<u64> {
        (1..=PLACES as u64).find(|&place| !self.is_open(place))
    }

    fn definitions(&self, class: u64) -> Definitions {
        Definitions::with_left(&self.plan, self.left(class))
    }

    pub fn best(&self, ask: Ask, class: u64) -> Answer {
        ask_refusal_in(&ask, class).map_or(Ok(()), Err)?;
        let best = AllChains::over(self.definitions(class)).best(&ask.check()?)?;
        let chain = best.chain.iter().map(|number| number.0).collect();
        Ok((best.figures, chain))
    }

    pub fn figures(&self, ask: Ask, class: u64, chain: &[u64]) -> Result<Figures, Refusal> {
        ask_refusal_in(&ask, class).map_or(Ok(()), Err)?;
        self.definitions(class).figures(&ask.check()?, chain)
    }
}
