//! A plan, at times with a book, and pairs of calls on it: the second one is
//! asked later, or is for a larger file, or is due later, or has a further
//! contact.

use second::book::Book;
use second::cases::draft::{Draft, Kind as Table};
use second::cases::lent::LentBook;
use second::cases::tables::Tables;
use second::cases::{asks, books as good_books};
use second::random::Random;
use second::route::Network;
use second::router::Router;
use second::units::{Class, LARGEST_SIZE, LATEST_TIME};
use second::{Ask, Figures};

use super::answers::{Answer, Lent};
use super::facts::{Kind, Pair};
use crate::cases::routes::some_ask;
use crate::cases::{books, plans};

/// Of a thousand plans so many are large ones.
const LARGE: u64 = 10;
/// Of a hundred plans so many have a book.
const BOOKED: u64 = 50;
/// How often an ask is looked for that is answered with a route.
const TRIES: usize = 6;

pub struct Scene {
    draft: Draft,
    pub lent: Lent,
    /// The same with a further contact at the end of the plan.
    further: Lent,
}

impl Scene {
    /// A plan from which one contact was taken, which is the further one. The
    /// book is one of the plan without it.
    pub fn some(random: &mut Random) -> Self {
        let mut draft = plans::some(random, LARGE);
        let row = match draft.contacts.len() {
            0 => draft.fresh(random, Table::Contact),
            count => draft.contacts.remove(random.index(count)),
        };
        let book = random.percent(BOOKED).then(|| {
            let class = good_books::class(random);
            (books::some(random, &draft), class)
        });
        let mut whole = draft.clone();
        whole.contacts.push(row);
        Self {
            lent: Lent {
                tables: Tables::of(random, &draft),
                book: book.clone(),
            },
            further: Lent {
                tables: Tables::of(random, &whole),
                book,
            },
            draft,
        }
    }

    /// The plan with its book, by which the second program looks for asks that
    /// are answered.
    pub fn network(&self) -> Network {
        let plan = self.draft.plan();
        match &self.lent.book {
            None => Network::prepare(&plan),
            Some((LentBook { words, numbers }, class)) => {
                let book = Book::of_lent(words, numbers, &plan).expect("a valid book");
                Network::booked(&plan, &book, Class(*class))
            }
        }
    }

    /// A good ask: the first of some that is answered with a route, or the last.
    pub fn ask(&self, random: &mut Random, network: &Network) -> Ask {
        let is_routed = |ask: &Ask| ask.check().and_then(|good| network.best(&good)).is_ok();
        let mut tried = (1..TRIES).map(|_| self.any_ask(random, network));
        let routed = tried.find(is_routed);
        routed.unwrap_or_else(|| self.any_ask(random, network))
    }

    /// A good ask, at times at the edge of what an answer says.
    fn any_ask(&self, random: &mut Random, network: &Network) -> Ask {
        some_ask(random, &self.draft, network, |random| {
            match &self.lent.book {
                None => asks::ask(random, &self.draft),
                Some((book, class)) => good_books::ask(random, &self.draft, book, *class),
            }
        })
    }

    /// A pair of a kind whose first call is answered; none where the kind
    /// wants a last call and there is none.
    pub fn pair(
        &self,
        random: &mut Random,
        kind: Kind,
        ask: Ask,
        first: &Answer,
    ) -> Option<Pair<'_>> {
        let figures = first.as_ref().ok().map(|best| best.figures);
        let mut second_ask = ask;
        match kind {
            Kind::Later => second_ask.time = self.later(random, ask, figures),
            Kind::Larger => second_ask.size = larger(random, ask, figures),
            Kind::Due => second_ask.deadline = self.due(random, ask, figures),
            Kind::Further => {}
            Kind::UntilLastCall => second_ask.time = until(random, ask, figures?),
            Kind::PastLastCall => second_ask.time = figures?.last_call + 1,
        }
        let second_lent = match kind {
            Kind::Further => &self.further,
            _ => &self.lent,
        };
        Some(Pair {
            kind,
            lent: &self.lent,
            second_lent,
            ask,
            second_ask,
        })
    }

    /// A time from the ask's on: near it, at an edge of the answer or of a
    /// contact, or any.
    fn later(&self, random: &mut Random, ask: Ask, figures: Option<Figures>) -> u64 {
        let step = random.below(3);
        let edge = match (random.below(8), figures) {
            (0 | 1, Some(figures)) => figures.last_call + step,
            (2, Some(figures)) => figures.opens + step,
            (3, Some(figures)) => figures.delivery + step,
            (4 | 5, _) => self.edge(random) + step,
            (6, _) => random.between(ask.time, LATEST_TIME),
            _ => ask.time + random.below(12),
        };
        edge.clamp(ask.time, LATEST_TIME)
    }

    /// A deadline from the ask's on.
    fn due(&self, random: &mut Random, ask: Ask, figures: Option<Figures>) -> u64 {
        let edge = match (random.below(6), figures) {
            (0, Some(figures)) => figures.delivery + random.below(3),
            (1 | 2, _) => self.edge(random) + random.below(9),
            (3, _) => LATEST_TIME - random.below(2),
            (4, _) => random.between(ask.deadline, LATEST_TIME),
            _ => ask.deadline + random.below(12),
        };
        edge.clamp(ask.deadline, LATEST_TIME)
    }

    /// A start or an end of a contact.
    fn edge(&self, random: &mut Random) -> u64 {
        match self.draft.contacts.len() {
            0 => 0,
            count => self.draft.contacts[random.index(count)][random.index(2)],
        }
    }
}

/// A size from the ask's on.
fn larger(random: &mut Random, ask: Ask, figures: Option<Figures>) -> u64 {
    let edge = match (random.below(8), figures) {
        (0..=2, Some(figures)) => figures.room + random.below(2),
        (3, Some(figures)) => random.between(ask.size, figures.room),
        (4, _) => random.between(ask.size, LARGEST_SIZE),
        (5, _) => ask.size.saturating_mul(random.between(2, 40)),
        _ => ask.size + random.below(200),
    };
    edge.clamp(ask.size, LARGEST_SIZE)
}

/// A time from the ask's to the last call, both included.
fn until(random: &mut Random, ask: Ask, figures: Figures) -> u64 {
    let last_call = figures.last_call.max(ask.time);
    let any = random.between(ask.time, last_call);
    random.pick(&[ask.time, last_call, any, any])
}
