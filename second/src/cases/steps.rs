//! Steps on a plan with its book, which ask, walk, book and release, each made
//! for the book as the steps before leave it.

use crate::ask::Ask;
use crate::book::Book;
use crate::cases::books;
use crate::cases::draft::Draft;
use crate::cases::lent::{Lent, LentBook};
use crate::cases::{asks, chains};
use crate::definitions::Definitions;
use crate::plan::Plan;
use crate::random::Random;
use crate::route::Network;
use crate::router::Router;
use crate::units::{Class, LATEST_TIME, LONGEST_BEST, PLACES};

/// A step, with what its call is given beside the plan and the book.
#[derive(Clone, Debug, PartialEq, Eq)]
pub enum Step {
    Ask {
        ask: Ask,
        class: u64,
    },
    Walk {
        ask: Ask,
        class: u64,
        chain: Vec<u64>,
    },
    Book {
        ask: Ask,
        class: u64,
    },
    Release {
        place: u64,
    },
}

/// How many of a hundred steps book and release; the others ask and walk.
pub struct Mix {
    books: u64,
    releases: u64,
    small_files: bool,
}

pub const MIXED: Mix = Mix {
    books: 45,
    releases: 25,
    small_files: false,
};
pub const FILLING: Mix = Mix {
    books: 88,
    releases: 6,
    small_files: true,
};

/// So many steps from a book on.
pub fn some(random: &mut Random, draft: &Draft, lent: &Lent, count: usize, mix: &Mix) -> Vec<Step> {
    let mut course = Course {
        draft,
        plan: draft.plan(),
        lent: lent.clone(),
    };
    (0..count).map(|_| course.next(random, mix)).collect()
}

/// The plan and the book as the steps so far leave it.
struct Course<'a> {
    draft: &'a Draft,
    plan: Plan,
    lent: Lent,
}

impl Course<'_> {
    /// Makes a step and takes it.
    fn next(&mut self, random: &mut Random, mix: &Mix) -> Step {
        let step = match random.below(100) {
            turn if turn < mix.releases => Step::Release {
                place: some_place(random, &self.lent.book),
            },
            turn => self.on_ask(random, mix, turn - mix.releases < mix.books),
        };
        // Whether it is refused is for others to judge.
        let _ = match &step {
            &Step::Book { ask, class } => {
                let booked = self.lent.book(ask, class, &mut [0; LONGEST_BEST]);
                booked.map(|_| ())
            }
            &Step::Release { place } => self.lent.release(place),
            Step::Ask { .. } | Step::Walk { .. } => Ok(()),
        };
        step
    }

    /// A step that has an ask and a class, a few of them out of range.
    fn on_ask(&self, random: &mut Random, mix: &Mix, books: bool) -> Step {
        let mut class = books::class(random);
        let network = self.network(class);
        let mut ask = self.some_ask(random, mix, &network, class);
        let walks = !books && random.percent(50);
        let mut chain = Vec::new();
        if walks {
            (ask, chain) = self.some_walk(random, &network, ask, class);
        }
        match random.below(50) {
            0 => class = books::class_at_limits(random),
            1 => ask = asks::at_limits(random, &ask),
            _ => {}
        }
        if walks {
            Step::Walk { ask, class, chain }
        } else if books {
            Step::Book { ask, class }
        } else {
            Step::Ask { ask, class }
        }
    }

    fn network(&self, class: u64) -> Network {
        let book = &self.lent.book;
        let book = Book::of_lent(&book.words, &book.numbers, &self.plan);
        Network::booked(&self.plan, &book.unwrap_or_default(), Class(class))
    }

    /// An ask: the first that comes, or the first of several that is not
    /// refused; at times at the edge of what its answer says.
    fn some_ask(&self, random: &mut Random, mix: &Mix, network: &Network, class: u64) -> Ask {
        let mut tries = random.pick(&[1, 6, 6]);
        loop {
            let mut ask = books::ask(random, self.draft, &self.lent.book, class);
            if mix.small_files {
                ask.size = random.between(1, 3);
                ask.deadline = LATEST_TIME;
            }
            tries -= 1;
            match ask.check().and_then(|good| network.best(&good)) {
                Err(_) if tries > 0 => {}
                Ok(best) if !mix.small_files && random.percent(30) => {
                    return asks::around(random, &ask, &best, self.draft);
                }
                _ => return ask,
            }
        }
    }

    /// A chain made for the plan with its book, or without; the ask at times
    /// excludes a node to which the chain goes from the source later.
    fn some_walk(
        &self,
        random: &mut Random,
        network: &Network,
        ask: Ask,
        class: u64,
    ) -> (Ask, Vec<u64>) {
        let unbooked = Network::prepare(&self.plan);
        let (definitions, network) = if random.percent(50) {
            (Definitions::of(&self.plan), &unbooked)
        } else {
            let book = &self.lent.book;
            let booked = Definitions::booked(&self.plan, &book.words, &book.numbers, class);
            (booked, network)
        };
        let chain = chains::chain(random, &definitions, network, &ask, 12);
        let later = chains::exclude_later(random, &definitions, &ask, &chain);
        (random.pick(&[ask, later]), chain)
    }
}

/// A place to release: one that is open, one that is not, or none at all.
fn some_place(random: &mut Random, book: &LentBook) -> u64 {
    let places = book.places(random.percent(80));
    if places.is_empty() || random.percent(8) {
        let last = PLACES as u64;
        random.pick(&[0, 1, last, last + 1, 1 << 32, (1 << 32) + 1, u64::MAX])
    } else {
        random.pick(&places) as u64 + 1
    }
}
