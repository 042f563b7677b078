//! What `walk` is given: a plan, an ask and a chain.

use second::book::Book;
use second::cases::draft::Draft;
use second::cases::lent::LentBook;
use second::cases::{asks, chains as good_chains};
use second::definitions::Definitions;
use second::plan::Plan;
use second::random::Random;
use second::refusal::{Refusal, NOT_IN_TIME};
use second::route::Network;
use second::router::{Best, Router};
use second::timing::{figures, Figures, Links};
use second::units::{Class, ContactNo, NODES};
use second::Ask;

use super::{chains, plain_tables, plans, tables, Given};

/// The longest chains that are walked, and how late, in the first turns.
const VERY_LONG: [(u64, u64); 4] = [(1_000_000, 0), (1_000_000, 1), (999_999, 0), (100_000, 0)];

pub fn given(random: &mut Random, turn: u64) -> Given {
    if let Some(&(length, late_by)) = VERY_LONG.get(turn as usize) {
        return long(length, late_by);
    }
    if random.below(1000) < 2 {
        return some_long(random);
    }
    let draft = plans::some(random, 4);
    let ways = Ways::of(&draft.plan());
    let any = |random: &mut Random| asks::ask(random, &draft);
    let (mut ask, mut chain) = ways.some_walk(random, &draft, any);
    if random.percent(12) {
        ask = asks::at_limits(random, &ask);
    }
    if random.percent(6) {
        chain = chains::odd(random, &draft);
    }
    let tables = tables::some(random, &draft, 10);
    Given::walk(tables, ask, chain)
}

/// A chain to and fro, of a given length.
pub fn long(length: u64, late_by: u64) -> Given {
    let (ask, chain) = chains::to_and_fro(length, late_by);
    Given::walk(plain_tables(&plans::to_and_fro()), ask, chain)
}

/// The best chain of 63 contacts through a full plan.
pub fn full() -> Given {
    let tables = plain_tables(&plans::full_line());
    Given::walk(tables, plans::FULL_LINE_ASK, (1..NODES).collect())
}

/// A chain to and fro, at times with a wrong contact.
fn some_long(random: &mut Random) -> Given {
    let length = match random.below(4) {
        0 => random.pick(&[62, 63, 64, 65, 125, 126, 127, 189, 190]),
        1 => random.between(1, 300),
        _ => random.between(1, 20_000),
    };
    let mut given = long(length, random.below(2));
    if random.percent(30) {
        chains::damage(random, &mut given.chain);
    }
    given
}

/// What chains are made by and judged by.
pub struct Ways {
    definitions: Definitions,
    network: Network,
    links: Links,
}

impl Ways {
    /// Those of a plan on which nothing is booked.
    fn of(plan: &Plan) -> Self {
        Self {
            definitions: Definitions::of(plan),
            network: Network::prepare(plan),
            links: Links::of(plan),
        }
    }

    /// Those of a plan with a valid book, for asks of a class.
    pub fn booked(plan: &Plan, lent: &LentBook, class: u64) -> Self {
        let book = Book::of_lent(&lent.words, &lent.numbers, plan).expect("a valid book");
        Self {
            definitions: Definitions::booked(plan, &lent.words, &lent.numbers, class),
            network: Network::booked(plan, &book, Class(class)),
            links: Links::booked(plan, &book, Class(class)),
        }
    }

    /// An ask and a chain: the first that come, or the first of many of which
    /// the chain is allowed; at times with the ask at the edge of what is
    /// allowed.
    pub fn some_walk(
        &self,
        random: &mut Random,
        draft: &Draft,
        any: impl Fn(&mut Random) -> Ask,
    ) -> (Ask, Vec<u64>) {
        let longest = random.pick(&[3, 12, 12, 12, 63, 64, 200]);
        let mut tries = random.pick(&[1, 1, 10, 10, 10]);
        let definitions = &self.definitions;
        loop {
            let ask = any(random);
            let chain = good_chains::chain(random, definitions, &self.network, &ask, longest);
            let walked = self.walked(&ask, &chain);
            tries -= 1;
            if tries > 0 && walked.is_err_and(|refusal| refusal.number != NOT_IN_TIME) {
                continue;
            }
            let ask = match (random.below(8), walked) {
                (0 | 1, _) => good_chains::exclude_later(random, definitions, &ask, &chain),
                (2..=5, Ok(figures)) => {
                    let chain = chain.iter().map(|&number| ContactNo(number)).collect();
                    asks::around(random, &ask, &Best { figures, chain }, draft)
                }
                _ => ask,
            };
            return (ask, chain);
        }
    }

    fn walked(&self, ask: &Ask, chain: &[u64]) -> Result<Figures, Refusal> {
        let numbers = chain.iter().map(|&number| ContactNo(number));
        figures(&self.links, &ask.check()?, numbers)
    }
}
