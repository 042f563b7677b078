//! What `route` is given: a plan, an ask, and places for the chain.

use second::cases::asks;
use second::cases::draft::Draft;
use second::cases::long_ways::{self, long_way};
use second::random::Random;
use second::refusal::{Refusal, NO_ALLOWED_CHAIN};
use second::route::Network;
use second::router::Router;
use second::units::LONGEST_BEST;
use second::Ask;

use super::{plain_tables, plans, tables, words, Given};

/// Of a thousand calls that route so many are about a long way.
pub const LONG_WAYS: u64 = 6;

pub fn given(random: &mut Random, turn: u64) -> Given {
    if turn == 0 {
        return longest(random);
    }
    if random.below(1000) < LONG_WAYS {
        let way = long_way(random);
        return over(random, &way.draft, |random| {
            long_ways::ask(random, way.ends)
        });
    }
    let draft = plans::some(random, 6);
    over(random, &draft, |random| asks::ask(random, &draft))
}

/// An ask over a plan, and places for the chain.
fn over(random: &mut Random, draft: &Draft, any: impl Fn(&mut Random) -> Ask) -> Given {
    let network = Network::prepare(&draft.plan());
    let mut ask = some_ask(random, draft, &network, any);
    if random.percent(12) {
        ask = asks::at_limits(random, &ask);
    }
    let tables = tables::some(random, draft, 10);
    Given::route(tables, ask, places(random))
}

/// Places for a chain, at times too few.
pub fn places(random: &mut Random) -> Vec<u64> {
    let places = match random.below(100) {
        0..=2 => random.index(LONGEST_BEST),
        3..=5 => LONGEST_BEST - 1,
        6..=29 => LONGEST_BEST + random.index(40),
        _ => LONGEST_BEST,
    };
    words(random, places)
}

/// The full plan through which a best chain has 63 contacts.
pub fn longest(random: &mut Random) -> Given {
    let tables = plain_tables(&plans::full_line());
    let places = words(random, LONGEST_BEST);
    Given::route(tables, plans::FULL_LINE_ASK, places)
}

/// An ask: the first that comes, or the first of many for which a chain is
/// allowed; at times with one value at the edge of what the answer says.
pub fn some_ask(
    random: &mut Random,
    draft: &Draft,
    network: &Network,
    any: impl Fn(&mut Random) -> Ask,
) -> Ask {
    let mut tries = random.pick(&[1, 1, 6, 6]);
    loop {
        let ask = any(random);
        let answer = ask.check().and_then(|good| network.best(&good));
        tries -= 1;
        match answer {
            Err(refusal) if tries > 0 && refusal == Refusal::bare(NO_ALLOWED_CHAIN) => {}
            Ok(best) if random.percent(60) => {
                return asks::around(random, &ask, &best, draft);
            }
            _ => return ask,
        }
    }
}
