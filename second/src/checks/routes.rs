//! The efficient router against all chains, and against the layered one.

use crate::ask::Ask;
use crate::calls::route;
use crate::cases::asks;
use crate::cases::draft::Draft;
use crate::cases::plans::{LARGE, SMALL};
use crate::checks::tally::Tally;
use crate::exhaustive::AllChains;
use crate::layered::Layered;
use crate::random::Random;
use crate::refusal::{Refusal, SHORT_CHAIN};
use crate::route::Network;
use crate::router::{Best, Router};
use crate::units::LONGEST_BEST;

const ASKS_A_PLAN: usize = 20;
/// What lent places hold before a call.
const UNTOUCHED: u64 = 0xdead_beef;

/// A small plan of every family: all three routers agree on every ask.
pub fn check_small(random: &mut Random, tally: &mut Tally) {
    for (name, family) in SMALL {
        let draft = family(random);
        let plan = draft.plan();
        let network = Network::prepare(&plan);
        let all_chains = AllChains::prepare(&plan);
        let layered = Layered::prepare(&plan);
        for ask in some_asks(random, &draft, &network) {
            let answer = answer(&network, ask);
            let about = || about(name, &draft, ask);
            let tried = self::answer(&all_chains, ask);
            tally.same("route, all chains tried", answer.clone(), tried, about);
            let other = self::answer(&layered, ask);
            tally.same("route, small plan by layers", answer, other, about);
        }
    }
}

/// A large plan: the efficient and the layered router agree on every ask.
pub fn check_large(random: &mut Random, turn: u64, tally: &mut Tally) {
    let (name, family) = LARGE[turn as usize % LARGE.len()];
    let draft = family(random);
    let plan = draft.plan();
    let network = Network::prepare(&plan);
    let layered = Layered::prepare(&plan);
    for ask in some_asks(random, &draft, &network) {
        let answer = answer(&network, ask);
        let other = self::answer(&layered, ask);
        tally.same("route, large plan by layers", answer, other, || {
            about(name, &draft, ask)
        });
    }
}

/// The call `route` on a small plan: what it answers and which places change.
pub fn check_limits_of_call(random: &mut Random, tally: &mut Tally) {
    let (name, family) = random.pick(&SMALL);
    let draft = family(random);
    let network = Network::prepare(&draft.plan());
    let (contacts, ranges) = draft.tables();
    let counts = (draft.contacts.len() as u64, draft.ranges.len() as u64);
    for ask in some_asks(random, &draft, &network) {
        let length = random.pick(&[LONGEST_BEST, LONGEST_BEST + 5, LONGEST_BEST - 1, 0]);
        let mut chain = vec![UNTOUCHED; length];
        let routed = route(&contacts, counts.0, &ranges, counts.1, ask, &mut chain);
        let mut wanted_chain = vec![UNTOUCHED; length];
        let wanted = if length < LONGEST_BEST {
            Err(Refusal::bare(SHORT_CHAIN))
        } else {
            answer(&network, ask)
        };
        if let Ok(best) = &wanted {
            for (place, number) in wanted_chain.iter_mut().zip(&best.chain) {
                *place = number.0;
            }
        }
        let figures = wanted.map(|best| (best.figures, best.chain.len() as u64));
        let found = (routed.map(|routed| (routed.figures, routed.count)), chain);
        tally.same("route, the call", found, (figures, wanted_chain), || {
            about(name, &draft, ask)
        });
    }
}

fn answer(router: &impl Router, ask: Ask) -> Result<Best, Refusal> {
    router.best(&ask.check()?)
}

/// Random asks, each followed by some at the edges of its answer.
fn some_asks(random: &mut Random, draft: &Draft, network: &Network) -> Vec<Ask> {
    let mut chosen = Vec::new();
    while chosen.len() < ASKS_A_PLAN {
        let ask = asks::ask(random, draft);
        chosen.push(ask);
        if let Ok(best) = answer(network, ask) {
            chosen.extend((0..3).map(|_| asks::around(random, &ask, &best, draft)));
        }
    }
    chosen
}

fn about(family: &str, draft: &Draft, ask: Ask) -> String {
    let plan = String::from_utf8_lossy(&draft.text()).into_owned();
    format!("{family}: {ask:?}\n{plan}")
}
