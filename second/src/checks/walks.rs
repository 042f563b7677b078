//! The call `walk` against the plain definitions.

use crate::ask::Ask;
use crate::calls::walk;
use crate::cases::chains::{chain, exclude_later};
use crate::cases::plans::SMALL;
use crate::cases::{asks, draft::Draft, draft::Kind};
use crate::checks::causes;
use crate::checks::tally::Tally;
use crate::definitions::Definitions;
use crate::random::Random;
use crate::refusal::{Refusal, NOT_IN_TIME};
use crate::route::Network;
use crate::router::Router;
use crate::timing::Figures;
use crate::units::LATEST_TIME;

const CHAINS_A_PLAN: usize = 20;
/// The call as the kinds of refused chains have it.
pub const CALL: &str = "walk";

/// Random chains on a small plan of every family.
pub fn check(random: &mut Random, tally: &mut Tally) {
    for (name, family) in SMALL {
        let case = Case::of(name, family(random));
        let network = Network::prepare(&case.draft.plan());
        for _ in 0..CHAINS_A_PLAN {
            let ask = asks::likely(&network, 3, || asks::ask(random, &case.draft));
            let chain = chain(random, &case.definitions, &network, &ask, 12);
            let later = exclude_later(random, &case.definitions, &ask, &chain);
            for ask in [ask, later] {
                case.check_chain(ask, &chain, tally);
                case.check_faults(ask, &chain, tally);
            }
        }
    }
}

/// Chains that go to and fro up to a million times, and such as are at fault
/// at their first, middle or last position.
pub fn check_long_chains(tally: &mut Tally) {
    let mut draft = Draft::default();
    draft.add(Kind::Contact, [0, LATEST_TIME, 1, 2, 1_000_000]);
    draft.add(Kind::Contact, [0, LATEST_TIME, 2, 1, 1_000_000]);
    draft.add(Kind::Range, [0, LATEST_TIME, 1, 2, 3]);
    let case = Case::of("to and fro", draft);
    for length in [64, 999, 100_001, 999_999, 1_000_000] {
        let chain: Vec<u64> = (0..length).map(|place| 1 + place % 2).collect();
        for deadline in [LATEST_TIME, 5 * length + 1, 5 * length] {
            case.check_chain(from_1_to_2(deadline), &chain, tally);
        }
        for place in [0, chain.len() / 2, chain.len() - 1] {
            let mut chain = chain.clone();
            chain[place] = if place == 0 { 2 } else { 3 };
            case.check_chain(from_1_to_2(LATEST_TIME), &chain, tally);
        }
    }
}

fn from_1_to_2(deadline: u64) -> Ask {
    Ask {
        source: 1,
        destination: 2,
        time: 0,
        size: 1500,
        deadline,
        excluded: 0,
    }
}

/// A plan and the definitions about it.
struct Case {
    name: &'static str,
    draft: Draft,
    definitions: Definitions,
}

impl Case {
    fn of(name: &'static str, draft: Draft) -> Self {
        Self {
            name,
            definitions: Definitions::of(&draft.plan()),
            draft,
        }
    }

    fn check_chain(&self, ask: Ask, chain: &[u64], tally: &mut Tally) {
        let found = self.walked(ask, chain);
        let figures = |ask| self.definitions.figures(&ask, chain);
        let wanted = ask.check().and_then(figures);
        let what = match wanted {
            Ok(_) => "walk, chain in time",
            Err(refusal) if refusal.number == NOT_IN_TIME => "walk, chain late",
            Err(_) => "walk, chain not allowed",
        };
        tally.same(what, found, wanted, || self.about(ask, chain));
    }

    /// A chain is allowed just where nothing is at fault; counts of which kind
    /// it is where not.
    fn check_faults(&self, ask: Ask, chain: &[u64], tally: &mut Tally) {
        let Ok(good) = ask.check() else {
            return;
        };
        let times = self.definitions.allowed(&good, ask.time, ask.size, chain);
        let is_good = self.definitions.is_good(&good, chain);
        let what = "walk, allowed where nothing is at fault";
        tally.same(what, times.is_some(), is_good, || self.about(ask, chain));
        causes::meet(CALL, &self.definitions, &good, chain, tally);
    }

    fn walked(&self, ask: Ask, chain: &[u64]) -> Result<Figures, Refusal> {
        let (contacts, ranges) = self.draft.tables();
        let counts = (
            self.draft.contacts.len() as u64,
            self.draft.ranges.len() as u64,
        );
        walk(&contacts, counts.0, &ranges, counts.1, ask, chain)
    }

    fn about(&self, ask: Ask, chain: &[u64]) -> String {
        let plan = String::from_utf8_lossy(&self.draft.text()).into_owned();
        format!("{}: {ask:?} chain {chain:?}\n{plan}", self.name)
    }
}
