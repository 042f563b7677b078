//! The choice said again as plainly as it can be, for checks only: the best
//! chain is the least of all chains. It shares no code with `route`.

use std::collections::BTreeSet;

use crate::ask::GoodAsk;
use crate::definitions::excluded;
use crate::plan::Plan;
use crate::refusal::{Refusal, NO_ALLOWED_CHAIN};
use crate::router::{Best, Router};
use crate::units::ContactNo;

pub use crate::definitions::Definitions;

/// The router that looks at all chains. A chain with a loop is considered as
/// any other; chains end when they have as many contacts as the plan has
/// nodes, one more than a best chain can have.
pub struct AllChains {
    definitions: Definitions,
    longest: usize,
}

impl AllChains {
    pub fn over(definitions: Definitions) -> Self {
        let ends = definitions.contacts.iter().flat_map(|c| [c[2], c[3]]);
        let nodes: BTreeSet<u64> = ends.collect();
        Self {
            definitions,
            longest: nodes.len(),
        }
    }
}

impl Router for AllChains {
    fn prepare(plan: &Plan) -> Self {
        Self::over(Definitions::of(plan))
    }

    fn best(&self, ask: &GoodAsk) -> Result<Best, Refusal> {
        let mut least = None;
        self.consider(ask, ask.source.0, ask.time.0, &mut Vec::new(), &mut least);
        let least = least.ok_or(Refusal::bare(NO_ALLOWED_CHAIN))?;
        let chain: Vec<u64> = least.last_contact_first.into_iter().rev().collect();
        let figures = self.definitions.figures(ask, &chain)?;
        Ok(Best {
            figures,
            chain: chain.into_iter().map(ContactNo).collect(),
        })
    }
}

/// A chain with what decides the choice, in the order in which it decides.
#[derive(PartialEq, Eq, PartialOrd, Ord)]
struct Candidate {
    delivery: u64,
    count: usize,
    last_contact_first: Vec<u64>,
}

impl AllChains {
    /// Considers every chain that begins with the given one, which leads to
    /// `node` and has the file ready there.
    fn consider(
        &self,
        ask: &GoodAsk,
        node: u64,
        ready: u64,
        chain: &mut Vec<u64>,
        least: &mut Option<Candidate>,
    ) {
        if !chain.is_empty() && node == ask.destination.0 {
            let candidate = Candidate {
                delivery: ready,
                count: chain.len(),
                last_contact_first: chain.iter().rev().copied().collect(),
            };
            if least.as_ref().is_none_or(|least| candidate < *least) {
                *least = Some(candidate);
            }
        }
        if chain.len() == self.longest {
            return;
        }
        for (number, contact) in (1..).zip(&self.definitions.contacts) {
            if contact[2] != node || excluded(ask, contact) {
                continue;
            }
            if let Some((_, arrival)) = self.definitions.hop(number, ready, ask.size) {
                chain.push(number);
                self.consider(ask, contact[3], arrival, chain, least);
                chain.pop();
            }
        }
    }
}
