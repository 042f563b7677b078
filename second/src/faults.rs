//! Why a chain is not allowed, said as plainly as it can be, for checks only:
//! every cause is asked for at every position. Of those that hold, the one at
//! the least position is told, and there the lowest number. It shares no code
//! with `timing`.

use crate::ask::GoodAsk;
use crate::definitions::{excluded, Definitions};
use crate::refusal::{
    Refusal, DOES_NOT_FIT, DOES_NOT_JOIN, ENDS_ELSEWHERE, EXCLUDED_NEIGHBOUR, NO_SUCH_CONTACT,
    UNRANGED,
};

/// The causes for which a contact can be at fault.
pub const CAUSES: [u64; 5] = [
    NO_SUCH_CONTACT,
    DOES_NOT_JOIN,
    EXCLUDED_NEIGHBOUR,
    UNRANGED,
    DOES_NOT_FIT,
];

/// A cause that holds at a position, counted from 1.
#[derive(Clone, Copy, Debug, PartialEq, Eq, PartialOrd, Ord)]
pub struct ChainFault {
    pub position: u64,
    pub cause: u64,
}

/// Where a chain stands before a contact: the node that the contact before is
/// to, if there is such a contact, and when the file is ready there, if those
/// before carry it.
#[derive(Clone, Copy)]
pub struct Reached {
    pub node: Option<u64>,
    pub ready: Option<u64>,
}

impl Definitions {
    /// The refusal of a chain that is not allowed.
    pub fn why_not(&self, ask: &GoodAsk, chain: &[u64]) -> Refusal {
        match self.faults(ask, chain).into_iter().min() {
            Some(ChainFault { position, cause }) => Refusal::new(cause, position),
            None => Refusal::new(ENDS_ELSEWHERE, chain.len() as u64),
        }
    }

    /// Whether nothing of a chain is at fault and it ends at the destination.
    pub fn is_good(&self, ask: &GoodAsk, chain: &[u64]) -> bool {
        let end = self.reached(ask, chain)[chain.len()];
        self.faults(ask, chain).is_empty() && end.node == Some(ask.destination.0)
    }

    /// Every cause that holds at any position of a chain.
    pub fn faults(&self, ask: &GoodAsk, chain: &[u64]) -> Vec<ChainFault> {
        let mut faults = Vec::new();
        let reached = self.reached(ask, chain);
        for ((position, &number), reached) in (1..).zip(chain).zip(reached) {
            let held = CAUSES.into_iter();
            let held = held.filter(|&cause| self.is_at_fault(cause, ask, reached, number));
            faults.extend(held.map(|cause| ChainFault { position, cause }));
        }
        faults
    }

    /// How each of a chain's contacts is reached, and then the chain's end.
    pub fn reached(&self, ask: &GoodAsk, chain: &[u64]) -> Vec<Reached> {
        let mut reached = vec![Reached {
            node: Some(ask.source.0),
            ready: Some(ask.time.0),
        }];
        for &number in chain {
            let before = reached[reached.len() - 1];
            let hop = before
                .ready
                .and_then(|ready| self.hop(number, ready, ask.size));
            reached.push(Reached {
                node: self.contact(number).map(|contact| contact[3]),
                ready: hop.map(|(_, arrival)| arrival),
            });
        }
        reached
    }

    /// Whether a cause holds of a contact that is so reached.
    pub fn is_at_fault(&self, cause: u64, ask: &GoodAsk, reached: Reached, number: u64) -> bool {
        let Some(contact) = self.contact(number) else {
            return cause == NO_SUCH_CONTACT;
        };
        match cause {
            DOES_NOT_JOIN => reached.node.is_some_and(|node| node != contact[2]),
            EXCLUDED_NEIGHBOUR => excluded(ask, contact),
            UNRANGED => self.light(number).is_none(),
            DOES_NOT_FIT => {
                let ready = reached.ready;
                ready.is_some_and(|ready| !self.fits(number, ready, ask.size))
            }
            _ => false,
        }
    }
}
