//! The best chain, found efficiently.
//!
//! A search in the order of (ready time, contacts used) settles, for each
//! node, every pair that no earlier and no shorter way beats: an early way of
//! many contacts does not hide a later one of fewer, which may deliver at the
//! same time because both wait for the same pass. The first pair settled at
//! the destination is the best delivery with its fewest contacts. The chain is
//! then chosen from its last contact back.

use std::cmp::Reverse;
use std::collections::BinaryHeap;

use crate::ask::GoodAsk;
use crate::book::Book;
use crate::plan::Plan;
use crate::refusal::{Refusal, NO_ALLOWED_CHAIN};
use crate::router::{Best, Router};
use crate::timing::{consumption, figures, Link, Links};
use crate::units::{Class, ContactNo, Millis, NodeNo, NODES};

/// The links of a plan, sorted for the search.
pub struct Network {
    links: Links,
    /// By node, the links out of it, the one that ends last first.
    leaving: Vec<Vec<Link>>,
    /// By node, the numbers of the links into it, lowest first.
    arriving: Vec<Vec<ContactNo>>,
}

impl Network {
    /// The network of a plan with its book, for asks of a class.
    pub fn booked(plan: &Plan, book: &Book, class: Class) -> Self {
        Self::over(Links::booked(plan, book, class))
    }

    fn over(links: Links) -> Self {
        let mut leaving = vec![Vec::new(); NODES as usize];
        let mut arriving = vec![Vec::new(); NODES as usize];
        for (number, link) in links.iter() {
            leaving[link.contact.from.index()].push(*link);
            arriving[link.contact.to.index()].push(number);
        }
        for out in &mut leaving {
            out.sort_by_key(|link| Reverse(link.contact.end));
        }
        Self {
            links,
            leaving,
            arriving,
        }
    }
}

impl Router for Network {
    fn prepare(plan: &Plan) -> Self {
        Self::over(Links::of(plan))
    }

    fn best(&self, ask: &GoodAsk) -> Result<Best, Refusal> {
        let mut search = Search::new(self, ask);
        let delivered = search
            .settle_destination()
            .ok_or(Refusal::bare(NO_ALLOWED_CHAIN))?;
        let chain = search.choose(delivered);
        let figures = figures(&self.links, ask, chain.iter().copied())?;
        Ok(Best { figures, chain })
    }
}

/// A way to a node: when the file is ready there, after how many contacts.
#[derive(Clone, Copy, PartialEq, Eq, PartialOrd, Ord)]
struct Label {
    ready: Millis,
    contacts: usize,
}

struct Search<'a> {
    network: &'a Network,
    ask: &'a GoodAsk,
    consumption: u64,
    /// By node, the settled labels: ready ever later, with ever fewer contacts.
    settled: Vec<Vec<Label>>,
    open: BinaryHeap<Reverse<(Label, NodeNo)>>,
    /// The best label met at the destination so far.
    bound: Option<Label>,
}

impl<'a> Search<'a> {
    fn new(network: &'a Network, ask: &'a GoodAsk) -> Self {
        let at_source = Label {
            ready: ask.time,
            contacts: 0,
        };
        Self {
            network,
            ask,
            consumption: consumption(ask.size),
            settled: vec![Vec::new(); NODES as usize],
            open: BinaryHeap::from([Reverse((at_source, ask.source))]),
            bound: None,
        }
    }

    /// Settles labels in order until one is the destination's.
    fn settle_destination(&mut self) -> Option<Label> {
        while let Some(Reverse((label, node))) = self.open.pop() {
            if node == self.ask.destination {
                return Some(label);
            }
            if !self.is_beaten(label, node) {
                self.settled[node.index()].push(label);
                self.follow(label, node);
            }
        }
        None
    }

    /// Whether a label settled at the node has no more contacts. All settled
    /// ones are no later, and the last of them has the fewest contacts.
    fn is_beaten(&self, label: Label, node: NodeNo) -> bool {
        let last = self.settled[node.index()].last();
        last.is_some_and(|last| last.contacts <= label.contacts)
    }

    /// Opens the labels that one more contact leads to.
    fn follow(&mut self, label: Label, node: NodeNo) {
        let network = self.network;
        for link in &network.leaving[node.index()] {
            if link.contact.end <= label.ready {
                break;
            }
            if self.ask.excludes(&link.contact) {
                continue;
            }
            if let Some(hop) = link.hop(label.ready, self.consumption) {
                let next = Label {
                    ready: hop.ready,
                    contacts: label.contacts + 1,
                };
                self.open(next, link.contact.to);
            }
        }
    }

    fn open(&mut self, label: Label, node: NodeNo) {
        let hopeless = self.bound.is_some_and(|bound| bound <= label);
        if hopeless || self.is_beaten(label, node) {
            return;
        }
        if node == self.ask.destination {
            self.bound = Some(label);
        }
        self.open.push(Reverse((label, node)));
    }

    /// The chain of a settled delivery, the lowest number first from the last
    /// contact back. No way of fewer contacts delivers as early, so "at most"
    /// so many contacts before a contact is "exactly" so many.
    fn choose(&self, delivered: Label) -> Vec<ContactNo> {
        let mut chain = Vec::new();
        let mut node = self.ask.destination;
        let mut by = delivered.ready;
        for before in (0..delivered.contacts).rev() {
            let arriving = &self.network.arriving[node.index()];
            let chosen = arriving
                .iter()
                .find_map(|&number| self.leads_there(number, before, by));
            let Some((number, from, ready_by)) = chosen else {
                break;
            };
            chain.push(number);
            (node, by) = (from, ready_by);
        }
        chain.reverse();
        chain
    }

    /// Whether a contact, after at most so many others, has the file ready
    /// behind it by a given time; then its number, the node it is from, and
    /// until when the file may be ready there.
    fn leads_there(
        &self,
        number: ContactNo,
        before: usize,
        by: Millis,
    ) -> Option<(ContactNo, NodeNo, Millis)> {
        let link = self.network.links.get(number)?;
        if self.ask.excludes(&link.contact) {
            return None;
        }
        let from = link.contact.from;
        let ready_by = link.latest_ready(by, self.consumption)?;
        let earliest = self.earliest(from, before)?;
        (earliest <= ready_by).then_some((number, from, ready_by))
    }

    /// The earliest settled time at a node after at most so many contacts.
    fn earliest(&self, node: NodeNo, contacts: usize) -> Option<Millis> {
        let labels = &self.settled[node.index()];
        let skipped = labels.partition_point(|label| label.contacts > contacts);
        labels.get(skipped).map(|label| label.ready)
    }
}
