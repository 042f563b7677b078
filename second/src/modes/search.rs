//! The search of [`route`](crate::route) for one ask alone, over rows that
//! were just checked: what does not serve the ask is left out, nothing is
//! sorted, and the passes of a node are linked lists.

use std::cmp::Reverse;
use std::collections::BinaryHeap;

use crate::ask::GoodAsk;
use crate::plan::Row;
use crate::refusal::{Refusal, NOT_IN_TIME, NO_ALLOWED_CHAIN};
use crate::router::Best;
use crate::timing::{consumption, Figures};
use crate::units::{ContactNo, LARGEST_SIZE, NODES};

/// A contact that serves the ask.
struct Pass {
    number: ContactNo,
    start: u64,
    end: u64,
    from: usize,
    to: usize,
    rate: u64,
    light: u64,
    left: i64,
}

impl Pass {
    fn sending_time(&self, consumption: u64) -> u64 {
        (consumption * 1000).div_ceil(self.rate)
    }

    /// Start and arrival of a file that is ready before the pass, if it fits.
    fn hop(&self, ready: u64, consumption: u64) -> Option<(u64, u64)> {
        let start = ready.max(self.start);
        let sent = start + self.sending_time(consumption);
        let fits = consumption as i64 <= self.left && sent <= self.end;
        fits.then_some((start, sent + self.light))
    }

    /// The latest time at which the ask's file may be ready before the pass
    /// and is ready behind it by a given time, if there is one.
    fn latest_ready(&self, by: u64, consumption: u64) -> Option<u64> {
        let sent_by = by.checked_sub(self.light)?.min(self.end);
        let start_by = sent_by.checked_sub(self.sending_time(consumption))?;
        (self.start <= start_by).then_some(start_by)
    }
}

/// For each node its passes, the lowest number first, as linked lists.
struct ByNode {
    first: [Option<u16>; NODES as usize + 1],
    next: Vec<Option<u16>>,
}

impl ByNode {
    fn of(passes: &[Pass], node: fn(&Pass) -> usize) -> Self {
        let mut first = [None; NODES as usize + 1];
        let mut next = vec![None; passes.len()];
        for (place, pass) in passes.iter().enumerate().rev() {
            next[place] = first[node(pass)].replace(place as u16);
        }
        Self { first, next }
    }

    fn at(&self, node: usize) -> impl Iterator<Item = usize> + '_ {
        let places =
            std::iter::successors(self.first[node], |&place| self.next[usize::from(place)]);
        places.map(usize::from)
    }
}

/// A way to a node: when the file is ready there, after how many contacts.
type Label = (u64, usize);

pub struct Search {
    ask: GoodAsk,
    consumption: u64,
    passes: Vec<Pass>,
    leaving: ByNode,
    /// By node, the settled labels: ready ever later, with ever fewer contacts.
    settled: Vec<Vec<Label>>,
    open: BinaryHeap<Reverse<(Label, usize)>>,
    /// The best label met at the destination so far.
    bound: Option<Label>,
}

impl Search {
    /// The search over contacts with their light times and what is left of
    /// them in the ask's class.
    pub fn new(contacts: &[Row], lights: &[Option<u64>], left: &[i64], ask: GoodAsk) -> Self {
        let consumption = consumption(ask.size);
        let is_excluded = |from, to: u64| from == ask.source.0 && ask.excluded >> (to - 1) & 1 == 1;
        let rows = (1..).zip(contacts).zip(lights).zip(left);
        let serving = rows.filter_map(|(((number, row), &light), &left)| {
            let [start, end, from, to, rate] = *row;
            let serves = consumption as i64 <= left && !is_excluded(from, to);
            Some(Pass {
                number: ContactNo(number),
                start,
                end,
                from: from as usize,
                to: to as usize,
                rate,
                light: light.filter(|_| serves)?,
                left,
            })
        });
        let passes: Vec<Pass> = serving.collect();
        Self {
            ask,
            consumption,
            leaving: ByNode::of(&passes, |pass| pass.from),
            passes,
            settled: vec![Vec::new(); NODES as usize + 1],
            open: BinaryHeap::from([Reverse(((ask.time.0, 0), ask.source.0 as usize))]),
            bound: None,
        }
    }

    /// The best chain and its figures, or refusal 13 or 14.
    pub fn best(mut self) -> Result<Best, Refusal> {
        let delivered = self.settle_destination();
        let chain = self.choose(delivered.ok_or(Refusal::bare(NO_ALLOWED_CHAIN))?);
        let figures = self.figures(&chain).ok_or(Refusal::bare(NOT_IN_TIME))?;
        let chain = chain.iter().map(|pass| pass.number).collect();
        Ok(Best { figures, chain })
    }

    /// Settles labels in their order until one is the destination's.
    fn settle_destination(&mut self) -> Option<Label> {
        while let Some(Reverse((label, node))) = self.open.pop() {
            if node == self.ask.destination.0 as usize {
                return Some(label);
            }
            if !self.is_beaten(label, node) {
                self.settled[node].push(label);
                self.follow(label, node);
            }
        }
        None
    }

    /// Whether a label settled at the node has no more contacts.
    fn is_beaten(&self, label: Label, node: usize) -> bool {
        let last = self.settled[node].last();
        last.is_some_and(|last| last.1 <= label.1)
    }

    /// Opens the labels that one more contact leads to.
    fn follow(&mut self, (ready, contacts): Label, node: usize) {
        for pass in self.leaving.at(node).map(|place| &self.passes[place]) {
            let Some((_, arrival)) = pass.hop(ready, self.consumption) else {
                continue;
            };
            let label = (arrival, contacts + 1);
            let is_hopeless = self.bound.is_some_and(|bound| bound <= label);
            if is_hopeless || self.is_beaten(label, pass.to) {
                continue;
            }
            if pass.to == self.ask.destination.0 as usize {
                self.bound = Some(label);
            }
            self.open.push(Reverse((label, pass.to)));
        }
    }

    /// The chain of the settled delivery, chosen from its last contact back,
    /// the lowest number first.
    fn choose(&self, (delivery, count): Label) -> Vec<&Pass> {
        let arriving = ByNode::of(&self.passes, |pass| pass.to);
        let (mut node, mut by) = (self.ask.destination.0 as usize, delivery);
        let mut chain = Vec::with_capacity(count);
        for before in (0..count).rev() {
            let mut passes = arriving.at(node).map(|place| &self.passes[place]);
            let Some((pass, ready_by)) = passes.find_map(|pass| {
                let ready_by = pass.latest_ready(by, self.consumption)?;
                let leads_there = self.earliest(pass.from, before)? <= ready_by;
                leads_there.then_some((pass, ready_by))
            }) else {
                break;
            };
            chain.push(pass);
            (node, by) = (pass.from, ready_by);
        }
        chain.reverse();
        chain
    }

    /// The earliest settled time at a node after at most so many contacts.
    fn earliest(&self, node: usize, contacts: usize) -> Option<u64> {
        let labels = self.settled[node].iter();
        let mut few = labels.filter(|label| label.1 <= contacts);
        few.next().map(|label| label.0)
    }

    /// The figures of an allowed chain, if it is in time.
    fn figures(&self, chain: &[&Pass]) -> Option<Figures> {
        let (opens, delivery) = self.in_time(chain, self.ask.size)?;
        let mut backwards = chain.iter().rev();
        let last_call = backwards.try_fold(self.ask.deadline.0 - 1, |by, pass| {
            pass.latest_ready(by, self.consumption)
        });
        Some(Figures {
            delivery,
            opens,
            last_call: last_call?,
            room: self.room(chain),
        })
    }

    /// Start and delivery of a file of a given size, if it is in time.
    fn in_time(&self, chain: &[&Pass], size: u64) -> Option<(u64, u64)> {
        let consumption = consumption(size);
        let (first, rest) = chain.split_first()?;
        let (opens, ready) = first.hop(self.ask.time.0, consumption)?;
        let delivery = rest
            .iter()
            .try_fold(ready, |ready, pass| Some(pass.hop(ready, consumption)?.1))?;
        (delivery < self.ask.deadline.0).then_some((opens, delivery))
    }

    /// The greatest size that the chain carries in time: it carries the ask's.
    fn room(&self, chain: &[&Pass]) -> u64 {
        let (mut carried, mut not_carried) = (self.ask.size, LARGEST_SIZE + 1);
        while not_carried - carried > 1 {
            let middle = carried + (not_carried - carried) / 2;
            match self.in_time(chain, middle) {
                Some(_) => carried = middle,
                None => not_carried = middle,
            }
        }
        carried
    }
}
