//! A plain slow router for plans of any size, for checks only.
//!
//! For each number of contacts it keeps the earliest time at every node, by
//! trying every contact; the chain is chosen from its last contact back by
//! timing each candidate forward to the destination.

use crate::ask::GoodAsk;
use crate::definitions::{excluded, Definitions};
use crate::plan::Plan;
use crate::refusal::{Refusal, NO_ALLOWED_CHAIN};
use crate::router::{Best, Router};
use crate::units::{ContactNo, LONGEST_BEST, NODES};

/// The earliest time at each node, by node number; place 0 is not used.
type Layer = [Option<u64>; NODES as usize + 1];

pub struct Layered {
    definitions: Definitions,
}

impl Router for Layered {
    fn prepare(plan: &Plan) -> Self {
        Self::over(Definitions::of(plan))
    }

    fn best(&self, ask: &GoodAsk) -> Result<Best, Refusal> {
        let chain = self
            .best_chain(ask)
            .ok_or(Refusal::bare(NO_ALLOWED_CHAIN))?;
        let figures = self.definitions.figures(ask, &chain)?;
        Ok(Best {
            figures,
            chain: chain.into_iter().map(ContactNo).collect(),
        })
    }
}

impl Layered {
    pub fn over(definitions: Definitions) -> Self {
        Self { definitions }
    }

    fn best_chain(&self, ask: &GoodAsk) -> Option<Vec<u64>> {
        let layers = self.layers(ask);
        let destination = ask.destination.0 as usize;
        let delivery = layers.iter().filter_map(|layer| layer[destination]).min()?;
        let count = layers
            .iter()
            .position(|layer| layer[destination] == Some(delivery))?;
        let mut chain: Vec<u64> = Vec::new();
        for layer in layers[..count].iter().rev() {
            let next = chain.first().map_or(ask.destination.0, |&number| {
                self.definitions.contacts[number as usize - 1][2]
            });
            let number = (1..=self.definitions.contacts.len() as u64).find(|&number| {
                let contact = &self.definitions.contacts[number as usize - 1];
                contact[3] == next && self.arrival(ask, layer, number, &chain) == Some(delivery)
            })?;
            chain.insert(0, number);
        }
        Some(chain)
    }

    fn layers(&self, ask: &GoodAsk) -> Vec<Layer> {
        let mut first: Layer = [None; NODES as usize + 1];
        first[ask.source.0 as usize] = Some(ask.time.0);
        let mut layers = vec![first];
        for length in 0..LONGEST_BEST {
            let next = self.next_layer(ask, &layers[length]);
            if next == layers[length] {
                break;
            }
            layers.push(next);
        }
        layers
    }

    fn next_layer(&self, ask: &GoodAsk, before: &Layer) -> Layer {
        let mut after = *before;
        for (number, contact) in (1..).zip(&self.definitions.contacts) {
            if let Some(arrival) = self.across(ask, before, number) {
                let place = &mut after[contact[3] as usize];
                *place = Some(place.map_or(arrival, |known| known.min(arrival)));
            }
        }
        after
    }

    /// The arrival over a contact from the earliest time at its node.
    fn across(&self, ask: &GoodAsk, before: &Layer, number: u64) -> Option<u64> {
        let contact = self.definitions.contact(number)?;
        if excluded(ask, contact) {
            return None;
        }
        let ready = before[contact[2] as usize]?;
        self.definitions
            .hop(number, ready, ask.size)
            .map(|(_, arrival)| arrival)
    }

    /// The arrival over a contact and then the rest of the chain.
    fn arrival(&self, ask: &GoodAsk, before: &Layer, number: u64, rest: &[u64]) -> Option<u64> {
        let mut ready = self.across(ask, before, number)?;
        for &number in rest {
            ready = self.definitions.hop(number, ready, ask.size)?.1;
        }
        Some(ready)
    }
}
