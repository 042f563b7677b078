//! Chains to walk: best ones, ones that come round or go astray, any, damaged
//! ones, and ones with contacts at fault.

use crate::ask::{Ask, GoodAsk};
use crate::definitions::Definitions;
use crate::faults::CAUSES;
use crate::random::Random;
use crate::route::Network;
use crate::router::Router;

/// A chain for an ask on a plan, at most so long.
pub fn chain(
    random: &mut Random,
    definitions: &Definitions,
    network: &Network,
    ask: &Ask,
    longest: usize,
) -> Vec<u64> {
    let Ok(good) = ask.check() else {
        return any(random, definitions, longest);
    };
    let chain = made_for(random, definitions, network, &good, longest);
    if chain.is_empty() && random.percent(90) {
        return astray(random, definitions, &good, longest, false);
    }
    chain
}

/// A chain of one of the kinds there are; an empty one where there is none.
fn made_for(
    random: &mut Random,
    definitions: &Definitions,
    network: &Network,
    ask: &GoodAsk,
    longest: usize,
) -> Vec<u64> {
    match random.below(16) {
        0..=3 => strolled(random, definitions, ask, longest, true),
        4 | 5 => strolled(random, definitions, ask, longest, false),
        6..=8 => best(network, ask),
        9 => damaged(random, definitions, best(network, ask)),
        10 => {
            let strolled = strolled(random, definitions, ask, longest, true);
            damaged(random, definitions, strolled)
        }
        11 => astray(random, definitions, ask, longest, true),
        12 => faulty(random, definitions, ask, best(network, ask)),
        13 | 14 => {
            let astray = astray(random, definitions, ask, longest, true);
            faulty(random, definitions, ask, astray)
        }
        _ => any(random, definitions, longest),
    }
}

/// The ask with an exclusion of a node that the chain goes to from the source,
/// if it comes through the source again: where there is one, a node that it
/// does not go to first.
pub fn exclude_later(
    random: &mut Random,
    definitions: &Definitions,
    ask: &Ask,
    chain: &[u64],
) -> Ask {
    let contact = |&number: &u64| definitions.contact(number);
    let later = chain.iter().skip(1).filter_map(contact);
    let leaving = later.filter(|contact| contact[2] == ask.source);
    let mut neighbours: Vec<u64> = leaving.map(|contact| contact[3]).collect();
    let first = chain.first().and_then(contact).map(|contact| contact[3]);
    if neighbours.iter().any(|&node| Some(node) != first) {
        neighbours.retain(|&node| Some(node) != first);
    }
    let mut ask = *ask;
    if !neighbours.is_empty() {
        ask.excluded = 1 << (random.pick(&neighbours) - 1);
    }
    ask
}

fn best(network: &Network, ask: &GoodAsk) -> Vec<u64> {
    let best = network.best(ask);
    best.map_or(Vec::new(), |best| {
        best.chain.iter().map(|number| number.0).collect()
    })
}

/// A chain of contacts that join, from the source on, cut off where it last
/// comes to the destination, if it does.
fn strolled(
    random: &mut Random,
    definitions: &Definitions,
    ask: &GoodAsk,
    longest: usize,
    fitting: bool,
) -> Vec<u64> {
    let mut chain = astray(random, definitions, ask, longest, fitting);
    let arrives = |&number: &u64| {
        let contact = definitions.contact(number);
        contact.is_some_and(|contact| contact[3] == ask.destination.0)
    };
    let arrived = chain.iter().rposition(arrives);
    chain.truncate(arrived.map_or(0, |place| place + 1));
    chain
}

/// A chain of contacts that join, from the source on, and end anywhere. It may
/// pass any node and contact many times.
fn astray(
    random: &mut Random,
    definitions: &Definitions,
    ask: &GoodAsk,
    longest: usize,
    fitting: bool,
) -> Vec<u64> {
    let (mut node, mut ready) = (ask.source.0, ask.time.0);
    let mut chain = Vec::new();
    for _ in 0..random.between(1, longest as u64) {
        let next = onward(definitions, node, ready, ask.size, fitting);
        if next.is_empty() {
            break;
        }
        let number;
        (number, node, ready) = random.pick(&next);
        chain.push(number);
    }
    chain
}

/// The contacts on from a node: the number of each, where it leads to, and when
/// the file is ready there. One that does not carry the file takes no time.
fn onward(
    definitions: &Definitions,
    node: u64,
    ready: u64,
    size: u64,
    fitting: bool,
) -> Vec<(u64, u64, u64)> {
    let contacts = (1..).zip(&definitions.contacts);
    let leaving = contacts.filter(|(_, contact)| contact[2] == node);
    let onward = leaving.filter_map(|(number, contact)| {
        let hop = definitions.hop(number, ready, size);
        let arrival = hop.map_or(ready, |(_, arrival)| arrival);
        (hop.is_some() || !fitting).then_some((number, contact[3], arrival))
    });
    onward.collect()
}

/// The chain with one contact at fault or two, each for a cause drawn before.
fn faulty(
    random: &mut Random,
    definitions: &Definitions,
    ask: &GoodAsk,
    mut chain: Vec<u64>,
) -> Vec<u64> {
    for _ in 0..random.pick(&[1, 1, 2]) {
        let place = some_place(random, chain.len());
        if let Some(number) = at_fault(random, definitions, ask, &chain[..place]) {
            if place < chain.len() && random.percent(70) {
                chain[place] = number;
            } else {
                chain.insert(place, number);
            }
        }
    }
    chain
}

/// A place in a list of so many, or the one behind them: the first, one of the
/// last two, or any.
fn some_place(random: &mut Random, length: usize) -> usize {
    let any = random.index(length + 1);
    random.pick(&[0, any, any, length.saturating_sub(1), length])
}

/// A number that is at fault behind the contacts of a chain, for a cause that
/// is drawn, if any is.
fn at_fault(
    random: &mut Random,
    definitions: &Definitions,
    ask: &GoodAsk,
    before: &[u64],
) -> Option<u64> {
    let reached = *definitions.reached(ask, before).last()?;
    let cause = random.pick(&CAUSES);
    let last = definitions.contacts.len() as u64 + 1;
    let is_at_fault = |number: &u64| definitions.is_at_fault(cause, ask, reached, *number);
    let at_fault: Vec<u64> = (0..=last).filter(is_at_fault).collect();
    (!at_fault.is_empty()).then(|| random.pick(&at_fault))
}

/// Any numbers of contacts, or nearly.
fn any(random: &mut Random, definitions: &Definitions, longest: usize) -> Vec<u64> {
    let count = definitions.contacts.len() as u64;
    let length = random.between(0, longest as u64);
    (0..length).map(|_| random.between(0, count + 1)).collect()
}

/// The chain with one contact replaced, doubled, left out or added.
fn damaged(random: &mut Random, definitions: &Definitions, mut chain: Vec<u64>) -> Vec<u64> {
    let count = definitions.contacts.len() as u64;
    let number = random.pick(&[0, 1, count, count + 1, u64::MAX, 1 << 32, (1 << 32) + 1]);
    if chain.is_empty() {
        return vec![number];
    }
    let place = random.index(chain.len());
    match random.below(4) {
        0 => chain[place] = number,
        1 => chain.insert(place, chain[place]),
        2 => {
            chain.remove(place);
        }
        _ => chain.push(number),
    }
    chain
}
