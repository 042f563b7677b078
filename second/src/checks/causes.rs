//! Which kinds of refused chains were walked: each cause at each position, two
//! faults at one position, and faults at two.

use crate::ask::GoodAsk;
use crate::checks::tally::Tally;
use crate::definitions::Definitions;
use crate::faults::{ChainFault, CAUSES};
use crate::refusal::{
    DOES_NOT_FIT, DOES_NOT_JOIN, ENDS_ELSEWHERE, EXCLUDED_NEIGHBOUR, NO_SUCH_CONTACT, UNRANGED,
};

/// The positions of a contact that are told apart.
const POSITIONS: [&str; 4] = ["only", "first", "middle", "last"];

/// Every two causes that one contact can have: one that does not exist has no
/// other.
const TWO_AT_ONE_POSITION: [(u64, u64); 6] = [
    (DOES_NOT_JOIN, EXCLUDED_NEIGHBOUR),
    (DOES_NOT_JOIN, UNRANGED),
    (DOES_NOT_JOIN, DOES_NOT_FIT),
    (EXCLUDED_NEIGHBOUR, UNRANGED),
    (EXCLUDED_NEIGHBOUR, DOES_NOT_FIT),
    (UNRANGED, DOES_NOT_FIT),
];

/// Every kind of a call that must be met.
pub fn kinds(call: &str) -> Vec<String> {
    let mut kinds = Vec::new();
    for cause in CAUSES {
        kinds.extend(POSITIONS.map(|position| at_position(call, cause, position)));
        kinds.push(and_later(call, cause));
        kinds.push(and_elsewhere(call, cause));
        if cause != NO_SUCH_CONTACT {
            kinds.push(and_lower_later(call, cause));
        }
    }
    let two = TWO_AT_ONE_POSITION.into_iter();
    kinds.extend(two.map(|(told, other)| and_at_once(call, told, other)));
    kinds.extend([0, 1, 2].map(|length| elsewhere(call, length)));
    kinds.push(elsewhere_and_late(call));
    kinds
}

/// The kinds of a call in which a contact does not fit, at each position.
pub fn kinds_of_fit(call: &str) -> Vec<String> {
    POSITIONS
        .map(|position| at_position(call, DOES_NOT_FIT, position))
        .into()
}

/// Counts the kinds of a chain, unless it is allowed.
pub fn meet(
    call: &str,
    definitions: &Definitions,
    ask: &GoodAsk,
    chain: &[u64],
    tally: &mut Tally,
) {
    if definitions.is_good(ask, chain) {
        return;
    }
    let faults = definitions.faults(ask, chain);
    let reached = definitions.reached(ask, chain);
    let end = reached[chain.len()];
    match faults.iter().min() {
        Some(&told) => {
            meet_fault(call, told, &faults, chain.len(), tally);
            if end.node != Some(ask.destination.0) {
                tally.meet(and_elsewhere(call, told.cause));
            }
        }
        None => {
            tally.meet(elsewhere(call, chain.len()));
            if end.ready >= Some(ask.deadline.0) {
                tally.meet(elsewhere_and_late(call));
            }
        }
    }
}

/// Counts the kinds of a chain of so many contacts by all its faults, of which
/// one is told.
fn meet_fault(
    call: &str,
    told: ChainFault,
    faults: &[ChainFault],
    length: usize,
    tally: &mut Tally,
) {
    let ChainFault { position, cause } = told;
    tally.meet(at_position(call, cause, name(position, length as u64)));
    let others = faults.iter().copied().filter(|&fault| fault != told);
    let (at_once, later): (Vec<ChainFault>, Vec<ChainFault>) =
        others.partition(|fault| fault.position == position);
    for other in at_once {
        tally.meet(and_at_once(call, cause, other.cause));
    }
    if !later.is_empty() {
        tally.meet(and_later(call, cause));
    }
    if later.iter().any(|fault| fault.cause < cause) {
        tally.meet(and_lower_later(call, cause));
    }
}

/// What a position of a chain of so many contacts is called.
fn name(position: u64, length: u64) -> &'static str {
    let [only, first, middle, last] = POSITIONS;
    match position {
        1 if length == 1 => only,
        1 => first,
        _ if position == length => last,
        _ => middle,
    }
}

fn at_position(call: &str, cause: u64, position: &str) -> String {
    format!("{call}, {cause} at the {position} position")
}

fn and_at_once(call: &str, cause: u64, other: u64) -> String {
    format!("{call}, {cause} where {other} holds too")
}

fn and_later(call: &str, cause: u64) -> String {
    format!("{call}, {cause} and a later fault")
}

fn and_lower_later(call: &str, cause: u64) -> String {
    format!("{call}, {cause} and a later fault of a lower number")
}

fn and_elsewhere(call: &str, cause: u64) -> String {
    format!("{call}, {cause} and ends elsewhere")
}

fn elsewhere(call: &str, length: usize) -> String {
    let chain = match length {
        0 => "no contact",
        1 => "one contact",
        _ => "several contacts",
    };
    format!("{call}, {ENDS_ELSEWHERE} of {chain}")
}

fn elsewhere_and_late(call: &str) -> String {
    format!("{call}, {ENDS_ELSEWHERE} and late")
}
