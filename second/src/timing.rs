//! The timing of a chain: hops and the four figures.

use crate::ask::GoodAsk;
use crate::book::Book;
use crate::plan::{Contact, Plan};
use crate::refusal::{
    Refusal, DOES_NOT_FIT, DOES_NOT_JOIN, ENDS_ELSEWHERE, EXCLUDED_NEIGHBOUR, NOT_IN_TIME,
    NO_SUCH_CONTACT, UNRANGED,
};
use crate::units::{Class, ContactNo, Millis, NodeNo, LARGEST_SIZE};

/// What is said of an allowed chain in time.
#[derive(Clone, Copy, Debug, PartialEq, Eq)]
pub struct Figures {
    pub delivery: u64,
    pub opens: u64,
    pub last_call: u64,
    pub room: u64,
}

/// What a file takes of a contact's volume: its size and three hundredths.
pub fn consumption(size: u64) -> u64 {
    size + (3 * size).div_ceil(100)
}

/// A ranged contact with its light time, and with what is left of its volume
/// in the class of the ask.
#[derive(Clone, Copy)]
pub struct Link {
    pub contact: Contact,
    light: Millis,
    left: i64,
}

/// A file's way over one contact.
#[derive(Clone, Copy)]
pub struct Hop {
    pub start: Millis,
    pub ready: Millis,
}

impl Link {
    fn sending_time(&self, consumption: u64) -> Millis {
        Millis((consumption * 1000).div_ceil(self.contact.rate))
    }

    /// Whether enough of the volume is left.
    fn holds(&self, consumption: u64) -> bool {
        i128::from(consumption) <= i128::from(self.left)
    }

    /// The way of a file that is ready before the contact, if it fits: in what
    /// is left of the volume, and in time.
    pub fn hop(&self, ready: Millis, consumption: u64) -> Option<Hop> {
        let start = ready.max(self.contact.start);
        let sent = start + self.sending_time(consumption);
        let fits = self.holds(consumption) && sent <= self.contact.end;
        fits.then(|| Hop {
            start,
            ready: sent + self.light,
        })
    }

    /// The latest time at which a file may be ready before the contact and is
    /// ready behind it by a given time, if there is one.
    pub fn latest_ready(&self, by: Millis, consumption: u64) -> Option<Millis> {
        let sent_by = by.earlier_by(self.light)?.min(self.contact.end);
        let start_by = sent_by.earlier_by(self.sending_time(consumption))?;
        let fits = self.holds(consumption) && self.contact.start <= start_by;
        fits.then_some(start_by)
    }
}

/// The contacts of a plan by number, and the links of those that are ranged.
pub struct Links {
    contacts: Vec<Contact>,
    links: Vec<Option<Link>>,
}

impl Links {
    /// The links of a plan on which nothing is booked.
    pub fn of(plan: &Plan) -> Self {
        Self::booked(plan, &Book::default(), Class::LOWEST)
    }

    /// The links of a plan with its book, for asks of a class.
    pub fn booked(plan: &Plan, book: &Book, class: Class) -> Self {
        let link = |(&contact, left): (&Contact, i64)| {
            let light = plan.light(&contact)?;
            Some(Link {
                contact,
                light,
                left,
            })
        };
        let left = book.left(plan, class);
        Self {
            contacts: plan.contacts().to_vec(),
            links: plan.contacts().iter().zip(left).map(link).collect(),
        }
    }

    /// The contact of a number, ranged or not.
    fn contact(&self, number: ContactNo) -> Option<&Contact> {
        self.contacts.get(number.row()?)
    }

    /// The link of a number; an unranged contact has none.
    pub fn get(&self, number: ContactNo) -> Option<&Link> {
        self.links.get(number.row()?)?.as_ref()
    }

    /// Every link with its contact's number, lowest first.
    pub fn iter(&self) -> impl Iterator<Item = (ContactNo, &Link)> {
        let rows = self.links.iter().enumerate();
        rows.filter_map(|(row, link)| Some((ContactNo::of_row(row), link.as_ref()?)))
    }
}

/// The figures of a chain, or refusal 18 to 23, or 14.
pub fn figures(
    links: &Links,
    ask: &GoodAsk,
    chain: impl Iterator<Item = ContactNo>,
) -> Result<Figures, Refusal> {
    let chain = allowed(links, ask, chain)?;
    let late = Refusal::bare(NOT_IN_TIME);
    let passage = pass(&chain, ask.time, ask.size)
        .filter(|passage| passage.delivery < ask.deadline)
        .ok_or(late)?;
    Ok(Figures {
        delivery: passage.delivery.0,
        opens: passage.opens.0,
        last_call: last_call(&chain, ask).ok_or(late)?.0,
        room: room(&chain, ask),
    })
}

/// The links of an allowed chain, or the refusal of its first contact at
/// fault. Each contact is judged where and when the good ones before it have
/// the file ready.
fn allowed<'a>(
    links: &'a Links,
    ask: &GoodAsk,
    chain: impl Iterator<Item = ContactNo>,
) -> Result<Vec<&'a Link>, Refusal> {
    let consumption = consumption(ask.size);
    let (mut node, mut ready) = (ask.source, ask.time);
    let mut allowed = Vec::new();
    for (position, number) in (1..).zip(chain) {
        let at_fault = |cause| Refusal::new(cause, position);
        let link = reached(links, ask, node, number).map_err(at_fault)?;
        let hop = link.hop(ready, consumption);
        ready = hop.ok_or(at_fault(DOES_NOT_FIT))?.ready;
        node = link.contact.to;
        allowed.push(link);
    }
    // The empty chain ends at the source, which is not the destination.
    if node != ask.destination {
        return Err(Refusal::new(ENDS_ELSEWHERE, allowed.len() as u64));
    }
    Ok(allowed)
}

/// The link of a contact that a chain reaches at a node, or the lowest cause,
/// 18 to 21, that keeps it out of an allowed chain.
fn reached<'a>(
    links: &'a Links,
    ask: &GoodAsk,
    node: NodeNo,
    number: ContactNo,
) -> Result<&'a Link, u64> {
    let contact = links.contact(number).ok_or(NO_SUCH_CONTACT)?;
    if contact.from != node {
        return Err(DOES_NOT_JOIN);
    }
    if ask.excludes(contact) {
        return Err(EXCLUDED_NEIGHBOUR);
    }
    links.get(number).ok_or(UNRANGED)
}

struct Passage {
    opens: Millis,
    delivery: Millis,
}

/// The passage of a file over a chain that is not empty, if it fits everywhere.
fn pass(chain: &[&Link], time: Millis, size: u64) -> Option<Passage> {
    let consumption = consumption(size);
    let (first, rest) = chain.split_first()?;
    let first = first.hop(time, consumption)?;
    let mut ready = first.ready;
    for link in rest {
        ready = link.hop(ready, consumption)?.ready;
    }
    Some(Passage {
        opens: first.start,
        delivery: ready,
    })
}

/// The greatest time from which the chain delivers before the deadline.
fn last_call(chain: &[&Link], ask: &GoodAsk) -> Option<Millis> {
    let consumption = consumption(ask.size);
    let in_time = ask.deadline.earlier_by(Millis(1))?;
    let mut backwards = chain.iter().rev();
    backwards.try_fold(in_time, |by, link| link.latest_ready(by, consumption))
}

/// The greatest size that a chain carries in time, given that it carries the
/// ask's: a larger file never arrives earlier.
fn room(chain: &[&Link], ask: &GoodAsk) -> u64 {
    let mut carried = ask.size;
    let mut not_carried = LARGEST_SIZE + 1;
    while not_carried - carried > 1 {
        let middle = carried + (not_carried - carried) / 2;
        let passage = pass(chain, ask.time, middle);
        if passage.is_some_and(|passage| passage.delivery < ask.deadline) {
            carried = middle;
        } else {
            not_carried = middle;
        }
    }
    carried
}
