//! Timing said again as plainly as it can be, for checks only.
//!
//! Nothing here is indexed or worked back: a chain is timed contact by contact,
//! and last call and room are the greatest number for which the same chain is
//! still allowed and in time. Why a chain is not allowed stands in `faults`. It
//! shares no code with `timing`.

use crate::ask::GoodAsk;
use crate::plain;
use crate::plan::{Plan, Row};
use crate::refusal::{Refusal, NOT_IN_TIME};
use crate::timing::Figures;
use crate::units::LARGEST_SIZE;

/// When a chain starts on its first contact, and when it delivers.
#[derive(Clone, Copy)]
pub struct Times {
    pub opens: u64,
    pub delivery: u64,
}

/// A plan's contacts with their light times, and the definitions of document 01
/// about them. With a book also what is left of each contact, which a file must
/// not exceed.
pub struct Definitions {
    pub contacts: Vec<Row>,
    lights: Vec<Option<u64>>,
    left: Option<Vec<i128>>,
}

impl Definitions {
    /// The definitions of document 01 by itself, in which nothing is said of
    /// volumes.
    pub fn of(plan: &Plan) -> Self {
        let contacts: Vec<Row> = plan.contacts().iter().map(|c| c.row()).collect();
        let ranges: Vec<Row> = plan.ranges().iter().map(|r| r.row()).collect();
        let lights = contacts.iter().map(|c| plain::light(c, &ranges));
        Self {
            lights: lights.collect(),
            contacts,
            left: None,
        }
    }

    /// The definitions where so much is left of each contact.
    pub fn with_left(plan: &Plan, left: Vec<i128>) -> Self {
        Self {
            left: Some(left),
            ..Self::of(plan)
        }
    }

    /// The definitions on a valid book, for asks of a class.
    pub fn booked(plan: &Plan, book: &[u64], booked: &[u16], class: u64) -> Self {
        let contacts = (1..).zip(plan.contacts());
        let left = contacts
            .map(|(number, contact)| plain::left(number, &contact.row(), book, booked, class));
        Self::with_left(plan, left.collect())
    }

    /// The row of the contact with a number.
    pub fn contact(&self, number: u64) -> Option<&Row> {
        let row = number.checked_sub(1)?;
        self.contacts.get(usize::try_from(row).ok()?)
    }

    /// The light time of the contact with a number, if it is ranged.
    pub fn light(&self, number: u64) -> Option<u64> {
        self.lights[number as usize - 1]
    }

    /// Whether a file fits on the contact with a number: in what is left of its
    /// volume, and in time.
    pub fn fits(&self, number: u64, ready: u64, size: u64) -> bool {
        let contact = &self.contacts[number as usize - 1];
        let left = self.left.as_ref().map(|left| left[number as usize - 1]);
        let has_volume = left.is_none_or(|left| i128::from(consumption(size)) <= left);
        has_volume && sent(contact, ready, size) <= contact[1]
    }

    /// Start and arrival over one contact, if it is ranged and the file fits.
    pub fn hop(&self, number: u64, ready: u64, size: u64) -> Option<(u64, u64)> {
        let contact = self.contact(number)?;
        let light = self.light(number)?;
        let arrival = sent(contact, ready, size) + light;
        self.fits(number, ready, size)
            .then_some((start(contact, ready), arrival))
    }

    /// The times of a chain, if it is allowed for the ask with this time and
    /// this size in place of the ask's own.
    pub fn allowed(&self, ask: &GoodAsk, time: u64, size: u64, chain: &[u64]) -> Option<Times> {
        let first = self.contact(*chain.first()?)?;
        let last = self.contact(*chain.last()?)?;
        if first[2] != ask.source.0 || last[3] != ask.destination.0 {
            return None;
        }
        let mut opens = None;
        let mut ready = time;
        let mut node = ask.source.0;
        for &number in chain {
            let contact = self.contact(number)?;
            if contact[2] != node || excluded(ask, contact) {
                return None;
            }
            let (start, arrival) = self.hop(number, ready, size)?;
            opens = opens.or(Some(start));
            ready = arrival;
            node = contact[3];
        }
        opens.map(|opens| Times {
            opens,
            delivery: ready,
        })
    }

    /// The figures of a chain, or refusal 18 to 23, or 14.
    pub fn figures(&self, ask: &GoodAsk, chain: &[u64]) -> Result<Figures, Refusal> {
        let in_time = |time, size| {
            let times = self.allowed(ask, time, size, chain);
            times.is_some_and(|times| times.delivery < ask.deadline.0)
        };
        let times = self
            .allowed(ask, ask.time.0, ask.size, chain)
            .ok_or_else(|| self.why_not(ask, chain))?;
        if times.delivery >= ask.deadline.0 {
            return Err(Refusal::bare(NOT_IN_TIME));
        }
        Ok(Figures {
            delivery: times.delivery,
            opens: times.opens,
            last_call: greatest(ask.time.0, self.first_end(chain), |time| {
                in_time(time, ask.size)
            }),
            room: greatest(ask.size, self.volume(chain), |size| {
                in_time(ask.time.0, size)
            }),
        })
    }

    /// The end of a chain's first contact: from later on nothing is sent.
    fn first_end(&self, chain: &[u64]) -> u64 {
        let first = chain.first().and_then(|&number| self.contact(number));
        first.map_or(0, |contact| contact[1])
    }

    /// The bytes that the least contact of a chain could carry in its whole
    /// length: no larger file fits.
    fn volume(&self, chain: &[u64]) -> u64 {
        let contacts = chain.iter().filter_map(|&number| self.contact(number));
        let volumes = contacts.map(|c| up((c[1] - c[0]) * c[4], 1000));
        volumes.min().unwrap_or(0).min(LARGEST_SIZE)
    }
}

/// Whether a contact goes from the source to an excluded neighbour.
pub fn excluded(ask: &GoodAsk, contact: &Row) -> bool {
    let bit = 1u64 << (contact[3] - 1);
    contact[2] == ask.source.0 && ask.excluded & bit != 0
}

/// When a file that is ready starts on a contact.
fn start(contact: &Row, ready: u64) -> u64 {
    if ready > contact[0] {
        ready
    } else {
        contact[0]
    }
}

/// When a file that is ready is sent over a contact.
fn sent(contact: &Row, ready: u64, size: u64) -> u64 {
    start(contact, ready) + up(consumption(size) * 1000, contact[4])
}

/// A file's size and three hundredths of it, rounded up.
pub fn consumption(size: u64) -> u64 {
    size + up(3 * size, 100)
}

/// A quotient rounded up.
fn up(dividend: u64, divisor: u64) -> u64 {
    let quotient = dividend / divisor;
    if quotient * divisor == dividend {
        quotient
    } else {
        quotient + 1
    }
}

/// The furthest that `greatest` steps one by one.
const STEPS: u64 = 5_000;

/// The greatest number from `holding`, for which it holds, to `most` for which
/// it holds: stepping down where the way is short, by bisection where not.
fn greatest(holding: u64, most: u64, holds: impl Fn(u64) -> bool) -> u64 {
    let (mut low, mut high) = (holding, most.max(holding));
    if high - low <= STEPS {
        return (low..=high).rev().find(|&n| holds(n)).unwrap_or(low);
    }
    while low < high {
        let middle = high - (high - low) / 2;
        if holds(middle) {
            low = middle;
        } else {
            high = middle - 1;
        }
    }
    low
}
