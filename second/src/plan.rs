//! A contact plan: its rows, what makes them valid, and light times.

use std::collections::BTreeMap;

use crate::refusal::{Refusal, NO_VALID_PLAN};
use crate::units::{Millis, NodeNo, HIGHEST_RATE, LATEST_TIME, LONGEST_LIGHT, ROWS, WORDS};

/// A row of a lent table.
pub type Row = [u64; WORDS];

/// A pass during which one node can send to another.
#[derive(Clone, Copy, Debug, PartialEq, Eq)]
pub struct Contact {
    pub start: Millis,
    pub end: Millis,
    pub from: NodeNo,
    pub to: NodeNo,
    pub rate: u64,
}

/// A time during which two nodes are a known light time apart.
#[derive(Clone, Copy, Debug, PartialEq, Eq)]
pub struct Range {
    pub start: Millis,
    pub end: Millis,
    pub a: NodeNo,
    pub b: NodeNo,
    pub light: Millis,
}

impl Contact {
    fn of([start, end, from, to, rate]: Row) -> Self {
        Self {
            start: Millis(start),
            end: Millis(end),
            from: NodeNo(from),
            to: NodeNo(to),
            rate,
        }
    }

    pub fn row(&self) -> Row {
        [self.start.0, self.end.0, self.from.0, self.to.0, self.rate]
    }

    /// The bytes that the contact carries in its whole length.
    pub fn volume(&self) -> u64 {
        self.rate * (self.end.0 - self.start.0) / 1000
    }

    fn is_in_range(&self) -> bool {
        is_span(self.start, self.end)
            && self.from.exists()
            && self.to.exists()
            && self.from != self.to
            && (1..=HIGHEST_RATE).contains(&self.rate)
    }
}

impl Range {
    fn of([start, end, a, b, light]: Row) -> Self {
        Self {
            start: Millis(start),
            end: Millis(end),
            a: NodeNo(a),
            b: NodeNo(b),
            light: Millis(light),
        }
    }

    pub fn row(&self) -> Row {
        [self.start.0, self.end.0, self.a.0, self.b.0, self.light.0]
    }

    fn is_in_range(&self) -> bool {
        is_span(self.start, self.end)
            && self.a.exists()
            && self.b.exists()
            && self.a < self.b
            && self.light.0 <= LONGEST_LIGHT
    }
}

fn is_span(start: Millis, end: Millis) -> bool {
    start < end && end.0 <= LATEST_TIME
}

/// Why a row can't join a plan, in the order in which it is judged.
#[derive(Clone, Copy, Debug, PartialEq, Eq)]
pub enum Fault {
    Full,
    Value,
    Overlap,
}

/// A valid plan, with its rows indexed by pair of nodes and start.
#[derive(Default)]
pub struct Plan {
    contacts: Vec<Contact>,
    ranges: Vec<Range>,
    contact_spans: Spans,
    range_spans: Spans,
}

impl Plan {
    /// The plan in the first rows of two lent tables, or refusal 9.
    pub fn of_tables(
        contacts: &[u64],
        contact_count: u64,
        ranges: &[u64],
        range_count: u64,
    ) -> Result<Self, Refusal> {
        Self::of_rows(contacts, contact_count, ranges, range_count)
            .ok_or(Refusal::bare(NO_VALID_PLAN))
    }

    fn of_rows(
        contacts: &[u64],
        contact_count: u64,
        ranges: &[u64],
        range_count: u64,
    ) -> Option<Self> {
        let mut plan = Self::default();
        for row in rows(contacts, contact_count)? {
            plan.add_contact(row).ok()?;
        }
        for row in rows(ranges, range_count)? {
            plan.add_range(row).ok()?;
        }
        Some(plan)
    }

    pub fn contacts(&self) -> &[Contact] {
        &self.contacts
    }

    pub fn ranges(&self) -> &[Range] {
        &self.ranges
    }

    pub fn add_contact(&mut self, row: Row) -> Result<(), Fault> {
        let contact = Contact::of(row);
        if self.contacts.len() == ROWS {
            return Err(Fault::Full);
        }
        if !contact.is_in_range() {
            return Err(Fault::Value);
        }
        let pair = (contact.from, contact.to);
        let row = self.contacts.len();
        self.contact_spans
            .add(pair, contact.start, contact.end, row)?;
        self.contacts.push(contact);
        Ok(())
    }

    pub fn add_range(&mut self, row: Row) -> Result<(), Fault> {
        let range = Range::of(row);
        if self.ranges.len() == ROWS {
            return Err(Fault::Full);
        }
        if !range.is_in_range() {
            return Err(Fault::Value);
        }
        let row = self.ranges.len();
        self.range_spans
            .add((range.a, range.b), range.start, range.end, row)?;
        self.ranges.push(range);
        Ok(())
    }

    /// The light time of a contact: the largest of the ranges that cover it,
    /// taken from its start on, each where the one before ends; none where one
    /// is missing. As no two ranges of a pair overlap, no other shares time
    /// with the contact.
    pub fn light(&self, contact: &Contact) -> Option<Millis> {
        let pair = (contact.from.min(contact.to), contact.from.max(contact.to));
        let mut largest = Millis(0);
        let mut covered_to = contact.start;
        while covered_to < contact.end {
            let span = self.range_spans.at(pair, covered_to)?;
            largest = largest.max(self.ranges[span.row].light);
            covered_to = span.end;
        }
        Some(largest)
    }
}

/// The first `count` rows of a table; none if there are not so many.
fn rows(table: &[u64], count: u64) -> Option<impl Iterator<Item = Row> + '_> {
    let count = usize::try_from(count).ok()?;
    if count > ROWS || count > table.len() / WORDS {
        return None;
    }
    let rows = table.chunks_exact(WORDS).take(count);
    Some(rows.map(|words| [words[0], words[1], words[2], words[3], words[4]]))
}

/// The spans of the rows of one table, of which no two of a pair overlap.
#[derive(Default)]
struct Spans {
    by_start: BTreeMap<(NodeNo, NodeNo, Millis), Span>,
}

#[derive(Clone, Copy)]
struct Span {
    end: Millis,
    row: usize,
}

impl Spans {
    fn add(
        &mut self,
        pair: (NodeNo, NodeNo),
        start: Millis,
        end: Millis,
        row: usize,
    ) -> Result<(), Fault> {
        // The spans of a pair are apart, so one that overlaps the new one is
        // the last that begins before the new one ends.
        let last = Millis(end.0 - 1);
        match self.latest_begun(pair, last) {
            Some(other) if start < other.end => Err(Fault::Overlap),
            _ => {
                self.by_start
                    .insert((pair.0, pair.1, start), Span { end, row });
                Ok(())
            }
        }
    }

    /// The span of the pair that holds a millisecond.
    fn at(&self, pair: (NodeNo, NodeNo), moment: Millis) -> Option<Span> {
        self.latest_begun(pair, moment)
            .filter(|span| moment < span.end)
    }

    /// The last span of the pair that starts at a time or before it.
    fn latest_begun(&self, (a, b): (NodeNo, NodeNo), at: Millis) -> Option<Span> {
        let mut begun = self.by_start.range((a, b, Millis(0))..=(a, b, at));
        begun.next_back().map(|(_, span)| *span)
    }
}
