//! A valid plan in the making: rows are added only where they fit.

use crate::cases::lines::Pieces;
use crate::plain::{contact_is_good, overlap, range_is_good};
use crate::plan::{Plan, Row};
use crate::random::Random;
use crate::units::{HIGHEST_RATE, LONGEST_LIGHT, NODES, ROWS};

/// The two kinds of row.
#[derive(Clone, Copy, Debug, PartialEq, Eq)]
pub enum Kind {
    Contact,
    Range,
}

impl Kind {
    pub fn word(self) -> &'static str {
        match self {
            Kind::Contact => "contact",
            Kind::Range => "range",
        }
    }

    /// The least and the greatest rate or light time.
    pub fn last_limits(self) -> (u64, u64) {
        match self {
            Kind::Contact => (1, HIGHEST_RATE),
            Kind::Range => (0, LONGEST_LIGHT),
        }
    }

    fn is_good(self, row: &Row) -> bool {
        match self {
            Kind::Contact => contact_is_good(row),
            Kind::Range => range_is_good(row),
        }
    }
}

#[derive(Clone, Default)]
pub struct Draft {
    pub contacts: Vec<Row>,
    pub ranges: Vec<Row>,
}

impl Draft {
    /// The draft with these rows, as far as they fit.
    pub fn of(contacts: &[Row], ranges: &[Row]) -> Self {
        let mut draft = Self::default();
        for &row in contacts {
            draft.add(Kind::Contact, row);
        }
        for &row in ranges {
            draft.add(Kind::Range, row);
        }
        draft
    }

    pub fn rows(&self, kind: Kind) -> &[Row] {
        match kind {
            Kind::Contact => &self.contacts,
            Kind::Range => &self.ranges,
        }
    }

    /// Whether a row is good and overlaps none of its table.
    pub fn fits(&self, kind: Kind, row: &Row) -> bool {
        kind.is_good(row) && !self.rows(kind).iter().any(|other| overlap(other, row))
    }

    /// Adds a row if it fits and there is room for it.
    pub fn add(&mut self, kind: Kind, row: Row) -> bool {
        let taken = self.rows(kind).len() < ROWS && self.fits(kind, &row);
        if taken {
            match kind {
                Kind::Contact => self.contacts.push(row),
                Kind::Range => self.ranges.push(row),
            }
        }
        taken
    }

    /// Adds random rows until the table has as many as wanted.
    pub fn fill(&mut self, random: &mut Random, kind: Kind, wanted: usize) {
        while self.rows(kind).len() < wanted.min(ROWS) {
            let row = self.fresh(random, kind);
            self.add(kind, row);
        }
    }

    /// A random row that fits, whether or not there is room for it.
    pub fn fresh(&self, random: &mut Random, kind: Kind) -> Row {
        loop {
            let start = random.below(40) * 1000;
            let end = start + random.between(1, 20) * 1000;
            let (a, b) = (random.between(1, NODES), random.between(1, NODES));
            let last = match kind {
                Kind::Contact => random.between(1, 5) * 500,
                Kind::Range => random.below(20),
            };
            let row = match kind {
                Kind::Contact => [start, end, a, b, last],
                Kind::Range => [start, end, a.min(b), a.max(b), last],
            };
            if self.fits(kind, &row) {
                return row;
            }
        }
    }

    /// Puts the contacts in another order, which changes their numbers.
    pub fn renumber(&mut self, random: &mut Random) {
        random.shuffle(&mut self.contacts);
        random.shuffle(&mut self.ranges);
    }

    /// The plan's lines after the header.
    pub fn lines(&self) -> Vec<Vec<u8>> {
        let of_kind = |kind: Kind| {
            let rows = self.rows(kind).iter();
            rows.map(move |row| Pieces::new(kind.word(), row).bytes())
        };
        of_kind(Kind::Contact).chain(of_kind(Kind::Range)).collect()
    }

    /// The plan's text.
    pub fn text(&self) -> Vec<u8> {
        [b"plan\t1\n".to_vec(), self.lines().concat()].concat()
    }

    /// The rows as two lent tables.
    pub fn tables(&self) -> (Vec<u64>, Vec<u64>) {
        (self.contacts.concat(), self.ranges.concat())
    }

    /// The plan that these rows are.
    pub fn plan(&self) -> Plan {
        let mut plan = Plan::default();
        for &row in &self.contacts {
            plan.add_contact(row).expect("a draft's contacts fit");
        }
        for &row in &self.ranges {
            plan.add_range(row).expect("a draft's ranges fit");
        }
        plan
    }
}
