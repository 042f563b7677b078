//! How many pairs of each kind there were, and what became of them.

use super::facts::{Kind, Outcome};

/// What a kind must be seen to give at least once. What it must never give is
/// a difference, or can't be: a further contact leaves the same chain its
/// figures, and one past the last call the same chain is not found again.
fn must_meet(kind: Kind) -> &'static [Outcome] {
    use Outcome::{Gained, Kept, Lost, OtherChain, OtherDelivery, OtherFigures, Refused};
    match kind {
        Kind::Later => &[Kept, OtherFigures, OtherChain, OtherDelivery, Lost, Refused],
        Kind::Larger => &[Kept, OtherFigures, OtherDelivery, Lost, Refused],
        Kind::Due => &[Kept, OtherFigures, Gained, Refused],
        Kind::Further => &[Kept, OtherChain, OtherDelivery, Gained, Refused],
        Kind::UntilLastCall => &[Kept, OtherFigures, OtherDelivery],
        Kind::PastLastCall => &[OtherChain, OtherDelivery, Lost],
    }
}

#[derive(Clone, Copy, Default)]
struct Row {
    by_outcome: [u64; Outcome::COUNT],
    booked: u64,
}

#[derive(Clone, Copy, Default)]
pub struct Counts {
    rows: [Row; Kind::COUNT],
}

impl Counts {
    pub fn add(&mut self, kind: Kind, outcome: Outcome, booked: bool) {
        let row = &mut self.rows[kind as usize];
        row.by_outcome[outcome as usize] += 1;
        row.booked += u64::from(booked);
    }

    pub fn join(&mut self, other: &Self) {
        for (row, more) in self.rows.iter_mut().zip(&other.rows) {
            for (count, more) in row.by_outcome.iter_mut().zip(more.by_outcome) {
                *count += more;
            }
            row.booked += more.booked;
        }
    }

    /// The pairs of a kind.
    pub fn of(&self, kind: Kind) -> u64 {
        self.rows[kind as usize].by_outcome.iter().sum()
    }

    pub fn all(&self) -> u64 {
        Kind::ALL.iter().map(|&kind| self.of(kind)).sum()
    }

    /// What was never met of all that must be, and kinds with too few pairs.
    pub fn missing(&self, least: u64) -> Vec<String> {
        let mut missing = Vec::new();
        for kind in Kind::ALL {
            let row = &self.rows[kind as usize];
            let unmet = must_meet(kind).iter();
            let unmet = unmet.filter(|&&outcome| row.by_outcome[outcome as usize] == 0);
            missing.extend(unmet.map(|outcome| format!("{} {}", kind.name(), outcome.name())));
            if self.of(kind) < least {
                missing.push(format!("{} {least} pairs", kind.name()));
            }
            if row.booked == 0 {
                missing.push(format!("{} with a book", kind.name()));
            }
        }
        missing
    }

    /// Prints a row for each kind.
    pub fn print(&self) {
        let names = Outcome::ALL.map(|outcome| outcome.name().into());
        print_row("second call", names, "pairs", "booked");
        for kind in Kind::ALL {
            let row = &self.rows[kind as usize];
            let (all, booked) = (self.of(kind).to_string(), row.booked.to_string());
            print_row(kind.name(), row.by_outcome.map(shown), &all, &booked);
        }
    }
}

fn shown(count: u64) -> String {
    match count {
        0 => ".".into(),
        _ => count.to_string(),
    }
}

fn print_row(name: &str, cells: [String; Outcome::COUNT], all: &str, booked: &str) {
    let cells: String = cells.iter().map(|cell| format!("{cell:>9}")).collect();
    println!("{name:<16}{cells}{all:>9}{booked:>9}");
}
