//! What was checked, how often, and what was found.

use std::collections::BTreeMap;
use std::fmt::Debug;

/// The differences that are printed; the others are only counted.
const SHOWN: u64 = 20;

#[derive(Default)]
pub struct Tally {
    counts: BTreeMap<&'static str, u64>,
    met: BTreeMap<String, u64>,
    differences: u64,
}

impl Tally {
    /// Counts a check, and prints what differs with what it was about.
    pub fn same<T: PartialEq + Debug>(
        &mut self,
        check: &'static str,
        found: T,
        wanted: T,
        about: impl FnOnce() -> String,
    ) {
        *self.counts.entry(check).or_default() += 1;
        if found != wanted {
            self.differences += 1;
            if self.differences <= SHOWN {
                println!("difference: {check}");
                println!("  found {found:?}\n  wanted {wanted:?}\n  on {}", about());
            }
        }
    }

    pub fn differences(&self) -> u64 {
        self.differences
    }

    /// Counts a case of a kind that is to be met.
    pub fn meet(&mut self, kind: String) {
        *self.met.entry(kind).or_default() += 1;
    }

    /// Those of these kinds that were never met.
    pub fn never_met(&self, kinds: Vec<String>) -> Vec<String> {
        let is_unmet = |kind: &String| !self.met.contains_key(kind);
        kinds.into_iter().filter(is_unmet).collect()
    }

    /// Says on the error output how far the checks are, ten times in all.
    pub fn show_progress(&self, done: u64, all: u64) {
        if done.is_multiple_of(all.div_ceil(10)) {
            let differences = self.differences;
            eprintln!("{done} of {all} rounds, {differences} differences");
        }
    }

    /// Prints every count: what was met, and then what was checked.
    pub fn print(&self) {
        println!("met:");
        for (kind, count) in &self.met {
            println!("{count:>9} {kind}");
        }
        println!("checked:");
        for (check, count) in &self.counts {
            println!("{count:>9} {check}");
        }
        let all: u64 = self.counts.values().sum();
        println!("{all:>9} checks, {} differences", self.differences);
    }
}
