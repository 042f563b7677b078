//! Makes pairs of calls through the archive and holds the second answer against
//! the first: asked later or for a larger file it never delivers earlier, due
//! later it keeps the route, with a further contact it never delivers later, up
//! to the last call it is not refused, and one past it the chain no longer
//! serves. Half of the plans have a book. Before that it sees that stand-ins
//! which are wrong on purpose are found.
//!
//! pairs [--seed N] [--scenes N] [--threads N] [--only N]
//!
//! The table says what became of the first answer: kept, the same chain with
//! other figures, another chain with the same delivery, another delivery, a
//! route lost, a route gained, or refused both times; and how many pairs had a
//! book.
//!
//! A seed (1 if not given) and a scene's number give always the same plan and
//! the same pairs, so that `--only` makes those of one scene again. The exit
//! status is 0 only if nothing differs, every stand-in is found, and each kind
//! of pair was met often enough, with all that can become of it.

use std::process::ExitCode;

use harness::pairs::answers::Archive;
use harness::pairs::compare;
use harness::pairs::counts::Counts;
use harness::pairs::faults::Fault;
use harness::progress::Progress;
use harness::setting::{run, Setting};

const SCENES: u64 = 20_000;
/// The pairs of each kind that there must be, of all scenes.
const LEAST: u64 = 50_000;
/// The scenes in which a stand-in must be found.
const FAULTY_SCENES: u64 = 200;

fn main() -> ExitCode {
    run("pairs", "--scenes", SCENES, only, all)
}

/// Makes the pairs of one scene, and shows those that differ.
fn only(seed: u64, number: u64) -> bool {
    let mut counts = Counts::default();
    let differences = compare(seed, number, &Archive, &mut counts);
    for (_, what) in &differences {
        println!("difference: {what}");
    }
    counts.print();
    differences.is_empty()
}

#[derive(Default)]
struct Gathered {
    counts: Counts,
    differences: u64,
}

/// Makes all pairs and prints the table.
fn all(setting: &Setting) -> bool {
    let seed = setting.seed;
    let found = faults_are_found(seed);
    let progress = Progress::of("scenes", setting.count);
    let gathered = progress.share(setting.threads, |number, gathered: &mut Gathered| {
        for (_, what) in compare(seed, number, &Archive, &mut gathered.counts) {
            gathered.differences += 1;
            progress.differs(&format!("{what} (--seed {seed} --only {number})"));
        }
    });
    let mut all = Gathered::default();
    for some in &gathered {
        all.counts.join(&some.counts);
        all.differences += some.differences;
    }
    println!("seed {seed}");
    all.counts.print();
    let least = if setting.count < SCENES { 1 } else { LEAST };
    let missing = all.counts.missing(least);
    if !missing.is_empty() {
        println!("never met: {}", missing.join(", "));
    }
    println!(
        "{} pairs, {} differences",
        all.counts.all(),
        all.differences
    );
    found && missing.is_empty() && all.differences == 0
}

/// Whether each stand-in is found, by pairs of its kind.
fn faults_are_found(seed: u64) -> bool {
    let mut found = 0;
    for (fault, kind) in Fault::ALL {
        let differs = |number| {
            let differences = compare(seed, number, &fault, &mut Counts::default());
            differences.iter().any(|(other, _)| *other == kind)
        };
        match (0..FAULTY_SCENES).find(|&number| differs(number)) {
            Some(_) => found += 1,
            None => println!("not found: {fault:?}"),
        }
    }
    println!("{} faults planted, {found} found", Fault::ALL.len());
    found == Fault::ALL.len()
}
