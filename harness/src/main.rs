//! Compares the archive's C functions with the second program, call by call:
//! random and damaged tables, books, texts, asks and chains, short rooms, and
//! after each call every lent word and byte, with guards before and behind.
//!
//! ```sh
//! bash tools/build
//! cd harness
//! cargo run --release --offline -- [--seed N] [--calls N] [--threads N]
//! cargo run --release --offline -- --seed N --only N
//! cargo run --release --offline --bin sessions
//! cargo run --release --offline --bin pairs
//! cargo run --release --offline --bin memory
//! ```
//!
//! `OIVARNUM_ARCHIVE` names the archive's folder where it is not the usual one.
//! A seed (1 if not given) and a case's number give always the same call, so
//! that `--only` makes one call of a seed again, and shows it. The exit status
//! is 0 only if nothing differs and each function was seen to give all that it
//! can: success, every refusal of its own, 10 for a short answer, and where it
//! finds a chain one of 33 contacts or more.

use std::process::ExitCode;

use harness::call::Function;
use harness::cases::Cases;
use harness::check::{check, check_beside};
use harness::progress::Progress;
use harness::setting::{run, Setting};
use harness::tally::Tally;

const CALLS: u64 = 420_000;

fn main() -> ExitCode {
    run("harness", "--calls", CALLS, only, all)
}

/// Makes one call and shows it, before and after.
fn only(seed: u64, number: u64) -> bool {
    let mut call = Cases::new(seed).call(number);
    println!("{call}");
    let mut memory = call.memory.clone();
    let checked = check_beside(&mut call, &mut memory);
    println!(
        "wanted {}: {:?}",
        checked.wanted.returned,
        memory.answer.slice()
    );
    println!("found  {:?}", call.memory.answer.slice());
    for difference in &checked.differences {
        println!("difference: {difference}");
    }
    checked.differences.is_empty()
}

/// Makes all calls and prints the table.
fn all(setting: &Setting) -> bool {
    let cases = Cases::new(setting.seed);
    let progress = Progress::of("calls", setting.count);
    let tallies = progress.share(setting.threads, |number, tally: &mut Tally| {
        let mut call = cases.call(number);
        let checked = check(&mut call);
        let differs = !checked.differences.is_empty();
        tally.add(call.function, &checked.wanted, differs);
        if differs {
            let (name, seed) = (call.function.name(), setting.seed);
            let what = checked.differences.join("; ");
            progress.differs(&format!("{name}: {what} (--seed {seed} --only {number})"));
        }
    });
    let mut tally = Tally::default();
    for some in &tallies {
        tally.join(some);
    }
    println!("seed {}", setting.seed);
    tally.print(&Function::ALL);
    tally.is_good(&Function::ALL)
}
