//! Checks the second program against itself and against documents 01 and 02.
//!
//! selfcheck [--seed N] [--rounds N]
//!
//! The exit status is 0 only if nothing differs and every kind of case was met,
//! for which a few rounds are not enough.

use std::process::ExitCode;

use second::checks::{all, kinds, tally::Tally};
use second::options::Options;

fn main() -> ExitCode {
    let (seed, rounds) = match settings() {
        Ok(settings) => settings,
        Err(message) => {
            eprintln!("{message}\nusage: selfcheck [--seed N] [--rounds N]");
            return ExitCode::from(2);
        }
    };
    let mut tally = Tally::default();
    all(seed, rounds, &mut tally);
    println!("seed {seed}, {rounds} rounds");
    tally.print();
    let never_met = tally.never_met(kinds());
    for kind in &never_met {
        println!("never met: {kind}");
    }
    if tally.differences() == 0 && never_met.is_empty() {
        ExitCode::SUCCESS
    } else {
        ExitCode::FAILURE
    }
}

fn settings() -> Result<(u64, u64), String> {
    let mut options = Options::of_command_line();
    let seed = options.number("--seed", 1)?;
    let rounds = options.number("--rounds", 2000)?;
    options.finish()?;
    Ok((seed, rounds))
}
