//! Reads a plan file, answers one ask, walks the chain found, and writes the
//! plan back.
//!
//! ```sh
//! bash tools/build
//! cd examples/rust
//! cargo run --offline -- PLAN SOURCE DESTINATION TIME SIZE DEADLINE EXCLUDED
//! ```
//!
//! Exit status: 0 answered, 1 refused, 2 the command line or the file is bad.

use oivarnum::{read, route, walk, write, Ask, Plan, Refusal, CHAIN, ROWS, TEXT, WORDS};
use std::process::ExitCode;

const USAGE: &str = "usage: oivarnum PLAN SOURCE DESTINATION TIME SIZE DEADLINE EXCLUDED";

fn main() -> ExitCode {
    let words: Vec<String> = std::env::args().skip(1).collect();
    let Some((file, ask)) = asked(&words) else {
        eprintln!("{USAGE}");
        return ExitCode::from(2);
    };
    let text = match std::fs::read(file) {
        Ok(text) => text,
        Err(error) => {
            eprintln!("can't read {file}: {error}");
            return ExitCode::from(2);
        }
    };
    match answer(&text, ask) {
        Ok(()) => ExitCode::SUCCESS,
        Err(Refusal { number, place }) => {
            println!("refused {number} {place}");
            ExitCode::FAILURE
        }
    }
}

/// The plan's file and the ask of a command line.
fn asked(words: &[String]) -> Option<(&String, Ask)> {
    let (file, numbers) = words.split_first()?;
    let numbers: Result<Vec<u64>, _> = numbers.iter().map(|word| word.parse()).collect();
    let numbers: [u64; 6] = numbers.ok()?.try_into().ok()?;
    Some((file, numbers.into()))
}

/// The four calls, one after the other, and what each says.
fn answer(text: &[u8], ask: Ask) -> Result<(), Refusal> {
    let (mut contacts, mut ranges) = ([0; ROWS * WORDS], [0; ROWS * WORDS]);
    let (contact_count, range_count) = read(text, &mut contacts, &mut ranges)?;
    println!("read: {contact_count} contacts, {range_count} ranges");
    let plan = Plan {
        contacts: &contacts,
        contact_count,
        ranges: &ranges,
        range_count,
    };

    let mut chain = [0; CHAIN];
    let (figures, count) = route(plan, ask, &mut chain)?;
    println!("route: {figures:?} by contacts {:?}", &chain[..count]);

    let walked = walk(plan, ask, &chain[..count])?;
    println!("walk: the same figures: {}", walked == figures);

    let mut out = [0; TEXT];
    let length = write(plan, &mut out)?;
    println!(
        "write: {length} bytes, the text that was read: {}",
        out[..length] == *text
    );
    Ok(())
}
