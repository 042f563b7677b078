//! Makes the archive's calls on one fixed input, one for each of its asks, for
//! valgrind to count.
//!
//! calls INPUT

use std::hint::black_box;
use std::process::ExitCode;

use bench::{archive, inputs};
use second::units::LONGEST_BEST;

fn main() -> ExitCode {
    let name = std::env::args().nth(1).unwrap_or_default();
    let Some(input) = inputs::named(&name) else {
        let inputs = inputs::plans().into_iter().chain(inputs::growth());
        let names: Vec<String> = inputs.map(|input| input.name).collect();
        eprintln!("usage: calls INPUT, one of {}", names.join(", "));
        return ExitCode::from(2);
    };
    for ask in &input.asks {
        let mut chain = [0; LONGEST_BEST];
        let _ = black_box(archive::route(&input, ask, &mut chain));
    }
    ExitCode::SUCCESS
}
