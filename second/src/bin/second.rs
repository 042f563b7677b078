//! The second program: `plan.txt` and asks from standard input to answers.

use std::fs::File;
use std::io::{self, Read, Write};

use second::program::answers;
use second::route::Network;
use second::units::LONGEST_TEXT;

fn main() -> io::Result<()> {
    let plan_text = File::open("plan.txt").and_then(bounded).unwrap_or_default();
    let input = bounded(io::stdin())?;
    io::stdout().write_all(&answers::<Network>(&plan_text, &input))
}

/// All that there is to read, or one byte more than is allowed.
fn bounded(from: impl Read) -> io::Result<Vec<u8>> {
    let mut bytes = Vec::new();
    from.take(LONGEST_TEXT as u64 + 1).read_to_end(&mut bytes)?;
    Ok(bytes)
}
