//! Instructions, counted by valgrind's callgrind in the program `calls`.

use std::fs;
use std::path::Path;
use std::process::Command;

use crate::inputs::Input;

/// The instructions of a call, as the mean over an input's asks.
#[derive(Clone, Copy, Debug, PartialEq, Eq)]
pub struct Counted {
    /// Those inside the C function and what it calls.
    pub all: u64,
    /// Those of `memset` among them: one for each byte where it is done by a
    /// single instruction that repeats itself.
    pub memset: u64,
}

/// Counts the calls on an input.
pub fn count(calls: &Path, input: &Input) -> Result<Counted, String> {
    let written = calls.with_extension("callgrind");
    let output = Command::new("valgrind")
        .args(["--tool=callgrind", "--collect-atstart=no"])
        .arg(format!("--toggle-collect={}", input.function.symbol()))
        .arg(format!("--callgrind-out-file={}", written.display()))
        .arg(calls)
        .arg(&input.name)
        .output()
        .map_err(|error| format!("can't run valgrind: {error}"))?;
    if !output.status.success() {
        return Err(String::from_utf8_lossy(&output.stderr).into_owned());
    }
    let written = fs::read_to_string(&written)
        .map_err(|error| format!("can't read {}: {error}", written.display()))?;
    let asks = input.asks.len() as u64;
    match total(&written) {
        Some(total) if total > 0 => Ok(Counted {
            all: total / asks,
            memset: own_cost(&written, "memset") / asks,
        }),
        _ => Err(format!("nothing counted in {}", input.function.symbol())),
    }
}

/// The total of a file that callgrind wrote.
fn total(written: &str) -> Option<u64> {
    let mut lines = written.lines();
    let total = lines.find_map(|line| line.strip_prefix("totals:"))?;
    total.trim().parse().ok()
}

/// What functions with a word in their names cost by themselves. A name has a
/// number, by which it is called again; a line after `calls=` is the cost of
/// the function called.
fn own_cost(written: &str, word: &str) -> u64 {
    let mut numbers = Vec::new();
    let (mut is_inside, mut is_callee, mut cost) = (false, false, 0);
    for line in written.lines() {
        let caller = line.strip_prefix("fn=");
        if let Some(name) = caller.or(line.strip_prefix("cfn=")) {
            let number = name.split(' ').next();
            if name.contains(word) {
                numbers.push(number);
            }
            if caller.is_some() {
                is_inside = numbers.contains(&number);
            }
        } else if line.starts_with("calls=") {
            is_callee = true;
        } else if let Some((_, of_line)) = line.split_once(' ').filter(|_| is_cost(line)) {
            if is_inside && !is_callee {
                cost += of_line.parse().unwrap_or(0);
            }
            is_callee = false;
        }
    }
    cost
}

/// Whether a line has a place in the program and a cost.
fn is_cost(line: &str) -> bool {
    line.starts_with(|first: char| first.is_ascii_digit() || "+-*".contains(first))
}

#[cfg(test)]
mod tests {
    use super::{own_cost, total};

    const WRITTEN: &str = "events: Ir
summary: 1111

fn=(1) one
0 1000
cfn=(2) __memset_fast
calls=2 40
0 100
+3 5

fn=(2)
40 90
+2 4
* 6
fl=(3) other
fn=(4) two
7 6
totals: 1111
";

    #[test]
    fn the_total_is_found() {
        assert_eq!(total(WRITTEN), Some(1111));
        assert_eq!(total("events: Ir\n"), None);
    }

    #[test]
    fn own_costs_are_told_from_those_of_callees() {
        assert_eq!(own_cost(WRITTEN, "memset"), 100);
        assert_eq!(own_cost(WRITTEN, "one"), 1005);
        assert_eq!(own_cost(WRITTEN, "three"), 0);
    }
}
