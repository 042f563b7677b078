//! Measures the archive's route on the fixed inputs and writes its part of
//! docs/MEASUREMENTS.md and docs/growth.svg, in the folder that it is run in.
//!
//! ```sh
//! bash bench/run
//! ```

use std::fs;
use std::path::{Path, PathBuf};
use std::process::ExitCode;

use bench::counts::count;
use bench::facts::Facts;
use bench::inputs::{growth, plans, Input};
use bench::page::{part, put, thousands, Grown, Seen};
use bench::plot::svg;
use bench::times::ratios;

const PAGE: &str = "docs/MEASUREMENTS.md";
const PLOT: &str = "docs/growth.svg";

fn main() -> ExitCode {
    match measure() {
        Ok(()) => ExitCode::SUCCESS,
        Err(message) => {
            eprintln!("{message}");
            ExitCode::FAILURE
        }
    }
}

fn measure() -> Result<(), String> {
    let calls = program_of_calls()?;
    let page = fs::read_to_string(PAGE).map_err(|error| format!("can't read {PAGE}: {error}"))?;
    let facts = Facts::gather();
    let (plans, growth) = (plans(), growth());
    let steps = plans.len() + growth.len();
    let mut seen = Vec::new();
    for (step, input) in (1..).zip(&plans) {
        seen.push(on_plan(&calls, input, &format!("{step} of {steps}"))?);
    }
    let mut grown = Vec::new();
    for (step, input) in (1 + plans.len()..).zip(&growth) {
        grown.push(on_growth(&calls, input, &format!("{step} of {steps}"))?);
    }
    write(PAGE, &put(&page, &part(&facts, &seen, &grown)))?;
    write(PLOT, &svg(&grown))?;
    println!("{PAGE} and {PLOT} written");
    Ok(())
}

/// The program `calls`, which stands beside this one.
fn program_of_calls() -> Result<PathBuf, String> {
    let this = std::env::current_exe().map_err(|error| error.to_string())?;
    Ok(this.with_file_name("calls"))
}

fn on_plan(calls: &Path, input: &Input, step: &str) -> Result<Seen, String> {
    let counted = count(calls, input)?;
    let ratios = ratios(input);
    println!(
        "{step}: {}: {} instructions a call; {:.2} times the second program's time with the plan \
         checked once, {:.2} with a sort, {:.2} pairwise",
        input.title,
        thousands(counted.all),
        ratios[0],
        ratios[1],
        ratios[2]
    );
    Ok(Seen {
        name: input.name.clone(),
        title: input.title.clone(),
        contacts: input.contact_count,
        ranges: input.range_count,
        asks: input.asks.len(),
        counted,
        ratios,
    })
}

fn on_growth(calls: &Path, input: &Input, step: &str) -> Result<Grown, String> {
    let counted = count(calls, input)?;
    let all = thousands(counted.all);
    println!("{step}: {}: {all} instructions a call", input.title);
    Ok(Grown {
        contacts: input.contact_count,
        counted,
    })
}

fn write(path: &str, text: &str) -> Result<(), String> {
    fs::write(path, text).map_err(|error| format!("can't write {path}: {error}"))
}
