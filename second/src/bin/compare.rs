//! Compares a program with the second one, byte for byte, on seeded folders.
//!
//! compare PROGRAM --seed N --folders N [--asks N] [--forever] [--work DIR]
//!
//! Each folder has up to `--asks` asks (600 if not given). A folder in which
//! the program prints something else is kept below the work folder, with what
//! was expected and what was printed; the others are removed. With `--forever`
//! the next seed follows until there is a difference.

use std::collections::BTreeMap;
use std::fs;
use std::io;
use std::path::{Path, PathBuf};
use std::process::ExitCode;

use second::cases::folders::{folder, Folder};
use second::cases::long_ways::FEWEST;
use second::exhaustive::AllChains;
use second::options::Options;
use second::program::answers;
use second::route::Network;
use second::runner;
use second::text::parse;
use second::units::LONGEST_TEXT;

/// Plans of at most so many contacts are answered by trying all chains too.
const FEW_CONTACTS: usize = 12;

const USAGE: &str =
    "usage: compare PROGRAM --seed N --folders N [--asks N] [--forever] [--work DIR]";

fn main() -> ExitCode {
    let setting = match Setting::of_command_line() {
        Ok(setting) => setting,
        Err(message) => {
            eprintln!("{message}\n{USAGE}");
            return ExitCode::from(2);
        }
    };
    match compare(&setting) {
        Ok(0) => ExitCode::SUCCESS,
        Ok(_) => ExitCode::FAILURE,
        Err(error) => {
            eprintln!("can't compare: {error}");
            ExitCode::from(2)
        }
    }
}

struct Setting {
    program: PathBuf,
    seed: u64,
    folders: u64,
    asks: usize,
    forever: bool,
    work: PathBuf,
}

impl Setting {
    fn of_command_line() -> Result<Self, String> {
        let mut options = Options::of_command_line();
        let seed = options.number("--seed", 1)?;
        let folders = options.number("--folders", 300)?;
        let asks = options.number("--asks", 600)? as usize;
        let forever = options.flag("--forever");
        let work = options
            .value("--work")?
            .map_or_else(own_work, PathBuf::from);
        let program = options.word().ok_or("no program is given")?;
        options.finish()?;
        let program = fs::canonicalize(&program).map_err(|error| format!("{program}: {error}"))?;
        Ok(Self {
            program,
            seed,
            folders,
            asks,
            forever,
            work,
        })
    }
}

fn own_work() -> PathBuf {
    std::env::temp_dir().join(format!("compare-{}", std::process::id()))
}

/// Compares on all folders; how many answers differ.
fn compare(setting: &Setting) -> io::Result<u64> {
    let mut counts = Counts::default();
    let mut seed = setting.seed;
    loop {
        compare_seed(setting, seed, &mut counts)?;
        if !setting.forever || counts.differences > 0 {
            break;
        }
        eprintln!("seed {seed} done: {}", counts.summary());
        seed = seed.wrapping_add(1);
    }
    // Stays if it was not empty before or keeps a folder.
    let _ = fs::remove_dir(&setting.work);
    println!("{}", counts.summary());
    Ok(counts.differences)
}

fn compare_seed(setting: &Setting, seed: u64, counts: &mut Counts) -> io::Result<()> {
    for number in 0..setting.folders {
        let folder = folder(seed, number, setting.asks);
        let at = setting.work.join(format!("seed-{seed}-folder-{number}"));
        compare_folder(&setting.program, &folder, &at, counts)?;
        if (number + 1).is_multiple_of(setting.folders.div_ceil(10)) {
            let done = number + 1;
            let (all, asks, differences) = (setting.folders, counts.asks, counts.differences);
            eprintln!(
                "seed {seed}: {done} of {all} folders, {asks} asks, {differences} differences"
            );
        }
    }
    Ok(())
}

fn compare_folder(
    program: &Path,
    folder: &Folder,
    at: &Path,
    counts: &mut Counts,
) -> io::Result<()> {
    let expected = answers::<Network>(folder.plan.text(), &folder.input);
    counts.add(folder, &expected);
    check_by_all_chains(folder, &expected, counts);
    runner::make(folder, at)?;
    let run = runner::run(program, at)?;
    if run.printed == expected && run.trouble.is_none() {
        return fs::remove_dir_all(at);
    }
    fs::write(at.join("expected"), &expected)?;
    fs::write(at.join("printed"), &run.printed)?;
    let differing = differing_lines(&expected, &run.printed);
    counts.differences += differing.len().max(1) as u64;
    counts.differing_folders += 1;
    println!("difference ({}) in {}", folder.name, at.display());
    if let Some(trouble) = run.trouble {
        println!("  the program {trouble}");
    }
    if let Some(&line) = differing.first() {
        println!(
            "  {} lines differ, first line {}",
            differing.len(),
            line + 1
        );
        println!("  input    {}", shown(&folder.input, line));
        println!("  expected {}", shown(&expected, line));
        println!("  printed  {}", shown(&run.printed, line));
    }
    Ok(())
}

/// Answers a small plan's asks by trying all chains, which must be the same.
fn check_by_all_chains(folder: &Folder, expected: &[u8], counts: &mut Counts) {
    let plan = parse(folder.plan.text());
    if plan.is_ok_and(|plan| plan.contacts().len() <= FEW_CONTACTS) {
        let tried = answers::<AllChains>(folder.plan.text(), &folder.input);
        let differing = differing_lines(expected, &tried).len();
        counts.tried_folders += 1;
        if differing > 0 {
            counts.differences += differing as u64;
            let name = &folder.name;
            println!("the second program differs from itself in {differing} lines ({name})");
        }
    }
}

/// The lines, counted from 0, in which two texts differ.
fn differing_lines(one: &[u8], other: &[u8]) -> Vec<usize> {
    let lines = |text: &[u8]| -> Vec<Vec<u8>> {
        text.split_inclusive(|&byte| byte == b'\n')
            .map(<[u8]>::to_vec)
            .collect()
    };
    let (one, other) = (lines(one), lines(other));
    let longer = one.len().max(other.len());
    (0..longer)
        .filter(|&line| one.get(line) != other.get(line))
        .collect()
}

/// A line of a text, readable and not too long.
fn shown(text: &[u8], line: usize) -> String {
    const WIDTH: usize = 160;
    match text.split(|&byte| byte == b'\n').nth(line) {
        Some(line) => {
            let shown: String = line.escape_ascii().to_string();
            let spaced = shown.replace("\\t", " ");
            spaced.chars().take(WIDTH).collect()
        }
        None => "(no such line)".into(),
    }
}

#[derive(Default)]
struct Counts {
    folders: u64,
    tried_folders: u64,
    asks: u64,
    routes: u64,
    long_routes: u64,
    refused: BTreeMap<u64, u64>,
    differences: u64,
    differing_folders: u64,
}

impl Counts {
    /// Counts a folder by the answers expected in it.
    fn add(&mut self, folder: &Folder, expected: &[u8]) {
        let answered = parse(folder.plan.text()).is_ok() && folder.input.len() <= LONGEST_TEXT;
        self.folders += 1;
        for line in expected.split_inclusive(|&byte| byte == b'\n') {
            self.asks += u64::from(answered);
            match refused_number(line) {
                Some(number) => *self.refused.entry(number).or_default() += 1,
                None => {
                    self.routes += 1;
                    self.long_routes += u64::from(contacts_of(line) >= FEWEST);
                }
            }
        }
    }

    fn summary(&self) -> String {
        let refused: Vec<String> = self
            .refused
            .iter()
            .map(|(number, count)| format!("{number}:{count}"))
            .collect();
        format!(
            "folders {} ({} by all chains too) asks {} routes {} ({} of {FEWEST} contacts or more) refused {} differences {} in {} folders",
            self.folders,
            self.tried_folders,
            self.asks,
            self.routes,
            self.long_routes,
            refused.join(" "),
            self.differences,
            self.differing_folders
        )
    }
}

/// How many contacts an answer that is a route has: what follows its word and
/// five numbers.
fn contacts_of(line: &[u8]) -> u64 {
    let fields = line.split(|&byte| byte == b'\t').count() as u64;
    fields.saturating_sub(6)
}

/// The number of an answer that is a refusal.
fn refused_number(line: &[u8]) -> Option<u64> {
    let rest = line.strip_prefix(b"refused\t")?;
    let digits = rest.split(|&byte| byte == b'\t').next()?;
    std::str::from_utf8(digits).ok()?.parse().ok()
}
