//! The command line of the programs that compare: all cases of a seed, or one
//! of them that is shown.

use std::process::ExitCode;
use std::thread;

use second::options::Options;

pub struct Setting {
    pub seed: u64,
    /// How many cases there are.
    pub count: u64,
    pub threads: u64,
    /// The one case that is wanted.
    only: Option<u64>,
}

impl Setting {
    /// The setting, where an option of this name says how many cases there are.
    fn of_command_line(counted: &str, count: u64) -> Result<Self, String> {
        let mut options = Options::of_command_line();
        let cores = thread::available_parallelism().map_or(1, |cores| cores.get() as u64);
        let setting = Self {
            seed: options.number("--seed", 1)?,
            count: options.number(counted, count)?,
            threads: options.number("--threads", cores)?.max(1),
            only: match options.value("--only")? {
                Some(number) => Some(number.parse().map_err(|_| "--only wants a number")?),
                None => None,
            },
        };
        options.finish()?;
        Ok(setting)
    }
}

/// Runs a program by its command line: one case of a seed, or all; each says
/// whether all is good.
pub fn run(
    program: &str,
    counted: &str,
    count: u64,
    only: fn(u64, u64) -> bool,
    all: fn(&Setting) -> bool,
) -> ExitCode {
    let setting = match Setting::of_command_line(counted, count) {
        Ok(setting) => setting,
        Err(message) => {
            eprintln!("{message}");
            eprintln!("usage: {program} [--seed N] [{counted} N] [--threads N] [--only N]");
            return ExitCode::from(2);
        }
    };
    let good = match setting.only {
        Some(number) => only(setting.seed, number),
        None => all(&setting),
    };
    if good {
        ExitCode::SUCCESS
    } else {
        ExitCode::FAILURE
    }
}
