//! What a measurement is told with: the machine, the commit and the date.

use std::fs;
use std::process::Command;

pub struct Facts {
    pub processor: String,
    pub cores: usize,
    pub commit: String,
    pub date: String,
}

impl Facts {
    pub fn gather() -> Self {
        let cpuinfo = fs::read_to_string("/proc/cpuinfo").unwrap_or_default();
        let (processor, cores) = machine(&cpuinfo);
        Self {
            processor,
            cores,
            commit: commit(),
            date: said("date", &["-u", "+%F"]).unwrap_or_else(unknown),
        }
    }
}

/// The processor's model and how many there are.
fn machine(cpuinfo: &str) -> (String, usize) {
    let fields = || cpuinfo.lines().filter_map(|line| line.split_once(':'));
    let mut models = fields().filter(|(name, _)| name.trim() == "model name");
    let model = models.next().map(|(_, model)| model.trim().to_string());
    let processors = fields().filter(|(name, _)| name.trim() == "processor");
    (model.unwrap_or_else(unknown), processors.count())
}

/// The commit, and whether what is measured has changed since.
fn commit() -> String {
    let commit = said("git", &["rev-parse", "--short", "HEAD"]).unwrap_or_else(unknown);
    let measured = ["crates", "second", "bench", "examples/rust"];
    let status = [&["status", "--porcelain", "--"][..], &measured].concat();
    match said("git", &status) {
        Some(changes) if !changes.is_empty() => format!("{commit} with changes"),
        _ => commit,
    }
}

/// What a command prints, if it succeeds.
fn said(command: &str, words: &[&str]) -> Option<String> {
    let output = Command::new(command).args(words).output().ok()?;
    let said = String::from_utf8(output.stdout).ok()?;
    output.status.success().then(|| said.trim().to_string())
}

fn unknown() -> String {
    "unknown".into()
}

#[cfg(test)]
mod tests {
    use super::machine;

    #[test]
    fn the_machine_is_read() {
        let cpuinfo =
            "processor\t: 0\nmodel name\t: Some CPU @ 2 GHz\nprocessor\t: 1\nmodel name\t: other\n";
        assert_eq!(machine(cpuinfo), ("Some CPU @ 2 GHz".into(), 2));
        assert_eq!(machine(""), ("unknown".into(), 0));
    }
}
