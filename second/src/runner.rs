//! Runs a program in a folder made for it and gives what it printed.

use std::fs::{self, File};
use std::io::{self, Read};
use std::path::Path;
use std::process::{Child, Command, Stdio};
use std::sync::mpsc;
use std::thread;
use std::time::Duration;

use crate::cases::folders::{Folder, PlanFile};

/// The longest that a program may take for one folder.
const PATIENCE: Duration = Duration::from_secs(120);
/// The most bytes of output that are taken in.
const MOST_OUTPUT: u64 = 1 << 26;

/// Makes the folder on disk, in place of an earlier one.
pub fn make(folder: &Folder, at: &Path) -> io::Result<()> {
    if at.exists() {
        fs::remove_dir_all(at)?;
    }
    fs::create_dir_all(at)?;
    let plan_file = at.join("plan.txt");
    match &folder.plan {
        PlanFile::Text(text) => fs::write(plan_file, text)?,
        PlanFile::Directory => fs::create_dir_all(plan_file)?,
        PlanFile::Missing => {}
    }
    fs::write(at.join("stdin"), &folder.input)
}

/// What a program printed, and how it ended if not by itself.
pub struct Run {
    pub printed: Vec<u8>,
    pub trouble: Option<&'static str>,
}

/// Runs the program in a folder on the folder's input.
pub fn run(program: &Path, folder: &Path) -> io::Result<Run> {
    let mut child = Command::new(program)
        .current_dir(folder)
        .stdin(File::open(folder.join("stdin"))?)
        .stdout(Stdio::piped())
        .stderr(Stdio::null())
        .spawn()?;
    let printed = printed_by(&mut child);
    if printed.is_none() {
        child.kill()?;
    }
    let status = child.wait()?;
    let trouble = match (&printed, status.code()) {
        (None, _) => Some("printed no end of output in time"),
        (_, None) => Some("was ended by a signal"),
        _ => None,
    };
    Ok(Run {
        printed: printed.unwrap_or_default(),
        trouble,
    })
}

/// All that the child prints, unless it takes too long.
fn printed_by(child: &mut Child) -> Option<Vec<u8>> {
    let output = child.stdout.take()?;
    let (sender, receiver) = mpsc::channel();
    thread::spawn(move || {
        let mut printed = Vec::new();
        if output.take(MOST_OUTPUT).read_to_end(&mut printed).is_ok() {
            // Nobody receives any more once the time is over.
            let _ = sender.send(printed);
        }
    });
    receiver.recv_timeout(PATIENCE).ok()
}
