//! Compares the archive's functions over a book with the second program in
//! whole sessions: random sequences of asks, walks, bookings and releases, each
//! step through the archive on one copy of the lent memory and by the second
//! program on another. After each step the number returned and every lent word
//! are compared, with guards before and behind; a session ends at its first
//! difference. Before some steps the same call is made spoilt, so that it is
//! refused.
//!
//! sessions [--seed N] [--sessions N] [--threads N] [--only N]
//!
//! A seed (1 if not given) and a session's number give always the same session,
//! so that `--only` makes one session of a seed again, and shows the call that
//! differs. The exit status is 0 only if nothing differs and each function was
//! seen to give all that it can.

use std::process::ExitCode;

use harness::call::Function;
use harness::progress::Progress;
use harness::sessions::Course;
use harness::setting::{run, Setting};
use harness::tally::Tally;

const SESSIONS: u64 = 2000;

fn main() -> ExitCode {
    run("sessions", "--sessions", SESSIONS, only, all)
}

/// Makes one session, and shows the call that differs.
fn only(seed: u64, number: u64) -> bool {
    let mut course = Course::of(seed, number);
    while course.goes_on() {
        let before = course.call.to_string();
        let checked = course.check();
        if !checked.differences.is_empty() {
            println!("{before}");
            println!("found {:?}", course.call.memory.answer.slice());
            println!("step {}: {}", course.made, checked.differences.join("; "));
            return false;
        }
    }
    println!("{} steps, no difference", course.made);
    true
}

/// What the sessions of a thread came to.
#[derive(Default)]
struct Gathered {
    tally: Tally,
    /// The steps by function.
    steps: [u64; Function::COUNT],
    spoilt: u64,
    /// The steps of each session.
    lengths: Vec<usize>,
    on_full_plans: u64,
}

impl Gathered {
    /// Makes a session; its first difference.
    fn make(&mut self, mut course: Course) -> Option<String> {
        self.on_full_plans += u64::from(course.is_full_plan());
        let mut difference = None;
        while difference.is_none() && course.goes_on() {
            let checked = course.check();
            let function = course.call.function;
            let differs = !checked.differences.is_empty();
            self.tally.add(function, &checked.wanted, differs);
            match course.is_spoilt {
                true => self.spoilt += 1,
                false => self.steps[function as usize] += 1,
            }
            difference = differs.then(|| {
                let (step, name) = (course.made, function.name());
                format!("step {step}, {name}: {}", checked.differences.join("; "))
            });
        }
        self.lengths.push(course.made);
        difference
    }

    fn join(&mut self, other: Self) {
        self.tally.join(&other.tally);
        for (steps, more) in self.steps.iter_mut().zip(other.steps) {
            *steps += more;
        }
        self.spoilt += other.spoilt;
        self.lengths.extend(other.lengths);
        self.on_full_plans += other.on_full_plans;
    }

    fn print(&self) {
        self.tally.print(&Function::ON_BOOK);
        let all: u64 = self.steps.iter().sum();
        let by_function = Function::ON_BOOK.map(|function| {
            let steps = self.steps[function as usize];
            format!("{steps} {}", function.name())
        });
        println!("{all} steps: {}", by_function.join(", "));
        let sessions = self.lengths.len();
        let (spoilt, full) = (self.spoilt, self.on_full_plans);
        let fewest = self.lengths.iter().min().unwrap_or(&0);
        let most = self.lengths.iter().max().unwrap_or(&0);
        println!("{spoilt} calls spoilt before a step");
        println!("{sessions} sessions of {fewest} to {most} steps, {full} of them on full plans");
    }
}

/// Makes all sessions and prints what they came to.
fn all(setting: &Setting) -> bool {
    let seed = setting.seed;
    let progress = Progress::of("sessions", setting.count);
    let gathered = progress.share(setting.threads, |number, gathered: &mut Gathered| {
        if let Some(difference) = gathered.make(Course::of(seed, number)) {
            progress.differs(&format!("{difference} (--seed {seed} --only {number})"));
        }
    });
    let mut all = Gathered::default();
    gathered.into_iter().for_each(|some| all.join(some));
    println!("seed {seed}");
    all.print();
    all.tally.is_good(&Function::ON_BOOK)
}
