//! Measures the memory that each call takes: its stack, painted before, and
//! what it is lent.
//!
//! memory [--seed N] [--calls N]
//!
//! It makes so many calls of the harness (3000 if not given), and then the
//! largest there are: `route` over a full plan with a best chain of 63, `walk`
//! over chains of 10, of 63, a little longer than once and twice that, and of
//! 1,000,000 contacts, both over a full book too, `book_route` there and where
//! the last place is free, `release` of a full book's last place, `read` of the
//! longest plan and of the longest text, and `write` of the longest plan. A chain
//! given to a walk may have any length; no more than 63 places of it are counted
//! as lent. The exit status is 0 only if every limit is kept and each of the
//! largest calls returns what it must.

use std::process::ExitCode;

use harness::call::{Call, Function};
use harness::cases::{booked, routes, walks};
use harness::cases::{bytes, plain_tables, plans, reads, words, Cases, Given};
use harness::stack::Stack;
use second::options::Options;
use second::random::Random;
use second::refusal::{BOOK_FULL, VALUE};
use second::units::{LONGEST_BEST, LONGEST_TEXT, ROWS, WORDS};

/// The most bytes that a call may take, stack and lent memory together.
const MOST: usize = 262_144;
/// The most bytes of stack that any call may take.
const MOST_STACK: usize = 65_536;
/// What the stack of `walk` may take: a little more than it took with last call
/// worked back by a function that goes 63 deep.
const MOST_OF_WALK: usize = 16_000;
/// What the stack of `route` may take: what it took before there were lists of
/// rows, by which plans are tested and light times found.
const MOST_OF_ROUTE: usize = 43_079;
/// The length of the longest best chain.
const BEST: u64 = LONGEST_BEST as u64;
/// The lengths of the chains that are walked: a short one, the longest best one,
/// and some that last call is worked back over in two parts and in more.
const WALKED: [u64; 7] = [
    10,
    BEST,
    BEST + 1,
    BEST + 2,
    2 * BEST,
    2 * BEST + 1,
    1_000_000,
];
/// The words of a table that has room for every plan.
const TABLE: usize = ROWS * WORDS;

/// What a call takes, or the most that one function was seen to take.
#[derive(Clone, Copy, Default)]
struct Taken {
    stack: usize,
    lent: usize,
}

/// A measurer: the stack, and the most that each function was seen to take.
struct Measurer {
    stack: Stack,
    worst: [Taken; Function::COUNT],
}

/// What is to hold, and whether it does.
type Held = Vec<(String, bool)>;

fn main() -> ExitCode {
    let (seed, calls) = match settings() {
        Ok(settings) => settings,
        Err(message) => {
            eprintln!("{message}\nusage: memory [--seed N] [--calls N]");
            return ExitCode::from(2);
        }
    };
    let mut measurer = Measurer {
        stack: Stack::new(),
        worst: Default::default(),
    };
    let cases = Cases::new(seed);
    for number in 0..calls {
        measurer.measure(&mut cases.call(number));
    }
    let random = &mut Random::new(seed);
    let mut held = measurer.take_largest(random);
    held.extend(measurer.take_walks(random, "walk", walks::long));
    held.extend(measurer.take_walks(random, "walk_booked", booked::long));
    held.extend(measurer.limits());
    report(&held)
}

fn settings() -> Result<(u64, u64), String> {
    let mut options = Options::of_command_line();
    let seed = options.number("--seed", 1)?;
    let calls = options.number("--calls", 3000)?;
    options.finish()?;
    Ok((seed, calls))
}

impl Measurer {
    /// Makes a call on the stack; the number that it returned, and what it took.
    fn measure(&mut self, call: &mut Call) -> (u64, Taken) {
        let mut returned = 0;
        let stack = self.stack.measure(&mut || returned = call.perform());
        let lent = lent(call);
        let worst = &mut self.worst[call.function as usize];
        worst.stack = worst.stack.max(stack);
        worst.lent = worst.lent.max(lent);
        (returned, Taken { stack, lent })
    }

    /// Makes the largest calls; whether each returned what it must.
    fn take_largest(&mut self, random: &mut Random) -> Held {
        let mut held = Held::new();
        for (name, given, wanted) in largest(random) {
            let (returned, Taken { stack, lent }) = self.measure(&mut lend(given, random));
            println!("{name}: {stack} of stack, {lent} lent");
            held.push((format!("{name}: returns {wanted}"), returned == wanted));
        }
        held
    }

    /// Walks chains of several lengths; whether each is allowed, and whether each
    /// that is longer than a best chain took the same stack as one of that length.
    fn take_walks(&mut self, random: &mut Random, name: &str, long: fn(u64, u64) -> Given) -> Held {
        let mut held = Held::new();
        let walked = WALKED.map(|length| {
            let (returned, Taken { stack, .. }) = self.measure(&mut lend(long(length, 0), random));
            println!("{name}, chain of {length}: {stack} of stack");
            let limit = format!("{name}, chain of {length}: returns 0");
            held.push((limit, returned == 0));
            stack
        });
        let limit = format!("{name}: the same stack for {BEST} and for each longer chain");
        held.push((limit, walked[1..].iter().all(|stack| *stack == walked[1])));
        held
    }

    /// Prints the table; whether each function keeps the limits.
    fn limits(&self) -> Held {
        let mut held = Held::new();
        println!("call            stack     lent      sum");
        for function in Function::ALL {
            let Taken { stack, lent } = self.worst[function as usize];
            let sum = stack + lent;
            let name = function.name();
            println!("{name:<12} {stack:>8} {lent:>8} {sum:>8}");
            held.push((format!("{name}: at most {MOST} in all"), sum <= MOST));
            let most = most_stack(function);
            held.push((format!("{name}: at most {most} of stack"), stack <= most));
        }
        held
    }
}

/// The most bytes of stack that a function may take.
fn most_stack(function: Function) -> usize {
    match function {
        Function::Walk => MOST_OF_WALK,
        Function::Route => MOST_OF_ROUTE,
        _ => MOST_STACK,
    }
}

/// Lends what is given, with an answer that is just long enough.
fn lend(given: Given, random: &mut Random) -> Call {
    let answer = given.function.answer_words();
    given.lend(random, answer)
}

/// The bytes lent, without what is given to a walk beyond a best chain.
fn lent(call: &Call) -> usize {
    let beyond = match call.function.walks() {
        true => call.memory.chain.len().saturating_sub(LONGEST_BEST),
        false => 0,
    };
    call.memory.size() - beyond * size_of::<u64>()
}

/// The largest inputs but the longest chains to walk: a name, what is given,
/// and the number that is returned.
fn largest(random: &mut Random) -> Vec<(&'static str, Given, u64)> {
    let plan = plans::longest_text();
    let (contacts, ranges) = (words(random, TABLE), words(random, TABLE));
    let read = |text| Given::read(text, contacts.clone(), ranges.clone());
    let (plan_text, text) = (read(plan.text()), read(reads::longest()));
    let mut write = |room| Given::write(plain_tables(&plan), bytes(random, room));
    let (exact, roomy) = (write(plan.text().len()), write(LONGEST_TEXT));
    let mut on_full_book = |function, free| booked::full(random, function, free);
    let route_booked = on_full_book(Function::RouteBooked, 0);
    let book_full = on_full_book(Function::BookRoute, 0);
    let book_last = on_full_book(Function::BookRoute, 1);
    vec![
        ("read, plan of 46,087 bytes", plan_text, 0),
        ("read, text of 65,536 bytes", text, VALUE),
        ("write, room for 46,087 bytes", exact, 0),
        ("write, room for 65,536 bytes", roomy, 0),
        ("walk, full plan, chain of 63", walks::full(), 0),
        ("route, full plan, chain of 63", routes::longest(random), 0),
        ("walk_booked, full book too", booked::full_walk(), 0),
        ("route_booked, full book too", route_booked, 0),
        ("book_route, full book too", book_full, BOOK_FULL),
        ("book_route, last place free", book_last, 0),
        ("release, full book", booked::full_release(), 0),
    ]
}

/// Prints what is kept and what is not.
fn report(held: &Held) -> ExitCode {
    for (limit, is_kept) in held {
        println!("{}: {limit}", if *is_kept { "kept" } else { "NOT KEPT" });
    }
    match held.iter().all(|(_, is_kept)| *is_kept) {
        true => ExitCode::SUCCESS,
        false => ExitCode::FAILURE,
    }
}
