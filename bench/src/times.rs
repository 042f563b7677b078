//! Times as ratios: the archive and the second program's modes in turns, in
//! one process. A time is what the thread had of a processor, so that what
//! else the machine does counts little.

use std::ffi::{c_int, c_long};
use std::hint::black_box;
use std::time::Duration;

use second::modes::{pairwise, sorted, Kept};
use second::units::LONGEST_BEST;

use crate::archive;
use crate::inputs::Input;

/// The rounds of which the median is taken.
pub const ROUNDS: usize = 101;
/// The least that one turn of a round takes.
const TURN: Duration = Duration::from_millis(2);

/// The modes of the second program: plan and book checked once; at each ask
/// with a sort; at each ask pairwise.
pub const MODES: usize = 3;

/// The archive's time on an input's asks over the second program's in each of
/// its modes: the median of the ratios of so many rounds.
pub fn ratios(input: &Input) -> [f64; MODES] {
    let lent = input.lent();
    let kept = Kept::of(lent, Input::CLASS).expect("each input is a valid plan");
    let mut runners: [Box<dyn FnMut() + '_>; MODES + 1] = [
        Box::new(|| each_ask(input, |ask, chain| archive::route(input, ask, chain))),
        Box::new(|| each_ask(input, |ask, chain| kept.route(*ask, chain))),
        Box::new(|| each_ask(input, |ask, chain| sorted(lent, *ask, Input::CLASS, chain))),
        Box::new(|| {
            each_ask(input, |ask, chain| {
                pairwise(lent, *ask, Input::CLASS, chain)
            })
        }),
    ];
    let sweeps = runners.each_mut().map(sweeps_of_a_turn);
    let mut seen: [Vec<f64>; MODES] = Default::default();
    for round in 0..ROUNDS {
        let mut times = [0.0; MODES + 1];
        for turn in 0..=MODES {
            let runner = (round + turn) % (MODES + 1);
            let taken = time(&mut runners[runner], sweeps[runner]);
            times[runner] = taken.as_secs_f64() / f64::from(sweeps[runner]);
        }
        for (mode, seen) in seen.iter_mut().enumerate() {
            seen.push(times[0] / times[mode + 1]);
        }
    }
    seen.map(median)
}

/// Answers each ask of an input once.
fn each_ask<A>(input: &Input, mut route: impl FnMut(&second::Ask, &mut [u64]) -> A) {
    let mut chain = [0; LONGEST_BEST];
    for ask in &input.asks {
        black_box(route(black_box(ask), &mut chain));
        black_box(&chain);
    }
}

/// How often a runner must run for one turn.
fn sweeps_of_a_turn(run: &mut impl FnMut()) -> u32 {
    let mut sweeps = 1;
    while time(run, sweeps) < TURN {
        sweeps *= 2;
    }
    sweeps
}

fn time(run: &mut impl FnMut(), sweeps: u32) -> Duration {
    let start = used();
    for _ in 0..sweeps {
        run();
    }
    used() - start
}

/// A time as C has it.
#[repr(C)]
struct Timespec {
    seconds: i64,
    nanoseconds: c_long,
}

/// Linux's number of the clock that runs while this thread does.
const CLOCK_THREAD_CPUTIME_ID: c_int = 3;

extern "C" {
    fn clock_gettime(clock: c_int, time: *mut Timespec) -> c_int;
}

/// What this thread has had of a processor.
fn used() -> Duration {
    let mut time = Timespec {
        seconds: 0,
        nanoseconds: 0,
    };
    // SAFETY: the pointer is to a time of our own.
    let failed = unsafe { clock_gettime(CLOCK_THREAD_CPUTIME_ID, &mut time) };
    assert_eq!(failed, 0, "every Linux has this clock");
    Duration::new(time.seconds as u64, time.nanoseconds as u32)
}

fn median(mut values: Vec<f64>) -> f64 {
    values.sort_by(f64::total_cmp);
    values[values.len() / 2]
}

#[cfg(test)]
mod tests {
    use super::median;

    #[test]
    fn the_median_is_the_middle_one() {
        assert_eq!(median(vec![9.0, 1.0, 2.0]), 2.0);
    }
}
