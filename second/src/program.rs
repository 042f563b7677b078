//! The program `route` as a function from its two inputs to what it prints.

use crate::ask::Ask;
use crate::refusal::{Refusal, ASK_SHAPE, ASK_VALUE, TEXT_TOO_LONG};
use crate::router::{Best, Router};
use crate::text::{lines, parse, push_line, Line};
use crate::units::LONGEST_TEXT;

/// What the program prints for a plan text and an input of asks.
pub fn answers<R: Router>(plan_text: &[u8], input: &[u8]) -> Vec<u8> {
    let mut printed = Vec::new();
    match router_for::<R>(plan_text, input) {
        Ok(router) => {
            for line in lines(input) {
                push_answer(&mut printed, answer(&router, &line));
            }
        }
        Err(refusal) => push_answer(&mut printed, Err(refusal)),
    }
    printed
}

/// A router for the plan, unless the plan or else the input is refused whole.
fn router_for<R: Router>(plan_text: &[u8], input: &[u8]) -> Result<R, Refusal> {
    let plan = parse(plan_text)?;
    if input.len() > LONGEST_TEXT {
        return Err(Refusal::bare(TEXT_TOO_LONG));
    }
    Ok(R::prepare(&plan))
}

fn answer<R: Router>(router: &R, line: &Line) -> Result<Best, Refusal> {
    let ask = ask_of(line)?.check()?;
    router.best(&ask)
}

/// The ask that a line says, or refusal 17, or 11 for digits too long.
pub fn ask_of(line: &Line) -> Result<Ask, Refusal> {
    let numbers: [u128; 6] = line
        .numbers(b"ask")
        .ok_or(Refusal::new(ASK_SHAPE, line.number))?;
    let mut words = [0; 6];
    for (word, number) in words.iter_mut().zip(numbers) {
        *word = u64::try_from(number).map_err(|_| Refusal::bare(ASK_VALUE))?;
    }
    let [source, destination, time, size, deadline, excluded] = words;
    Ok(Ask {
        source,
        destination,
        time,
        size,
        deadline,
        excluded,
    })
}

fn push_answer(printed: &mut Vec<u8>, answer: Result<Best, Refusal>) {
    match answer {
        Ok(Best { figures, chain }) => {
            let count = chain.len() as u64;
            let mut numbers = vec![
                figures.delivery,
                figures.opens,
                figures.last_call,
                figures.room,
                count,
            ];
            numbers.extend(chain.iter().map(|number| number.0));
            push_line(printed, "route", &numbers);
        }
        Err(refusal) => push_line(printed, "refused", &[refusal.number, refusal.place]),
    }
}
