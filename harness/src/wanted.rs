//! What a call must return, and what all lent memory must hold after it, by
//! the second program.

use second::refusal::SHORT_OUTPUT;
use second::{book_route, read, release, route, route_booked, walk, walk_booked, write};
use second::{Figures, Refusal, Routed};

use crate::call::{Call, Function, Memory};

/// The place of a found chain's count among the words of an answer.
const COUNT: usize = 6;

#[derive(Clone, Copy)]
pub struct Wanted {
    /// The refusal's number, or 0.
    pub returned: u64,
    /// The lent answer is too short, which is judged before anything else.
    pub short_answer: bool,
    /// The contacts of the chain that is found, or 0.
    pub contacts: u64,
}

/// Makes a call by the second program on memory that holds what the call's own
/// does. On a refusal only the first two words of the answer change; on success
/// what the second program fills, and the answer's words as they are laid out.
pub fn by_second(call: &Call, memory: &mut Memory) -> Wanted {
    if memory.answer.len() < call.function.answer_words() {
        return Wanted {
            returned: SHORT_OUTPUT,
            short_answer: true,
            contacts: 0,
        };
    }
    let words = match answered(call, memory) {
        Ok(figures) => [&[0, 0], &figures[..]].concat(),
        Err(Refusal { number, place }) => vec![number, place],
    };
    memory.answer.slice_mut()[..words.len()].copy_from_slice(&words);
    Wanted {
        returned: words[0],
        short_answer: false,
        contacts: words.get(COUNT).copied().unwrap_or(0),
    }
}

/// The answer's figures in their order.
fn answered(call: &Call, memory: &mut Memory) -> Result<Vec<u64>, Refusal> {
    let (contacts, ranges) = (memory.contacts.slice_mut(), memory.ranges.slice_mut());
    let (book, booked) = (memory.book.slice_mut(), memory.booked.slice_mut());
    let (chain, bytes) = (memory.chain.slice_mut(), memory.bytes.slice_mut());
    let (m, n) = (call.contact_count, call.range_count);
    let (ask, class) = (call.ask, call.class);
    let figures = match call.function {
        Function::Read => {
            let counts = read(bytes, contacts, ranges)?;
            vec![counts.0 as u64, counts.1 as u64]
        }
        Function::Write => vec![write(contacts, m, ranges, n, bytes)? as u64],
        Function::Walk => words(walk(contacts, m, ranges, n, ask, chain)?),
        Function::Route => routed_words(route(contacts, m, ranges, n, ask, chain)?),
        Function::WalkBooked => {
            let walked = walk_booked(contacts, m, ranges, n, book, booked, ask, class, chain);
            words(walked?)
        }
        Function::RouteBooked => {
            let routed = route_booked(contacts, m, ranges, n, book, booked, ask, class, chain);
            routed_words(routed?)
        }
        Function::BookRoute => {
            let routed = book_route(contacts, m, ranges, n, book, booked, ask, class, chain);
            let (routed, place) = routed?;
            [routed_words(routed), vec![place]].concat()
        }
        Function::Release => {
            release(contacts, m, ranges, n, book, booked, call.place)?;
            Vec::new()
        }
    };
    Ok(figures)
}

fn words(figures: Figures) -> Vec<u64> {
    vec![
        figures.delivery,
        figures.opens,
        figures.last_call,
        figures.room,
    ]
}

fn routed_words(routed: Routed) -> Vec<u64> {
    [words(routed.figures), vec![routed.count]].concat()
}
