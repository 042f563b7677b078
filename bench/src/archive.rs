//! The archive's calls on an input.

use oivarnum::raw::ANSWER_WORDS;
use oivarnum::{lent, Plan};
use second::calls::Routed;
use second::{Ask, Figures, Refusal};

use crate::inputs::{Function, Input};

/// The archive's answer to an ask, and the chain in the first places.
pub fn route(input: &Input, ask: &Ask, chain: &mut [u64]) -> Result<Routed, Refusal> {
    let answer = &mut [0; ANSWER_WORDS];
    let plan = Plan {
        contacts: &input.contacts,
        contact_count: input.contact_count,
        ranges: &input.ranges,
        range_count: input.range_count,
    };
    let (book, booked) = (&input.book, &input.booked);
    let (ask, class) = (ask.numbers().into(), Input::CLASS);
    let number = match input.function {
        Function::Route => lent::route(plan, ask, chain, answer),
        Function::RouteBooked => lent::route_booked(plan, book, booked, ask, class, chain, answer),
    };
    if number != 0 {
        return Err(Refusal::new(number, answer[1]));
    }
    Ok(Routed {
        figures: Figures {
            delivery: answer[2],
            opens: answer[3],
            last_call: answer[4],
            room: answer[5],
        },
        count: answer[6],
    })
}
