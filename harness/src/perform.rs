//! A call made through the archive.

use oivarnum::lent::{book_route, read, release, route};
use oivarnum::lent::{route_booked, walk, walk_booked, write};
use oivarnum::Plan;

use crate::call::{Call, Function};

impl Call {
    /// Makes the call; the number that it returns.
    pub fn perform(&mut self) -> u64 {
        let memory = &mut self.memory;
        let (contacts, ranges) = (memory.contacts.slice_mut(), memory.ranges.slice_mut());
        let (book, booked) = (memory.book.slice_mut(), memory.booked.slice_mut());
        let (chain, bytes) = (memory.chain.slice_mut(), memory.bytes.slice_mut());
        let answer = memory.answer.slice_mut();
        let (ask, class) = (self.ask.numbers().into(), self.class);
        let plan = Plan {
            contacts,
            contact_count: self.contact_count as usize,
            ranges,
            range_count: self.range_count as usize,
        };
        match self.function {
            Function::Read => read(bytes, contacts, ranges, answer),
            Function::Write => write(plan, bytes, answer),
            Function::Walk => walk(plan, ask, chain, answer),
            Function::Route => route(plan, ask, chain, answer),
            Function::WalkBooked => walk_booked(plan, book, booked, ask, class, chain, answer),
            Function::RouteBooked => route_booked(plan, book, booked, ask, class, chain, answer),
            Function::BookRoute => book_route(plan, book, booked, ask, class, chain, answer),
            Function::Release => release(plan, book, booked, self.place, answer),
        }
    }
}
