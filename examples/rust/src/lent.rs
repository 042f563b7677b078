//! The functions of [`raw`] on lent slices: all that is unsafe stands here.
//!
//! Each takes what the archive's function of its name takes, a slice for each
//! pointer with its length, and returns the refusal's number, or 0. Slices may
//! have any length and counts any value: what does not fit is refused. They are
//! inlined, so that the measured stack of a call gets no frame of theirs.

use crate::{raw, Ask, Plan};

/// Reads a plan's text into two tables.
#[inline]
pub fn read(text: &[u8], contacts: &mut [u64], ranges: &mut [u64], answer: &mut [u64]) -> u64 {
    // SAFETY: each pointer goes with the length of its slice.
    unsafe {
        raw::oivarnum_read(
            text.as_ptr(),
            text.len(),
            contacts.as_mut_ptr(),
            contacts.len(),
            ranges.as_mut_ptr(),
            ranges.len(),
            answer.as_mut_ptr(),
            answer.len(),
        )
    }
}

/// Writes a plan's text.
#[inline]
pub fn write(plan: Plan, out: &mut [u8], answer: &mut [u64]) -> u64 {
    // SAFETY: each pointer goes with the length of its slice.
    unsafe {
        raw::oivarnum_write(
            plan.contacts.as_ptr(),
            plan.contacts.len(),
            plan.contact_count,
            plan.ranges.as_ptr(),
            plan.ranges.len(),
            plan.range_count,
            out.as_mut_ptr(),
            out.len(),
            answer.as_mut_ptr(),
            answer.len(),
        )
    }
}

/// Times a given chain of contact numbers.
#[inline]
pub fn walk(plan: Plan, ask: Ask, chain: &[u64], answer: &mut [u64]) -> u64 {
    // SAFETY: each pointer goes with the length of its slice.
    unsafe {
        raw::oivarnum_walk(
            plan.contacts.as_ptr(),
            plan.contacts.len(),
            plan.contact_count,
            plan.ranges.as_ptr(),
            plan.ranges.len(),
            plan.range_count,
            ask.source,
            ask.destination,
            ask.time,
            ask.size,
            ask.deadline,
            ask.excluded,
            chain.as_ptr(),
            chain.len(),
            answer.as_mut_ptr(),
            answer.len(),
        )
    }
}

/// Finds the best chain for an ask.
#[inline]
pub fn route(plan: Plan, ask: Ask, chain: &mut [u64], answer: &mut [u64]) -> u64 {
    // SAFETY: each pointer goes with the length of its slice.
    unsafe {
        raw::oivarnum_route(
            plan.contacts.as_ptr(),
            plan.contacts.len(),
            plan.contact_count,
            plan.ranges.as_ptr(),
            plan.ranges.len(),
            plan.range_count,
            ask.source,
            ask.destination,
            ask.time,
            ask.size,
            ask.deadline,
            ask.excluded,
            chain.as_mut_ptr(),
            chain.len(),
            answer.as_mut_ptr(),
            answer.len(),
        )
    }
}

/// Times a given chain of contact numbers, for an ask of a class.
#[inline]
pub fn walk_booked(
    plan: Plan,
    book: &[u64],
    booked: &[u16],
    ask: Ask,
    class: u64,
    chain: &[u64],
    answer: &mut [u64],
) -> u64 {
    // SAFETY: each pointer goes with the length of its slice.
    unsafe {
        raw::oivarnum_walk_booked(
            plan.contacts.as_ptr(),
            plan.contacts.len(),
            plan.contact_count,
            plan.ranges.as_ptr(),
            plan.ranges.len(),
            plan.range_count,
            book.as_ptr(),
            book.len(),
            booked.as_ptr(),
            booked.len(),
            ask.source,
            ask.destination,
            ask.time,
            ask.size,
            ask.deadline,
            ask.excluded,
            class,
            chain.as_ptr(),
            chain.len(),
            answer.as_mut_ptr(),
            answer.len(),
        )
    }
}

/// Finds the best chain for an ask of a class.
#[inline]
pub fn route_booked(
    plan: Plan,
    book: &[u64],
    booked: &[u16],
    ask: Ask,
    class: u64,
    chain: &mut [u64],
    answer: &mut [u64],
) -> u64 {
    // SAFETY: each pointer goes with the length of its slice.
    unsafe {
        raw::oivarnum_route_booked(
            plan.contacts.as_ptr(),
            plan.contacts.len(),
            plan.contact_count,
            plan.ranges.as_ptr(),
            plan.ranges.len(),
            plan.range_count,
            book.as_ptr(),
            book.len(),
            booked.as_ptr(),
            booked.len(),
            ask.source,
            ask.destination,
            ask.time,
            ask.size,
            ask.deadline,
            ask.excluded,
            class,
            chain.as_mut_ptr(),
            chain.len(),
            answer.as_mut_ptr(),
            answer.len(),
        )
    }
}

/// Finds the best chain for an ask of a class, and books it.
#[inline]
pub fn book_route(
    plan: Plan,
    book: &mut [u64],
    booked: &mut [u16],
    ask: Ask,
    class: u64,
    chain: &mut [u64],
    answer: &mut [u64],
) -> u64 {
    // SAFETY: each pointer goes with the length of its slice.
    unsafe {
        raw::oivarnum_book_route(
            plan.contacts.as_ptr(),
            plan.contacts.len(),
            plan.contact_count,
            plan.ranges.as_ptr(),
            plan.ranges.len(),
            plan.range_count,
            book.as_mut_ptr(),
            book.len(),
            booked.as_mut_ptr(),
            booked.len(),
            ask.source,
            ask.destination,
            ask.time,
            ask.size,
            ask.deadline,
            ask.excluded,
            class,
            chain.as_mut_ptr(),
            chain.len(),
            answer.as_mut_ptr(),
            answer.len(),
        )
    }
}

/// Frees the place of a booking.
#[inline]
pub fn release(
    plan: Plan,
    book: &mut [u64],
    booked: &[u16],
    place: u64,
    answer: &mut [u64],
) -> u64 {
    // SAFETY: each pointer goes with the length of its slice.
    unsafe {
        raw::oivarnum_release(
            plan.contacts.as_ptr(),
            plan.contacts.len(),
            plan.contact_count,
            plan.ranges.as_ptr(),
            plan.ranges.len(),
            plan.range_count,
            book.as_mut_ptr(),
            book.len(),
            booked.as_ptr(),
            booked.len(),
            place,
            answer.as_mut_ptr(),
            answer.len(),
        )
    }
}
