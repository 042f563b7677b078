//! Makes a call and compares what it gives with what is wanted.

use std::fmt::Display;

use crate::call::{Call, Memory};
use crate::lent::Lent;
use crate::wanted::{by_second, Wanted};

pub struct Checked {
    pub wanted: Wanted,
    /// What is not as it must be, said shortly.
    pub differences: Vec<String>,
}

/// Makes a call by itself, on memory that is lent once.
pub fn check(call: &mut Call) -> Checked {
    let mut memory = call.memory.clone();
    check_beside(call, &mut memory)
}

/// Makes a call through the archive on its own memory, and by the second
/// program on other memory that holds the same.
pub fn check_beside(call: &mut Call, memory: &mut Memory) -> Checked {
    let wanted = by_second(call, memory);
    let returned = call.perform();
    let mut differences = Vec::new();
    if returned != wanted.returned {
        let number = wanted.returned;
        differences.push(format!("returned {returned}, not {number}"));
    }
    compare(&call.memory, memory, &mut differences);
    Checked {
        wanted,
        differences,
    }
}

/// Compares all lent memory and its guards.
fn compare(found: &Memory, wanted: &Memory, differences: &mut Vec<String>) {
    let mut all = [
        first_difference("answer", &found.answer, &wanted.answer),
        first_difference("chain", &found.chain, &wanted.chain),
        first_difference("book", &found.book, &wanted.book),
        first_difference("booked", &found.booked, &wanted.booked),
        first_difference("contacts", &found.contacts, &wanted.contacts),
        first_difference("ranges", &found.ranges, &wanted.ranges),
        first_difference("bytes", &found.bytes, &wanted.bytes),
    ];
    differences.extend(all.iter_mut().filter_map(Option::take));
}

fn first_difference<T: Copy + PartialEq + Display>(
    name: &str,
    found: &Lent<T>,
    wanted: &Lent<T>,
) -> Option<String> {
    let (place, found_there, wanted_there) = found.first_difference(wanted)?;
    let length = found.len();
    Some(format!(
        "{name}[{place}] of {length} holds {found_there}, not {wanted_there}"
    ))
}

#[cfg(test)]
mod tests {
    use std::fmt::Display;

    use super::{check, check_beside, compare};
    use crate::call::{Call, Function, Memory};
    use crate::cases::booked;
    use crate::lent::Lent;
    use second::random::Random;

    /// A booking over the full plan, and a few bytes that it does not take.
    fn booking() -> Call {
        let random = &mut Random::new(1);
        let mut given = booked::full(random, Function::BookRoute, 1);
        given.bytes = b"bytes".to_vec();
        given.lend(random, Function::BookRoute.answer_words())
    }

    /// Changes each element of a part, its guards among them, in turn: each
    /// must be found, and found there alone.
    fn is_compared<T: Copy + PartialEq + Display>(
        name: &str,
        part: fn(&mut Memory) -> &mut Lent<T>,
        other: fn(T) -> T,
    ) {
        let memory = booking().memory;
        let mut found = memory.clone();
        for place in 0..part(&mut found).whole_mut().len() {
            let there = part(&mut found).whole_mut()[place];
            part(&mut found).whole_mut()[place] = other(there);
            let mut differences = Vec::new();
            compare(&found, &memory, &mut differences);
            assert_eq!(differences.len(), 1, "{name} {place}");
            assert!(differences[0].starts_with(&format!("{name}[")));
            part(&mut found).whole_mut()[place] = there;
        }
    }

    #[test]
    fn every_lent_word_and_byte_is_compared() {
        is_compared("answer", |memory| &mut memory.answer, |word| word ^ 1);
        is_compared("chain", |memory| &mut memory.chain, |word| word ^ 1);
        is_compared("contacts", |memory| &mut memory.contacts, |word| word ^ 1);
        is_compared("ranges", |memory| &mut memory.ranges, |word| word ^ 1);
        is_compared("book", |memory| &mut memory.book, |word| word ^ 1);
        is_compared("booked", |memory| &mut memory.booked, |number| number ^ 1);
        is_compared("bytes", |memory| &mut memory.bytes, |byte| byte ^ 1);
    }

    #[test]
    fn a_good_call_has_no_difference() {
        let checked = check(&mut booking());
        assert_eq!((checked.wanted.returned, checked.wanted.contacts), (0, 63));
        assert!(checked.differences.is_empty());
    }

    #[test]
    fn another_number_is_found() {
        let mut call = booking();
        let mut memory = call.memory.clone();
        memory.contacts.slice_mut()[0] = u64::MAX;
        let differences = check_beside(&mut call, &mut memory).differences;
        assert_eq!(differences[0], "returned 0, not 9");
    }
}
