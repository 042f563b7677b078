//! A call in words, so that a difference can be looked into.

use std::fmt::{self, Display, Formatter};

use second::book::FREE;
use second::units::{LONGEST_BEST, PLACES, PLACE_WORDS, WORDS};

use crate::call::Call;

/// The most rows, contacts of a chain, or bytes of a text that are shown.
const SHOWN: usize = 600;

impl Display for Call {
    fn fmt(&self, out: &mut Formatter) -> fmt::Result {
        let memory = &self.memory;
        let (class, place) = (self.class, self.place);
        writeln!(out, "{}, {:?}", self.function.name(), self.ask)?;
        writeln!(out, "class {class}, place to release {place}")?;
        write_table(out, "contacts", self.contact_count, memory.contacts.slice())?;
        write_table(out, "ranges", self.range_count, memory.ranges.slice())?;
        write_book(out, memory.book.slice(), memory.booked.slice())?;
        let (chain, bytes) = (memory.chain.slice(), memory.bytes.slice());
        let shown = &chain[..chain.len().min(SHOWN)];
        writeln!(out, "chain of {}: {shown:?}", chain.len())?;
        let shown = bytes[..bytes.len().min(SHOWN)].escape_ascii();
        writeln!(out, "bytes, {}: {shown}", bytes.len())?;
        write!(out, "answer: {:?}", memory.answer.slice())
    }
}

fn write_table(out: &mut Formatter, name: &str, count: u64, table: &[u64]) -> fmt::Result {
    writeln!(out, "{count} {name} in {} words", table.len())?;
    let rows = table
        .chunks_exact(WORDS)
        .take(count.min(SHOWN as u64) as usize);
    for row in rows {
        writeln!(out, "  {row:?}")?;
    }
    Ok(())
}

/// The places that are not free, each with the numbers that it counts.
fn write_book(out: &mut Formatter, book: &[u64], booked: &[u16]) -> fmt::Result {
    let (words, numbers) = (book.len(), booked.len());
    writeln!(out, "book of {words} words and {numbers} numbers")?;
    let places = book
        .chunks_exact(PLACE_WORDS)
        .zip(booked.chunks_exact(LONGEST_BEST));
    for (place, (words, numbers)) in (1..=PLACES).zip(places) {
        if words[0] != FREE {
            let count = words[3].min(LONGEST_BEST as u64) as usize;
            writeln!(out, "  {place}: {words:?} {:?}", &numbers[..count])?;
        }
    }
    Ok(())
}
