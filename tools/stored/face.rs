//! The names by which the program `text_cases` calls the library, answered by the
//! second program: tools/stored/run builds the program over it.

use std::io::{stdin, stdout, Read, Result, Write};

pub use second::Refusal;

pub fn number(why: Refusal) -> u64 {
    why.number
}

pub fn place(why: Refusal) -> u64 {
    why.place
}

#[derive(Clone, Copy)]
pub struct Counts {
    pub contacts: usize,
    pub ranges: usize,
}

pub fn read(
    text: &[u8],
    contacts: &mut [u64],
    ranges: &mut [u64],
) -> std::result::Result<Counts, Refusal> {
    let (contacts, ranges) = second::read(text, contacts, ranges)?;
    Ok(Counts { contacts, ranges })
}

#[derive(Clone, Copy)]
pub struct PlanTables<'a> {
    pub contacts: &'a [u64],
    pub contact_count: usize,
    pub ranges: &'a [u64],
    pub range_count: usize,
}

pub fn write(tables: PlanTables, out: &mut [u8]) -> std::result::Result<usize, Refusal> {
    let (m, n) = (tables.contact_count as u64, tables.range_count as u64);
    second::write(tables.contacts, m, tables.ranges, n, out)
}

/// Reads until the bytes are full or the reader is at its end: how many were
/// read. A read that fails counts as the end.
pub fn read_full(from: &mut impl Read, bytes: &mut [u8]) -> usize {
    let mut done = 0;
    while done < bytes.len() {
        match from.read(&mut bytes[done..]) {
            Ok(0) | Err(_) => break,
            Ok(n) => done += n,
        }
    }
    done
}

/// What the program is started with.
pub struct HostRuntime;

pub trait Print {
    fn write_all(&self, bytes: &[u8]) -> Result<()>;
}

impl Print for HostRuntime {
    fn write_all(&self, bytes: &[u8]) -> Result<()> {
        stdout().write_all(bytes)
    }
}

pub trait Input {
    fn reader(&self) -> impl Read;
}

impl Input for HostRuntime {
    fn reader(&self) -> impl Read {
        stdin()
    }
}

#[macro_export]
macro_rules! print {
    ($rt:expr; $($said:tt)*) => {
        $crate::Print::write_all($rt, format!($($said)*).as_bytes())
    };
}
