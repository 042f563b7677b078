//! The plan text: lines, fields and numbers, and the calls `read` and `write`.

use crate::plan::{Fault, Plan, Row};
use crate::refusal::{
    Refusal, CONTACT_AFTER_RANGE, HEADER, LINE_SHAPE, OVERLAP, SHORT_OUTPUT, SHORT_TABLES,
    TEXT_TOO_LONG, TOO_MANY_ROWS, VALUE,
};
use crate::units::{LONGEST_TEXT, ROWS, WORDS};

const FIRST_LINE: &[u8] = b"plan\t1\n";

/// Reads a plan text into the lent tables; the counts of contacts and ranges.
pub fn read(
    text: &[u8],
    contacts: &mut [u64],
    ranges: &mut [u64],
) -> Result<(usize, usize), Refusal> {
    if contacts.len() / WORDS < ROWS || ranges.len() / WORDS < ROWS {
        return Err(Refusal::bare(SHORT_TABLES));
    }
    let plan = parse(text)?;
    fill(contacts, plan.contacts().iter().map(|c| c.row()));
    fill(ranges, plan.ranges().iter().map(|r| r.row()));
    Ok((plan.contacts().len(), plan.ranges().len()))
}

fn fill(table: &mut [u64], rows: impl Iterator<Item = Row>) {
    for (place, row) in table.chunks_exact_mut(WORDS).zip(rows) {
        place.copy_from_slice(&row);
    }
}

/// Writes the text of the plan in the lent tables; its length.
pub fn write(
    contacts: &[u64],
    contact_count: u64,
    ranges: &[u64],
    range_count: u64,
    out: &mut [u8],
) -> Result<usize, Refusal> {
    let plan = Plan::of_tables(contacts, contact_count, ranges, range_count)?;
    let text = render(&plan);
    let place = out
        .get_mut(..text.len())
        .ok_or(Refusal::new(SHORT_OUTPUT, text.len() as u64))?;
    place.copy_from_slice(&text);
    Ok(text.len())
}

/// The text of a plan.
pub fn render(plan: &Plan) -> Vec<u8> {
    let mut text = FIRST_LINE.to_vec();
    for contact in plan.contacts() {
        push_line(&mut text, "contact", &contact.row());
    }
    for range in plan.ranges() {
        push_line(&mut text, "range", &range.row());
    }
    text
}

/// Adds a line: a word and numbers, tabbed, and a line feed.
pub fn push_line(text: &mut Vec<u8>, word: &str, numbers: &[u64]) {
    text.extend_from_slice(word.as_bytes());
    for number in numbers {
        text.push(b'\t');
        text.extend_from_slice(number.to_string().as_bytes());
    }
    text.push(b'\n');
}

/// The plan that a text says, or its first refusal.
pub fn parse(text: &[u8]) -> Result<Plan, Refusal> {
    if text.len() > LONGEST_TEXT {
        return Err(Refusal::bare(TEXT_TOO_LONG));
    }
    if !text.starts_with(FIRST_LINE) {
        return Err(Refusal::new(HEADER, 1));
    }
    let mut plan = Plan::default();
    for line in lines(text).skip(1) {
        take_line(&mut plan, &line).map_err(|number| Refusal::new(number, line.number))?;
    }
    Ok(plan)
}

/// Takes a contact or range line into the plan, or gives the refusal's number.
fn take_line(plan: &mut Plan, line: &Line) -> Result<(), u64> {
    if let Some(numbers) = line.numbers(b"contact") {
        if !plan.ranges().is_empty() {
            return Err(CONTACT_AFTER_RANGE);
        }
        plan.add_contact(capped(numbers)).map_err(number_of)
    } else if let Some(numbers) = line.numbers(b"range") {
        plan.add_range(capped(numbers)).map_err(number_of)
    } else {
        Err(LINE_SHAPE)
    }
}

fn number_of(fault: Fault) -> u64 {
    match fault {
        Fault::Full => TOO_MANY_ROWS,
        Fault::Value => VALUE,
        Fault::Overlap => OVERLAP,
    }
}

/// The numbers as words. One too long for a word becomes the greatest word,
/// which is outside the range of every field of a plan.
fn capped(numbers: [u128; WORDS]) -> Row {
    numbers.map(|number| u64::try_from(number).unwrap_or(u64::MAX))
}

/// A line of a text, counted from 1, without its line feed.
pub struct Line<'a> {
    pub number: u64,
    bytes: &'a [u8],
    ended: bool,
}

/// The lines of a text. Bytes after the last line feed are a line too.
pub fn lines(text: &[u8]) -> impl Iterator<Item = Line<'_>> {
    let pieces = text.split_inclusive(|&byte| byte == b'\n');
    (1..).zip(pieces).map(|(number, piece)| {
        let bytes = piece.strip_suffix(b"\n");
        Line {
            number,
            bytes: bytes.unwrap_or(piece),
            ended: bytes.is_some(),
        }
    })
}

impl Line<'_> {
    /// The line's numbers, if it is this word and so many numbers, each after
    /// one tab, and a line feed.
    pub fn numbers<const COUNT: usize>(&self, word: &[u8]) -> Option<[u128; COUNT]> {
        let mut fields = self.bytes.split(|&byte| byte == b'\t');
        if !self.ended || fields.next() != Some(word) {
            return None;
        }
        let mut numbers = [0; COUNT];
        for number in &mut numbers {
            *number = value(fields.next()?)?;
        }
        fields.next().is_none().then_some(numbers)
    }
}

/// The value of decimal digits without a leading zero; none if the field is
/// anything else. A value too long for 128 bits stays at their greatest one.
fn value(field: &[u8]) -> Option<u128> {
    let leading_zero = field.len() > 1 && field[0] == b'0';
    if field.is_empty() || leading_zero || !field.iter().all(u8::is_ascii_digit) {
        return None;
    }
    Some(field.iter().fold(0u128, |value, digit| {
        value
            .saturating_mul(10)
            .saturating_add(u128::from(digit - b'0'))
    }))
}
