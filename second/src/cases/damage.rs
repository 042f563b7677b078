//! Damaged plan texts, each with the refusal that was put into it.
//!
//! A text can be too long (1), have a bad header (2), and have lines with
//! faults (3 to 7). A line can carry several faults, and a text several
//! faulty lines; the list of damages has every single fault in each of its
//! forms, and every two that one text or one line can carry, in both orders
//! where the lines differ.

use std::fmt;

use crate::cases::draft::{Draft, Kind};
use crate::cases::faulty_lines::{self, FaultyLine, FORMS_OF_VALUE, IN_ORDER};
use crate::cases::lines::FORMS;
use crate::random::Random;
use crate::refusal::{
    Refusal, CONTACT_AFTER_RANGE, HEADER, LINE_SHAPE, OVERLAP, TEXT_TOO_LONG, VALUE,
};
use crate::units::LONGEST_TEXT;

/// What is to be wrong with a text.
pub enum Damage {
    Faults(Faults),
    /// The length is so many bytes above the limit, for a long last number.
    AboveLimit(usize),
    /// The last line, of this kind, lacks its line feed.
    NoLineFeed(Kind),
    /// The last line, of this kind, is cut off anywhere.
    CutOff(Kind),
}

/// Faults put into a valid text.
#[derive(Default)]
pub struct Faults {
    pub too_long: bool,
    /// The form of a bad header.
    pub header: Option<u64>,
    /// The faulty lines in their order.
    pub lines: Vec<LineFaults>,
}

/// The faults of one line; its kind and the form of its fault where it is to
/// be a certain one.
#[derive(Default)]
pub struct LineFaults {
    pub numbers: Vec<u64>,
    pub kind: Option<Kind>,
    pub form: Option<u64>,
}

/// A damaged text and the refusal it must get.
pub struct DamagedText {
    pub text: Vec<u8>,
    pub refusal: Refusal,
}

impl fmt::Display for Damage {
    fn fmt(&self, out: &mut fmt::Formatter) -> fmt::Result {
        match self {
            Damage::Faults(faults) => faults.fmt(out),
            Damage::AboveLimit(bytes) => write!(out, "text {bytes} above the limit"),
            Damage::NoLineFeed(kind) => write!(out, "{} line without end", kind.word()),
            Damage::CutOff(kind) => write!(out, "{} line cut off", kind.word()),
        }
    }
}

impl fmt::Display for Faults {
    fn fmt(&self, out: &mut fmt::Formatter) -> fmt::Result {
        out.write_str("faults")?;
        if self.too_long {
            out.write_str(" 1")?;
        }
        if self.header.is_some() {
            out.write_str(" 2")?;
        }
        for line in &self.lines {
            let numbers: Vec<String> = line.numbers.iter().map(u64::to_string).collect();
            write!(out, " {}", numbers.join("+"))?;
        }
        Ok(())
    }
}

/// First lines that are not the header.
const BAD_HEADERS: [&[u8]; 18] = [
    b"",
    b"\n",
    b"\nplan\t1\n",
    b"plan\n",
    b"plan\t\n",
    b"plan\t1",
    b"plan\t2\n",
    b"plan\t0\n",
    b"plan\t01\n",
    b"plan\t10\n",
    b"plan\t+1\n",
    b"plan 1\n",
    b"plan\t\t1\n",
    b"plan\t1\t\n",
    b"plan\t1 \n",
    b"plan\t1\r\n",
    b"Plan\t1\n",
    b"\xef\xbb\xbfplan\t1\n",
];
const GOOD_HEADER: &[u8] = b"plan\t1\n";
/// The bad headers, and each part of the good one with nothing after it.
const FORMS_OF_HEADER: u64 = (BAD_HEADERS.len() + GOOD_HEADER.len()) as u64;

/// Every damage.
pub fn all() -> Vec<Damage> {
    let mut faults = of_whole_text();
    for (place, &fault) in IN_ORDER.iter().enumerate() {
        for &later in &IN_ORDER[place + 1..] {
            faults.extend(in_each_kind(&[fault, later], None));
        }
        for &other in &IN_ORDER {
            faults.push(Faults {
                lines: vec![plain_line(fault), plain_line(other)],
                ..Faults::default()
            });
        }
        for form in 0..forms_of(fault) {
            faults.extend(in_each_kind(&[fault], Some(form)));
        }
    }
    let mut damages: Vec<Damage> = faults.into_iter().map(Damage::Faults).collect();
    damages.extend([0, 1].map(Damage::AboveLimit));
    for kind in [Kind::Contact, Kind::Range] {
        damages.extend([Damage::NoLineFeed(kind), Damage::CutOff(kind)]);
    }
    damages
}

fn forms_of(fault: u64) -> u64 {
    match fault {
        LINE_SHAPE => FORMS,
        VALUE => FORMS_OF_VALUE,
        OVERLAP => 3,
        _ => 1,
    }
}

/// These faults in one contact line, and in one range line if they can be.
fn in_each_kind(numbers: &[u64], form: Option<u64>) -> Vec<Faults> {
    let kinds: &[Kind] = if numbers.contains(&CONTACT_AFTER_RANGE) {
        &[Kind::Contact]
    } else {
        &[Kind::Contact, Kind::Range]
    };
    let in_kind = |&kind: &Kind| Faults {
        lines: vec![LineFaults {
            numbers: numbers.to_vec(),
            kind: Some(kind),
            form,
        }],
        ..Faults::default()
    };
    kinds.iter().map(in_kind).collect()
}

fn plain_line(number: u64) -> LineFaults {
    LineFaults {
        numbers: vec![number],
        ..LineFaults::default()
    }
}

/// A text too long, every bad header, both, and each with a faulty line.
fn of_whole_text() -> Vec<Faults> {
    let mut faults = Vec::new();
    let mut add = |too_long, header, lines| {
        faults.push(Faults {
            too_long,
            header,
            lines,
        });
    };
    for form in 0..FORMS_OF_HEADER {
        add(false, Some(form), Vec::new());
    }
    for header in [None, None, None, Some(0)] {
        add(true, header, Vec::new());
    }
    for number in IN_ORDER {
        add(true, None, vec![plain_line(number)]);
        add(false, Some(6), vec![plain_line(number)]);
    }
    faults
}

/// A text with this damage.
pub fn make(random: &mut Random, damage: &Damage) -> DamagedText {
    match damage {
        Damage::Faults(faults) => with_faults(random, faults),
        Damage::AboveLimit(bytes) => above_limit(random, *bytes),
        Damage::NoLineFeed(kind) => cut_off(random, *kind, 1),
        Damage::CutOff(kind) => cut_off(random, *kind, usize::MAX),
    }
}

fn with_faults(random: &mut Random, faults: &Faults) -> DamagedText {
    let (draft, lines) = faulty_lines::plan(random, &faults.lines);
    let mut body = draft.lines();
    // The last one first, so that the places before it stay what they are.
    for line in lines.iter().rev() {
        body.insert(line.place, line.bytes(random, &draft));
    }
    let mut text = match faults.header {
        Some(form) => with_bad_header(form as usize, body.concat()),
        None => [GOOD_HEADER, &body.concat()].concat(),
    };
    if faults.too_long {
        lengthen(random, &mut text);
    }
    DamagedText {
        text,
        refusal: first_refusal(faults, lines.first()),
    }
}

fn first_refusal(faults: &Faults, first_line: Option<&FaultyLine>) -> Refusal {
    match first_line {
        _ if faults.too_long => Refusal::bare(TEXT_TOO_LONG),
        Some(line) if faults.header.is_none() => {
            // The header is line 1, so the body's place 0 is line 2.
            Refusal::new(line.first_fault(), line.place as u64 + 2)
        }
        _ => Refusal::new(HEADER, 1),
    }
}

fn with_bad_header(form: usize, body: Vec<u8>) -> Vec<u8> {
    match BAD_HEADERS.get(form) {
        Some(header) => [header, &body[..]].concat(),
        None => GOOD_HEADER[..form - BAD_HEADERS.len()].to_vec(),
    }
}

/// Makes a text too long, by one byte or by many.
fn lengthen(random: &mut Random, text: &mut Vec<u8>) {
    let length = LONGEST_TEXT + random.pick(&[1, 2, 1000, LONGEST_TEXT]);
    let filler: &[u8] = random.pick(&[b"\n" as &[u8], b"0", b"range\t0\t1\t1\t2\t0\n"]);
    while text.len() < length {
        text.extend_from_slice(filler);
    }
    text.truncate(length);
}

/// A text as long as is allowed, or so many bytes longer.
fn above_limit(random: &mut Random, bytes: usize) -> DamagedText {
    let mut draft = Draft::default();
    let rows = random.index(10);
    draft.fill(random, Kind::Contact, rows);
    let mut text = draft.text();
    text.extend_from_slice(b"contact\t0\t1\t1\t2\t");
    let digits = LONGEST_TEXT + bytes - text.len() - 1;
    text.extend(std::iter::repeat_n(b'7', digits));
    text.push(b'\n');
    let refusal = match bytes {
        0 => Refusal::new(VALUE, rows as u64 + 2),
        _ => Refusal::bare(TEXT_TOO_LONG),
    };
    DamagedText { text, refusal }
}

/// A valid text without some of the last bytes of its last line.
fn cut_off(random: &mut Random, kind: Kind, most: usize) -> DamagedText {
    let mut draft = Draft::default();
    let rows = random.between(1, 5) as usize;
    draft.fill(random, Kind::Contact, rows);
    if kind == Kind::Range {
        draft.fill(random, Kind::Range, rows);
    }
    let lines = draft.lines();
    let all_but_one = lines.last().map_or(1, |line| line.len() - 1);
    let cut = random.between(1, all_but_one.min(most) as u64) as usize;
    let mut text = draft.text();
    text.truncate(text.len() - cut);
    DamagedText {
        text,
        refusal: Refusal::new(LINE_SHAPE, lines.len() as u64 + 1),
    }
}
