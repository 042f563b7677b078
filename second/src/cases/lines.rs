//! A plan or ask line in pieces, and the ways to damage its shape.

use crate::random::Random;

/// Bytes that are no digit, tab or line feed.
const ODD_BYTES: &[u8] = b"-+ \r\0/:.,aAxe_\"\x0b\x7f\x80\xb2\xd9\xff";

/// Fields that look like numbers.
const ODD_FIELDS: [&str; 7] = ["0x10", "1e3", "1.0", "-0", "00", "1,000", "\u{ff11}"];

/// Words that are none of the three, though like them.
const ODD_WORDS: [&str; 11] = [
    "", "Contact", "contacts", "contac", "RANGE", "ranges", " range", "plan", "asks", "Ask", "#",
];

/// The forms of `misshapen` that leave the line's word as it is.
pub const FORMS_WITH_WORD: u64 = 9;
/// All forms of `misshapen`.
pub const FORMS: u64 = 13;

/// A line: its word, its fields, and what ends it.
#[derive(Clone)]
pub struct Pieces {
    word: Vec<u8>,
    pub fields: Vec<Vec<u8>>,
    end: &'static [u8],
}

impl Pieces {
    pub fn new(word: &str, numbers: &[u64]) -> Self {
        Self {
            word: word.into(),
            fields: numbers.iter().map(|n| n.to_string().into()).collect(),
            end: b"\n",
        }
    }

    pub fn bytes(&self) -> Vec<u8> {
        let mut bytes = self.word.clone();
        for field in &self.fields {
            bytes.push(b'\t');
            bytes.extend_from_slice(field);
        }
        bytes.extend_from_slice(self.end);
        bytes
    }

    /// The line with its shape broken in one of the forms.
    pub fn misshapen(mut self, random: &mut Random, form: u64) -> Vec<u8> {
        let place = random.index(self.fields.len());
        let field = &mut self.fields[place];
        match form {
            0 => {
                self.fields.remove(place);
            }
            1 => {
                let again = field.clone();
                self.fields.insert(place, again);
            }
            2 => field.clear(),
            3 => field.insert(0, b'0'),
            4 => {
                let at = random.index(field.len() + 1);
                field.insert(at, random.pick(ODD_BYTES));
            }
            5 => *field = random.pick(&ODD_FIELDS).into(),
            6 => self.end = b"\r\n",
            7 => self.end = b"\t\n",
            8 => return self.spaced(random),
            9 => self.word.insert(0, b'\t'),
            10 => self.word = random.pick(&ODD_WORDS).into(),
            11 => self.fields.clear(),
            _ => return b"\n".to_vec(),
        }
        self.bytes()
    }

    /// The line with a space in place of one of its tabs.
    fn spaced(self, random: &mut Random) -> Vec<u8> {
        let mut bytes = self.bytes();
        let is_tab = |place: &usize| bytes[*place] == b'\t';
        let tabs: Vec<usize> = (0..bytes.len()).filter(is_tab).collect();
        bytes[random.pick(&tabs)] = b' ';
        bytes
    }
}

/// Digits too long for 64 bits, many of which come out as the value itself
/// where a number wraps around.
pub fn too_long(random: &mut Random, value: u64) -> Vec<u8> {
    let wraps = 1u128 << 64;
    let digits = match random.below(6) {
        0 => (wraps + u128::from(value)).to_string(),
        1 => (wraps * u128::from(random.between(1, 1 << 40)) + u128::from(value)).to_string(),
        2 => format!("1{value:064}"),
        3 => format!("1{value:0128}"),
        4 => wraps.to_string(),
        _ => "9".repeat(random.between(20, 60) as usize),
    };
    digits.into()
}
