//! Lines with faults 3 to 7, and valid plans in which they are put.

use crate::cases::damage::LineFaults;
use crate::cases::draft::{Draft, Kind};
use crate::cases::lines::{too_long, Pieces, FORMS, FORMS_WITH_WORD};
use crate::plain::overlap;
use crate::plan::Row;
use crate::random::Random;
use crate::refusal::{CONTACT_AFTER_RANGE, LINE_SHAPE, OVERLAP, TOO_MANY_ROWS, VALUE};
use crate::units::{LATEST_TIME, NODES, ROWS};

/// The faults of one line in the order in which they are judged.
pub const IN_ORDER: [u64; 5] = [
    LINE_SHAPE,
    CONTACT_AFTER_RANGE,
    TOO_MANY_ROWS,
    VALUE,
    OVERLAP,
];

/// The forms of a value out of its range.
pub const FORMS_OF_VALUE: u64 = 18;
/// Those that leave nodes and start as they are.
const FORMS_OF_VALUE_WITH_OVERLAP: u64 = 7;

/// A faulty line and the place among a plan's lines before which it is put.
pub struct FaultyLine<'a> {
    faults: &'a LineFaults,
    site: Site,
    pub place: usize,
}

/// Where a faulty line stands.
#[derive(Clone, Copy, PartialEq, Eq)]
enum Site {
    /// A contact line among the contact lines.
    Contact,
    /// A contact line among the range lines.
    LateContact,
    /// A range line among the range lines.
    Range,
}

impl Site {
    fn kind(self) -> Kind {
        match self {
            Site::Contact | Site::LateContact => Kind::Contact,
            Site::Range => Kind::Range,
        }
    }
}

/// A valid plan, with a table full where a line is to be one too many, and
/// the faulty lines to put into it, none before an earlier one.
pub fn plan<'a>(random: &mut Random, lines: &'a [LineFaults]) -> (Draft, Vec<FaultyLine<'a>>) {
    let mut draft = Draft::default();
    for kind in [Kind::Contact, Kind::Range] {
        let rows = random.between(2, 6) as usize;
        draft.fill(random, kind, rows);
    }
    let sites = sites(random, lines);
    for (faults, site) in lines.iter().zip(&sites) {
        if faults.numbers.contains(&TOO_MANY_ROWS) {
            draft.fill(random, site.kind(), ROWS);
        }
    }
    let mut placed: Vec<FaultyLine> = Vec::new();
    for (faults, site) in lines.iter().zip(sites) {
        let earliest = placed.last().map_or(0, |line| line.place);
        let place = place(random, &draft, faults, site).max(earliest);
        placed.push(FaultyLine {
            faults,
            site,
            place,
        });
    }
    (draft, placed)
}

fn sites(random: &mut Random, lines: &[LineFaults]) -> Vec<Site> {
    let mut sites: Vec<Site> = Vec::new();
    for faults in lines {
        let among_ranges = sites.last().is_some_and(|site| *site != Site::Contact);
        let either = random.pick(&[Kind::Contact, Kind::Range]);
        let site = match faults.kind.unwrap_or(either) {
            _ if faults.numbers.contains(&CONTACT_AFTER_RANGE) => Site::LateContact,
            Kind::Contact if !among_ranges => Site::Contact,
            _ => Site::Range,
        };
        sites.push(site);
    }
    sites
}

/// A place after at least one line of those among which the line stands: the
/// last if it is to be one too many, else one that leaves it within the rows.
fn place(random: &mut Random, draft: &Draft, faults: &LineFaults, site: Site) -> usize {
    let (first, rows) = match site {
        Site::Contact => (0, draft.contacts.len()),
        Site::LateContact | Site::Range => (draft.contacts.len(), draft.ranges.len()),
    };
    if faults.numbers.contains(&TOO_MANY_ROWS) && site != Site::LateContact {
        first + rows
    } else {
        first + random.between(1, rows.min(ROWS - 1) as u64) as usize
    }
}

impl FaultyLine<'_> {
    fn has(&self, fault: u64) -> bool {
        self.faults.numbers.contains(&fault)
    }

    /// The number that the line is refused with.
    pub fn first_fault(&self) -> u64 {
        let mut in_order = IN_ORDER.iter().copied();
        in_order
            .find(|&fault| self.has(fault))
            .unwrap_or(LINE_SHAPE)
    }

    pub fn bytes(&self, random: &mut Random, draft: &Draft) -> Vec<u8> {
        let kind = self.site.kind();
        let row = if self.has(OVERLAP) {
            let earlier = random.pick(self.rows_before(draft));
            overlapping(random, &earlier)
        } else {
            draft.fresh(random, kind)
        };
        let mut line = Pieces::new(kind.word(), &row);
        if self.has(VALUE) {
            let forms = if self.has(OVERLAP) {
                FORMS_OF_VALUE_WITH_OVERLAP
            } else {
                FORMS_OF_VALUE
            };
            let form = self.faults.form.unwrap_or(random.below(forms));
            break_value(random, kind, &row, &mut line, form);
        }
        if self.has(LINE_SHAPE) {
            let alone = self.faults.numbers.len() == 1;
            let forms = if alone { FORMS } else { FORMS_WITH_WORD };
            let form = self.faults.form.unwrap_or(random.below(forms));
            return line.misshapen(random, form);
        }
        line.bytes()
    }

    /// The rows of the line's kind that stand before it.
    fn rows_before<'d>(&self, draft: &'d Draft) -> &'d [Row] {
        match self.site {
            Site::Contact => &draft.contacts[..self.place],
            Site::LateContact => &draft.contacts,
            Site::Range => &draft.ranges[..self.place - draft.contacts.len()],
        }
    }
}

/// A good row that overlaps an earlier one: at an edge, inside, or around it.
fn overlapping(random: &mut Random, earlier: &Row) -> Row {
    let [start, end, ..] = *earlier;
    loop {
        let mut row = *earlier;
        row[0] = random.pick(&[start, start.saturating_sub(1), start + 1, end - 1, 0]);
        row[1] = random.pick(&[start + 1, end - 1, end, end + 1, LATEST_TIME]);
        if row[0] < row[1] && overlap(earlier, &row) {
            return row;
        }
    }
}

/// Puts a value of a good row out of its range in one of the forms.
fn break_value(random: &mut Random, kind: Kind, row: &Row, line: &mut Pieces, form: u64) {
    let (least, most) = kind.last_limits();
    let past_time = LATEST_TIME + 1;
    let far = random.pick(&[(1 << 32) + 1, (1 << 33) + 1, 1 << 63, u64::MAX]);
    let wrapped_node = random.pick(&[1 << 6, 1 << 8, 1 << 16, 1 << 32]) + row[2];
    let (place, value) = match form {
        0 if least > 0 => (4, least - 1),
        0 | 1 => (4, most + 1),
        2 => (4, far.max(most + 2)),
        3 => return line.fields[4] = too_long(random, row[4]),
        4 => (1, past_time),
        5 => (1, far.max(past_time)),
        6 => return line.fields[1] = too_long(random, row[1]),
        7 => return line.fields[0] = too_long(random, row[0]),
        8 => (0, row[1]),
        9 => (0, row[1] + 1),
        10 => (2, 0),
        11 => (3, 0),
        12 => (2, NODES + 1),
        13 => (3, NODES + 1),
        14 => (random.pick(&[2, 3]), wrapped_node),
        15 => {
            let place = random.pick(&[2, 3]);
            return line.fields[place] = too_long(random, row[place]);
        }
        16 => (2, row[3]),
        _ if kind == Kind::Range => return line.fields.swap(2, 3),
        _ => {
            line.fields[1] = (past_time + 1).to_string().into();
            (0, past_time)
        }
    };
    line.fields[place] = value.to_string().into();
}
