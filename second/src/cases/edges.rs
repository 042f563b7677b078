//! Folders at the edge of what there may be: the longest inputs, lines, numbers
//! and answers, and bytes of every value.

use crate::cases::asks;
use crate::cases::draft::{Draft, Kind};
use crate::cases::folders::{Folder, FIGURE_ASKS};
use crate::cases::lines::Pieces;
use crate::cases::long_ways::{self, long_way};
use crate::cases::plans::figures_plan;
use crate::random::Random;
use crate::units::{HIGHEST_RATE, LATEST_TIME, LONGEST_TEXT, NODES, ROWS};

/// An ask that is answered, up to its last field.
const ALL_BUT_EXCLUDED: &[u8] = b"ask\t1\t3\t0\t1000\t30000\t";

/// Asks that are refused with 17 and with 12.
const NO_FIELDS: &[u8] = b"ask\n";
const SAME_NODE: &[u8] = b"ask\t1\t1\t0\t1\t9\t0\n";

pub const EDGES: [fn(&mut Random) -> Folder; 23] = [
    |_| asked("only line feeds", vec![b'\n'; LONGEST_TEXT]),
    |_| {
        asked(
            "only line feeds, one too many",
            vec![b'\n'; LONGEST_TEXT + 1],
        )
    },
    |_| asked("one line at the limit", one_line(b"9", LONGEST_TEXT)),
    |_| asked("one line over the limit", one_line(b"9", LONGEST_TEXT + 1)),
    |_| asked("one line of zeros", one_line(b"0", LONGEST_TEXT)),
    |_| {
        asked(
            "one line without its end",
            without_end(one_line(b"9", LONGEST_TEXT + 1)),
        )
    },
    |_| asked("an ask without its end", without_end(FIGURE_ASKS.to_vec())),
    long_answers,
    answers_of_two_lengths,
    answer_at_the_edge,
    |random| asked("long numbers in asks", long_numbers(random)),
    |random| long_number_in_plan(random, Kind::Contact, false),
    |random| long_number_in_plan(random, Kind::Contact, true),
    |random| long_number_in_plan(random, Kind::Range, false),
    |random| long_number_in_plan(random, Kind::Range, true),
    |_| asked("each byte a line", each_byte(|byte| vec![byte, b'\n'])),
    |_| asked("each byte in an ask", each_byte(byte_in_ask)),
    |_| asked("each byte for another", each_byte(byte_for_another)),
    |random| asked("any bytes", any_bytes(random)),
    long_ways,
    long_ways,
    long_ways,
    long_ways,
];

/// Asks over the plan of cases A to G.
fn asked(name: &str, input: Vec<u8>) -> Folder {
    Folder::new(name, figures_plan().text(), input)
}

/// One ask of so many bytes, its line feed among them, that ends in a number
/// of this digit.
fn one_line(digit: &[u8], length: usize) -> Vec<u8> {
    let digits = length - ALL_BUT_EXCLUDED.len() - 1;
    [ALL_BUT_EXCLUDED, &digit.repeat(digits), b"\n"].concat()
}

fn without_end(mut input: Vec<u8>) -> Vec<u8> {
    input.pop();
    input
}

/// A full plan in which a line through all nodes is open late, for long and at
/// the highest rate, by the contacts of the highest numbers: an answer all along
/// it is as long as one can be.
fn late_line() -> Draft {
    const OPENS: u64 = 1_000_000_000;
    let mut draft = Draft::default();
    let hops = NODES - 1;
    for pass in 0..ROWS as u64 - hops {
        let node = 1 + pass % hops;
        let start = 10 * pass;
        draft.add(Kind::Contact, [start, start + 10, node + 1, node, 1000]);
    }
    for node in 1..NODES {
        draft.add(
            Kind::Contact,
            [OPENS, LATEST_TIME, node, node + 1, HIGHEST_RATE],
        );
        draft.add(Kind::Range, [0, LATEST_TIME, node, node + 1, 1]);
    }
    draft
}

/// As many asks as there is room for, each all along the line, so that what is
/// printed is ten times as long as the input may be.
fn long_answers(random: &mut Random) -> Folder {
    let input = filled(|| ask_on_line(random));
    Folder::new("long answers", late_line().text(), input)
}

/// The same with short answers between them.
fn answers_of_two_lengths(random: &mut Random) -> Folder {
    let input = filled(|| match random.percent(30) {
        true => random.pick(&[NO_FIELDS, SAME_NODE, b"\n"]).to_vec(),
        false => ask_on_line(random),
    });
    Folder::new("answers of two lengths", late_line().text(), input)
}

/// Long answers, and after 64 KiB less 304 bytes of output one of 305 bytes: a
/// program that prints in parts of 64 KiB must see that it does not fit.
fn answer_at_the_edge(random: &mut Random) -> Folder {
    let long = |random: &mut Random, count| -> Vec<u8> {
        (0..count).flat_map(|_| ask_on_line(random)).collect()
    };
    let input = [
        long(random, 213),
        SAME_NODE.repeat(9),
        NO_FIELDS.repeat(10),
        long(random, 5),
    ];
    Folder::new("answer at the edge", late_line().text(), input.concat())
}

/// An ask all along the line; the deadline shows in its last call.
fn ask_on_line(random: &mut Random) -> Vec<u8> {
    let deadline = random.between(8_000_000_000, LATEST_TIME);
    let size = random.between(1, 9);
    Pieces::new("ask", &[1, NODES, 0, size, deadline, 0]).bytes()
}

/// Lines as far as they have room.
fn filled(mut line: impl FnMut() -> Vec<u8>) -> Vec<u8> {
    let mut input = Vec::new();
    loop {
        let next = line();
        if input.len() + next.len() > LONGEST_TEXT {
            return input;
        }
        input.extend_from_slice(&next);
    }
}

/// Hundreds of digits, with zeros before them or without.
fn long_number(random: &mut Random, zeros: bool) -> Vec<u8> {
    let count = random.pick(&[100, 128, 255, 256, 257, 400, 900]);
    let mut digits: Vec<u8> = (0..count).map(|_| b'0' + random.below(10) as u8).collect();
    let lead = if zeros {
        random.pick(&[1, count - 1, count])
    } else {
        0
    };
    digits[0] = b'1' + random.below(9) as u8;
    digits[..lead].fill(b'0');
    digits
}

/// Good asks, and such that have numbers of hundreds of digits in some fields.
fn long_numbers(random: &mut Random) -> Vec<u8> {
    let draft = figures_plan();
    filled(|| {
        let ask = asks::ask(random, &draft);
        let mut line = Pieces::new("ask", &ask.numbers());
        for _ in 0..random.below(3) {
            let place = random.index(line.fields.len());
            let zeros = random.percent(40);
            line.fields[place] = long_number(random, zeros);
        }
        line.bytes()
    })
}

/// A plan's text in which one number of a line has hundreds of digits.
pub fn long_number_text(random: &mut Random, kind: Kind, zeros: bool) -> Vec<u8> {
    let draft = figures_plan();
    let mut lines = draft.lines();
    let rows = draft.rows(kind);
    let row = random.index(rows.len());
    let mut line = Pieces::new(kind.word(), &rows[row]);
    let place = random.index(line.fields.len());
    line.fields[place] = long_number(random, zeros);
    let before = match kind {
        Kind::Contact => 0,
        Kind::Range => draft.contacts.len(),
    };
    lines[before + row] = line.bytes();
    [b"plan\t1\n".to_vec(), lines.concat()].concat()
}

fn long_number_in_plan(random: &mut Random, kind: Kind, zeros: bool) -> Folder {
    let text = long_number_text(random, kind, zeros);
    let name = format!("long number in a {}, zeros {zeros}", kind.word());
    Folder::new(name, text, FIGURE_ASKS.to_vec())
}

/// A line for each value of a byte.
fn each_byte(line: impl Fn(u8) -> Vec<u8>) -> Vec<u8> {
    (0..=u8::MAX).flat_map(line).collect()
}

/// A good ask with a byte more, at a place that goes with the byte.
fn byte_in_ask(byte: u8) -> Vec<u8> {
    let mut line = [ALL_BUT_EXCLUDED, b"0\n"].concat();
    line.insert(byte as usize % line.len(), byte);
    line
}

/// A good ask with a byte in place of another.
fn byte_for_another(byte: u8) -> Vec<u8> {
    let mut line = [ALL_BUT_EXCLUDED, b"0\n"].concat();
    let place = byte as usize % line.len();
    line[place] = byte;
    line
}

/// Bytes of any value, as many as there may be.
fn any_bytes(random: &mut Random) -> Vec<u8> {
    (0..LONGEST_TEXT).map(|_| random.word() as u8).collect()
}

/// Asks all along a long way, and others over the same plan.
fn long_ways(random: &mut Random) -> Folder {
    let way = long_way(random);
    let mut input = Vec::new();
    for _ in 0..150 {
        let ask = match random.percent(75) {
            true => long_ways::ask(random, way.ends),
            false => asks::ask(random, &way.draft),
        };
        input.extend(asks::line(&ask));
    }
    Folder::new("long ways", way.draft.text(), input)
}

#[cfg(test)]
mod tests {
    use super::{answer_at_the_edge, answers_of_two_lengths, long_answers, EDGES};
    use crate::cases::folders::Folder;
    use crate::program::answers;
    use crate::random::Random;
    use crate::route::Network;
    use crate::units::LONGEST_TEXT;

    /// The longest line of an answer that there is.
    const LONGEST_LINE: usize = 305;

    fn lines(folder: &Folder) -> Vec<Vec<u8>> {
        let printed = answers::<Network>(folder.plan.text(), &folder.input);
        let lines = printed.split_inclusive(|&byte| byte == b'\n');
        lines.map(<[u8]>::to_vec).collect()
    }

    #[test]
    fn every_long_answer_is_as_long_as_one_can_be() {
        let lines = lines(&long_answers(&mut Random::new(1)));
        assert!(lines.len() > 2300);
        assert!(lines.iter().all(|line| line.len() == LONGEST_LINE));
        assert!(lines.concat().len() > 10 * LONGEST_TEXT);
    }

    #[test]
    fn long_and_short_answers_stand_side_by_side() {
        let lines = lines(&answers_of_two_lengths(&mut Random::new(1)));
        let long = lines
            .iter()
            .filter(|line| line.len() == LONGEST_LINE)
            .count();
        assert!(long > 2000 && lines.len() > long + 500);
    }

    #[test]
    fn the_answer_at_the_edge_is_a_byte_too_long() {
        let lines = lines(&answer_at_the_edge(&mut Random::new(1)));
        let before: usize = lines[..232].iter().map(Vec::len).sum();
        assert_eq!(before, 65_536 - 304);
        assert_eq!(lines[232].len(), LONGEST_LINE);
    }

    #[test]
    fn inputs_stand_at_the_limit_and_one_past_it() {
        let folders = EDGES.map(|edge| edge(&mut Random::new(1)));
        let lengths = folders.map(|folder| folder.input.len());
        assert!(lengths.contains(&LONGEST_TEXT) && lengths.contains(&(LONGEST_TEXT + 1)));
        assert!(lengths.iter().all(|&length| length <= LONGEST_TEXT + 1));
    }
}
