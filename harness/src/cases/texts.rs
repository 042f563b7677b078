//! Texts that no generator of plans would make.

use second::cases::draft::Draft;
use second::random::Random;
use second::units::LONGEST_TEXT;

use super::bytes;

/// Bytes that stand in a plan's text, and some that never do.
const PUT_IN: &[u8] = b"\t\t\n\n0123456789 cr-\r\0\x80\xff";

/// A plan's text after a few small changes, at times still good.
pub fn scratched(random: &mut Random, draft: &Draft) -> Vec<u8> {
    let mut text = draft.text();
    for _ in 0..random.between(1, 3) {
        let place = random.index(text.len().max(1));
        match random.below(8) {
            _ if text.is_empty() => break,
            0 | 1 => text[place] = random.pick(PUT_IN),
            2 => text.insert(place, random.pick(PUT_IN)),
            3 => {
                text.remove(place);
            }
            4 => text.truncate(place + 1),
            5 => text[place] = text[place].wrapping_add(1),
            _ => text = with_line_moved(random, &text),
        }
    }
    text
}

/// The text with one line after the header again, or in another place.
fn with_line_moved(random: &mut Random, text: &[u8]) -> Vec<u8> {
    let mut lines: Vec<&[u8]> = text.split_inclusive(|&byte| byte == b'\n').collect();
    let line = random.index(lines.len());
    let moved = if random.percent(50) {
        lines[line]
    } else {
        lines.remove(line)
    };
    lines.insert(random.index(lines.len() + 1), moved);
    lines.concat()
}

/// Anything, with or without a header, some of it as long as is allowed.
pub fn odd(random: &mut Random) -> Vec<u8> {
    let header = random.pick(&[&b"plan\t1\n"[..], b"plan\t1", b""]);
    let length = match random.below(40) {
        0 => LONGEST_TEXT - header.len(),
        1 => LONGEST_TEXT + 1 - header.len(),
        _ => random.index(120),
    };
    let body = match random.below(3) {
        0 => bytes(random, length),
        1 => vec![random.pick(PUT_IN); length],
        _ => (0..length).map(|_| random.pick(PUT_IN)).collect(),
    };
    [header, &body].concat()
}
