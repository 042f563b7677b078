//! Chains to walk that no generator of good ones would make, and long ones.

use second::cases::draft::Draft;
use second::random::Random;
use second::units::LATEST_TIME;
use second::Ask;

/// The milliseconds of each contact on [`to_and_fro`]'s chains.
const STEP: u64 = 5;

/// Contacts of any numbers: none, one, one again and again, or many.
pub fn odd(random: &mut Random, draft: &Draft) -> Vec<u64> {
    let count = draft.contacts.len() as u64;
    let number = random.pick(&[0, 1, count, count + 1, 512, 513, 1 << 32, u64::MAX]);
    let length = random.pick(&[0, 1, 2, 63, 64, 65, 2000]);
    match random.below(4) {
        0 => Vec::new(),
        1 => vec![number; length],
        2 => (0..length).map(|_| random.word()).collect(),
        _ => (0..length)
            .map(|_| random.between(1, count.max(1)))
            .collect(),
    }
}

/// A chain over the plan of the same name, with an ask for which it delivers
/// in time, if only just, or just too late.
pub fn to_and_fro(length: u64, late_by: u64) -> (Ask, Vec<u64>) {
    let mut chain: Vec<u64> = (0..length).map(|place| 1 + place % 2).collect();
    let mut destination = 2;
    if length.is_multiple_of(2) {
        chain.pop();
        chain.push(3);
        destination = 3;
    }
    let ask = Ask {
        source: 1,
        destination,
        time: 0,
        size: 1500,
        deadline: (STEP * length + 1 - late_by).min(LATEST_TIME),
        excluded: 0,
    };
    (ask, chain)
}

/// The number of one contact changed.
pub fn damage(random: &mut Random, chain: &mut [u64]) {
    let place = random.index(chain.len());
    chain[place] = random.pick(&[0, 1, 2, 3, 4, u64::MAX]);
}
