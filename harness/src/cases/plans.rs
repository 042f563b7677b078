//! The plans that calls are about: small ones, few large ones, the largest.

use second::cases::draft::Draft;
use second::cases::plans::{case_h, case_i, figures_plan, LARGE, SMALL};
use second::plan::Row;
use second::random::Random;
use second::units::{HIGHEST_RATE, LATEST_TIME, LONGEST_LIGHT, NODES, ROWS};
use second::Ask;

/// A plan; so many of a thousand are large ones.
pub fn some(random: &mut Random, large: u64) -> Draft {
    match random.below(1000) {
        share if share < large => (random.pick(&LARGE).1)(random),
        997 => figures_plan(),
        998 => random.pick(&[case_h as fn() -> Draft, case_i])(),
        999 => Draft::default(),
        _ => (random.pick(&SMALL).1)(random),
    }
}

/// The plan with the longest text there is: 46,087 bytes.
pub fn longest_text() -> Draft {
    let rows = |last: u64| -> Vec<Row> {
        let starts = (0..ROWS as u64).map(|row| 1_000_000_000 + 10 * row);
        let row = |start| [start, start + 5, 10, 11, last];
        starts.map(row).collect()
    };
    Draft {
        contacts: rows(HIGHEST_RATE),
        ranges: rows(LONGEST_LIGHT),
    }
}

/// As many contacts and ranges as there may be, through which a best chain
/// leads over all 64 nodes in a line, 63 contacts. The other contacts go back
/// along the line, and the other ranges are later.
pub fn full_line() -> Draft {
    const OPEN: u64 = 1_000_000;
    let pairs: Vec<(u64, u64)> = (1..NODES).map(|node| (node, node + 1)).collect();
    let mut draft = Draft::default();
    for &(one, next) in &pairs {
        draft.contacts.push([0, OPEN, one, next, 1000]);
        draft.ranges.push([0, OPEN, one, next, 1]);
    }
    for (pass, &(one, next)) in (0..).zip(pairs.iter().cycle()) {
        if draft.contacts.len() == ROWS {
            break;
        }
        let start = 10 * pass;
        draft.contacts.push([start, start + 10, next, one, 1000]);
        draft
            .ranges
            .push([OPEN + start, OPEN + start + 10, one, next, 2]);
    }
    draft
}

/// The ask whose best chain goes all along the line, by contacts 1 to 63.
pub const FULL_LINE_ASK: Ask = Ask {
    source: 1,
    destination: NODES,
    time: 0,
    size: 1000,
    deadline: LATEST_TIME,
    excluded: 0,
};

/// Three nodes between which there is always a contact, so that a chain of
/// any length is allowed: to and fro by contacts 1 and 2, and on by 3.
pub fn to_and_fro() -> Draft {
    let contact = |from, to| [0, LATEST_TIME, from, to, 1_000_000];
    Draft {
        contacts: vec![contact(1, 2), contact(2, 1), contact(2, 3)],
        ranges: vec![[0, LATEST_TIME, 1, 2, 3], [0, LATEST_TIME, 2, 3, 3]],
    }
}

#[cfg(test)]
mod tests {
    use super::{full_line, longest_text, to_and_fro, FULL_LINE_ASK};
    use second::route::Network;
    use second::router::Router;
    use second::units::{LONGEST_BEST, ROWS};

    #[test]
    fn the_longest_text_has_46_087_bytes() {
        assert_eq!(longest_text().plan().contacts().len(), ROWS);
        assert_eq!(longest_text().text().len(), 46_087);
    }

    #[test]
    fn the_full_line_has_a_best_chain_of_63() {
        let plan = full_line().plan();
        assert_eq!((plan.contacts().len(), plan.ranges().len()), (ROWS, ROWS));
        let ask = FULL_LINE_ASK.check().expect("a good ask");
        let best = Network::prepare(&plan).best(&ask).expect("a way in time");
        let numbers: Vec<u64> = best.chain.iter().map(|number| number.0).collect();
        assert_eq!(numbers, (1..=LONGEST_BEST as u64).collect::<Vec<u64>>());
    }

    #[test]
    fn to_and_fro_is_a_plan() {
        assert_eq!(to_and_fro().plan().contacts().len(), 3);
    }
}
