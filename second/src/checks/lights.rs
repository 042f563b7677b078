//! Light times: those that a plan gives its contacts against the plain ones,
//! and short contacts looked at millisecond by millisecond. It counts which
//! kinds of ranges were met.

use crate::cases::draft::Draft;
use crate::cases::plans::{LARGE, SMALL};
use crate::checks::tally::Tally;
use crate::plain::{light, ranges_of, share_time};
use crate::plan::Row;
use crate::random::Random;

/// The longest contacts that are looked at millisecond by millisecond.
const SHORT: u64 = 2000;

/// A small plan of every family.
pub fn check_small(random: &mut Random, tally: &mut Tally) {
    for family in SMALL {
        check_plan(family.0, &family.1(random), tally);
    }
}

/// A large plan.
pub fn check_large(random: &mut Random, turn: u64, tally: &mut Tally) {
    let (name, family) = LARGE[turn as usize % LARGE.len()];
    check_plan(name, &family(random), tally);
}

fn check_plan(name: &str, draft: &Draft, tally: &mut Tally) {
    let plan = draft.plan();
    for (contact, row) in plan.contacts().iter().zip(&draft.contacts) {
        let about = || {
            let plan = String::from_utf8_lossy(&draft.text()).into_owned();
            format!("{name}: {row:?}\n{plan}")
        };
        let found = plan.light(contact).map(|light| light.0);
        let wanted = light(row, &draft.ranges);
        tally.same("light time of a contact", found, wanted, about);
        if row[1] - row[0] <= SHORT {
            let wanted = by_milliseconds(row, &draft.ranges);
            let what = "light time, every millisecond looked at";
            tally.same(what, found, wanted, about);
        }
        meet(row, &draft.ranges, tally);
    }
}

/// The largest of the light times at each millisecond of a contact; none if
/// there is none at one of them.
fn by_milliseconds(contact: &Row, ranges: &[Row]) -> Option<u64> {
    let of_pair = ranges_of(contact, ranges);
    let at = |moment: u64| {
        let range = of_pair.iter().find(|r| r[0] <= moment && moment < r[1]);
        range.map(|r| r[4])
    };
    let lights: Option<Vec<u64>> = (contact[0]..contact[1]).map(at).collect();
    lights?.into_iter().max()
}

const KINDS: [&str; 15] = [
    ONE,
    TWO,
    MANY,
    EQUAL,
    FIRST,
    MIDDLE,
    LAST,
    BOTH,
    ZERO,
    OUT_OF_ORDER,
    TOUCHED,
    NONE,
    AT_START,
    BETWEEN,
    AT_END,
];
const ONE: &str = "ranged by one range";
const TWO: &str = "ranged by two ranges";
const MANY: &str = "ranged by three ranges or more";
const EQUAL: &str = "ranged by several, all light times equal";
const FIRST: &str = "ranged by several, the first light time largest";
const MIDDLE: &str = "ranged by several, a middle light time largest";
const LAST: &str = "ranged by several, the last light time largest";
const BOTH: &str = "ranged by several, first and last light times largest";
const ZERO: &str = "ranged by several, 0 and another among them";
const OUT_OF_ORDER: &str = "ranged by several, not in the order of time";
const TOUCHED: &str = "ranged, and touched by a larger light time";
const NONE: &str = "unranged, no range shares time";
const AT_START: &str = "unranged, only the first millisecond left out";
const BETWEEN: &str = "unranged, only one millisecond between two left out";
const AT_END: &str = "unranged, only the last millisecond left out";

/// Every kind that must be met.
pub fn kinds() -> Vec<String> {
    KINDS.map(String::from).into()
}

/// Counts the kinds of a contact.
fn meet(contact: &Row, ranges: &[Row], tally: &mut Tally) {
    let of_pair = ranges_of(contact, ranges);
    let (sharing, others): (Vec<&Row>, Vec<&Row>) =
        of_pair.iter().partition(|r| share_time(r, contact));
    let Some(light) = light(contact, ranges) else {
        return meet_unranged(contact, &sharing, tally);
    };
    let touches = |r: &&Row| r[1] == contact[0] || r[0] == contact[1];
    if others.into_iter().filter(touches).any(|r| r[4] > light) {
        tally.meet(TOUCHED.into());
    }
    match sharing.len() {
        1 => tally.meet(ONE.into()),
        count => {
            tally.meet(if count == 2 { TWO } else { MANY }.into());
            meet_several(&sharing, tally);
        }
    }
}

/// Counts the kinds of a contact by the ranges that cover it.
fn meet_several(sharing: &[&Row], tally: &mut Tally) {
    let mut sorted = sharing.to_vec();
    sorted.sort();
    if sorted != sharing {
        tally.meet(OUT_OF_ORDER.into());
    }
    let lights: Vec<u64> = sorted.iter().map(|r| r[4]).collect();
    let (first, last) = (lights[0], lights[lights.len() - 1]);
    let largest = lights.iter().max().copied().unwrap_or(0);
    let kind = match (first == largest, last == largest) {
        _ if lights.iter().all(|&light| light == largest) => EQUAL,
        (true, true) => BOTH,
        (true, false) => FIRST,
        (false, true) => LAST,
        (false, false) => MIDDLE,
    };
    tally.meet(kind.into());
    if largest > 0 && lights.contains(&0) {
        tally.meet(ZERO.into());
    }
}

/// Counts the kinds of a contact that these ranges do not cover.
fn meet_unranged(contact: &Row, sharing: &[&Row], tally: &mut Tally) {
    let shared = |r: &&Row| r[1].min(contact[1]) - r[0].max(contact[0]);
    let covered: u64 = sharing.iter().map(shared).sum();
    if covered == 0 {
        tally.meet(NONE.into());
    } else if contact[1] - contact[0] - covered == 1 {
        let kind = if !sharing.iter().any(|r| r[0] <= contact[0]) {
            AT_START
        } else if !sharing.iter().any(|r| contact[1] <= r[1]) {
            AT_END
        } else {
            BETWEEN
        };
        tally.meet(kind.into());
    }
}
