//! The light time of a contact under ranges that change during it, each rule by
//! a case worked out by hand.

use second::cases::draft::Draft;
use second::plain;
use second::plan::Row;
use second::units::{LATEST_TIME, LONGEST_LIGHT};

/// The light time of a contact between nodes 1 and 2 under ranges of these two,
/// each with its start, end and light time: the same both ways, in any order of
/// the ranges, and by the plain definition too.
fn light(contact: [u64; 2], ranges: &[[u64; 3]]) -> Option<u64> {
    let ranges: Vec<Row> = ranges
        .iter()
        .map(|&[start, end, light]| [start, end, 1, 2, light])
        .collect();
    let light = light_of([contact[0], contact[1], 1, 2, 1000], &ranges);
    let back = [contact[0], contact[1], 2, 1, 1000];
    assert_eq!(light_of(back, &ranges), light);
    let mut turned = ranges;
    for _ in 0..turned.len() {
        turned.rotate_left(1);
        assert_eq!(light_of(back, &turned), light);
    }
    turned.reverse();
    assert_eq!(light_of(back, &turned), light);
    light
}

fn light_of(contact: Row, ranges: &[Row]) -> Option<u64> {
    let draft = Draft::of(&[contact], ranges);
    assert_eq!(draft.ranges, ranges, "ranges of a valid plan");
    let plan = draft.plan();
    let light = plan.light(&plan.contacts()[0]).map(|light| light.0);
    assert_eq!(plain::light(&contact, ranges), light);
    light
}

#[test]
fn one_range() {
    assert_eq!(light([10, 20], &[[10, 20, 7]]), Some(7));
    assert_eq!(light([10, 20], &[[0, 30, 7]]), Some(7));
    assert_eq!(light([10, 20], &[[11, 20, 7]]), None);
    assert_eq!(light([10, 20], &[[10, 19, 7]]), None);
    assert_eq!(light([10, 20], &[]), None);
}

#[test]
fn two_touching_ranges() {
    assert_eq!(light([10, 20], &[[10, 15, 7], [15, 20, 7]]), Some(7));
    assert_eq!(light([10, 20], &[[10, 15, 7], [15, 20, 3]]), Some(7));
    assert_eq!(light([10, 20], &[[10, 15, 3], [15, 20, 7]]), Some(7));
    assert_eq!(light([10, 20], &[[0, 11, 3], [11, 30, 7]]), Some(7));
    assert_eq!(light([10, 20], &[[0, 19, 3], [19, 20, 7]]), Some(7));
}

#[test]
fn three_touching_ranges_and_more() {
    for lights in [[9, 5, 2], [2, 9, 5], [5, 2, 9], [9, 2, 9], [9, 9, 9]] {
        let [first, second, third] = lights;
        let ranges = [[10, 13, first], [13, 14, second], [14, 20, third]];
        assert_eq!(light([10, 20], &ranges), Some(9));
    }
    let milliseconds: Vec<[u64; 3]> = (10..20).map(|t| [t, t + 1, t % 7]).collect();
    assert_eq!(light([10, 20], &milliseconds), Some(6));
    assert_eq!(light([10, 20], &milliseconds[1..]), None);
    assert_eq!(light([11, 20], &milliseconds[1..]), Some(6));
    assert_eq!(light([14, 20], &milliseconds[4..]), Some(5));
}

#[test]
fn a_gap_of_one_millisecond() {
    assert_eq!(light([10, 20], &[[10, 15, 7], [16, 20, 7]]), None);
    assert_eq!(light([10, 20], &[[11, 15, 7], [15, 20, 7]]), None);
    assert_eq!(light([10, 20], &[[10, 15, 7], [15, 19, 7]]), None);
    assert_eq!(light([10, 20], &[[0, 10, 7], [11, 30, 7]]), None);
    assert_eq!(light([10, 20], &[[0, 19, 7], [20, 30, 7]]), None);
    let three = [[10, 12, 7], [12, 18, 7], [19, 20, 7]];
    assert_eq!(light([10, 20], &three), None);
    assert_eq!(light([10, 18], &three), Some(7));
    assert_eq!(light([19, 20], &three), Some(7));
}

#[test]
fn a_range_that_only_touches() {
    let around = [[0, 10, 50], [10, 20, 7], [20, 30, 90]];
    assert_eq!(light([10, 20], &around), Some(7));
    assert_eq!(light([9, 20], &around), Some(50));
    assert_eq!(light([10, 21], &around), Some(90));
    assert_eq!(light([10, 20], &[[0, 10, 50], [20, 30, 90]]), None);
}

#[test]
fn zero_among_the_light_times() {
    assert_eq!(light([10, 20], &[[10, 20, 0]]), Some(0));
    assert_eq!(light([10, 20], &[[10, 15, 0], [15, 20, 0]]), Some(0));
    assert_eq!(light([10, 20], &[[10, 15, 0], [15, 20, 7]]), Some(7));
    assert_eq!(light([10, 20], &[[10, 15, 7], [15, 20, 0]]), Some(7));
    assert_eq!(light([10, 20], &[[10, 15, 0], [16, 20, 0]]), None);
}

#[test]
fn another_pair_covers_nothing() {
    let contact = [10, 20, 1, 2, 1000];
    let own = [[10, 14, 1, 2, 3], [15, 20, 1, 2, 4]];
    for (a, b) in [(1, 3), (2, 3), (3, 4)] {
        let ranges = [own[0], own[1], [14, 15, a, b, 9]];
        assert_eq!(light_of(contact, &ranges), None);
    }
    let ranges = [own[0], own[1], [14, 15, 1, 2, 2], [0, 30, 1, 3, 9]];
    assert_eq!(light_of(contact, &ranges), Some(4));
}

#[test]
fn at_the_limits() {
    let last = LATEST_TIME;
    let two = [[0, last - 1, 0], [last - 1, last, LONGEST_LIGHT]];
    assert_eq!(light([0, last], &two), Some(LONGEST_LIGHT));
    assert_eq!(light([0, last - 1], &two), Some(0));
    assert_eq!(light([last - 1, last], &two), Some(LONGEST_LIGHT));
    assert_eq!(light([0, last], &[[1, last, 0]]), None);
    assert_eq!(light([0, 1], &[[0, 1, 5]]), Some(5));
}
