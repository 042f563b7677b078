//! Two checks of a lent plan, each with the light times that follow from it,
//! and what a lent book leaves of each contact.

use crate::book::OPEN;
use crate::modes::Lent;
use crate::plain::{contact_is_good, overlap, range_is_good};
use crate::plan::Row;
use crate::units::{Class, LONGEST_BEST, PLACES, PLACE_WORDS, ROWS, WORDS};

/// The light time of each contact in the order of the table; none where the
/// contact is unranged.
pub type Lights = Vec<Option<u64>>;

/// The first `count` rows of a table; none if there are not so many.
pub fn rows(table: &[u64], count: u64) -> Option<&[Row]> {
    let (rows, _) = table.as_chunks::<WORDS>();
    let count = usize::try_from(count).ok()?;
    rows.get(..count).filter(|rows| rows.len() <= ROWS)
}

/// Checks a plan with a sort; its light times if it is valid.
pub fn by_sort(contacts: &[Row], ranges: &[Row]) -> Option<Lights> {
    sorted(contacts, contact_is_good)?;
    let order = sorted(ranges, range_is_good)?;
    let light = |contact| light_along(contact, ranges, &order);
    Some(contacts.iter().map(light).collect())
}

/// Checks a plan pair by pair; its light times if it is valid.
pub fn by_pairs(contacts: &[Row], ranges: &[Row]) -> Option<Lights> {
    let is_valid = are_apart(contacts, contact_is_good) && are_apart(ranges, range_is_good);
    let light = |contact| light_among(contact, ranges);
    is_valid.then(|| contacts.iter().map(light).collect())
}

/// The bits of a row's place in its table, and of a time.
const PLACE_BITS: u32 = 9;
const TIME_BITS: u32 = 33;

/// A number that is ordered as two nodes and a time are.
fn key(one: u64, other: u64, time: u64) -> u64 {
    (one << 7 | other) << TIME_BITS | time
}

/// The row whose place is in the last bits of a sorted number.
fn row_of(rows: &[Row], sorted: u64) -> &Row {
    &rows[sorted as usize % ROWS]
}

/// The keys of the rows' pairs and starts, with their places, in order; none
/// if a value is out of range or two neighbours overlap.
fn sorted(rows: &[Row], is_good: fn(&Row) -> bool) -> Option<Vec<u64>> {
    if !rows.iter().all(is_good) {
        return None;
    }
    let keys = (0..).zip(rows);
    let keys = keys.map(|(place, row)| key(row[2], row[3], row[0]) << PLACE_BITS | place);
    let mut order: Vec<u64> = keys.collect();
    order.sort_unstable();
    let mut neighbours = order.windows(2);
    let are_apart = neighbours.all(|two| !overlap(row_of(rows, two[0]), row_of(rows, two[1])));
    are_apart.then_some(order)
}

/// The light time of a contact, from the ranges of its pair one after the
/// other, the first of which is the last to start no later.
fn light_along(contact: &Row, ranges: &[Row], order: &[u64]) -> Option<u64> {
    let [start, end, from, to, _] = *contact;
    let pair = [from.min(to), from.max(to)];
    let begun = order.partition_point(|word| word >> PLACE_BITS <= key(pair[0], pair[1], start));
    let (mut covered_to, mut largest) = (start, 0);
    for &word in &order[begun.checked_sub(1)?..] {
        let range = row_of(ranges, word);
        if range[2..4] != pair || covered_to < range[0] || range[1] <= covered_to {
            return None;
        }
        (covered_to, largest) = (range[1], range[4].max(largest));
        if end <= covered_to {
            return Some(largest);
        }
    }
    None
}

/// Whether all values are in range and no two rows overlap.
fn are_apart(rows: &[Row], is_good: fn(&Row) -> bool) -> bool {
    let mut rows_so_far = (0..).zip(rows);
    rows_so_far.all(|(place, row)| {
        let mut earlier = rows[..place].iter();
        is_good(row) && earlier.all(|earlier| !overlap(earlier, row))
    })
}

/// The light time of a contact, from all ranges. No two of a pair overlap, so
/// they cover the contact where what they share with it adds up to its length.
fn light_among(contact: &Row, ranges: &[Row]) -> Option<u64> {
    let [start, end, from, to, _] = *contact;
    let pair = [from.min(to), from.max(to)];
    let (mut shared, mut largest) = (0, 0);
    for range in ranges.iter().filter(|range| range[2..4] == pair) {
        let (later, sooner) = (start.max(range[0]), end.min(range[1]));
        if later < sooner {
            (shared, largest) = (shared + (sooner - later), range[4].max(largest));
        }
    }
    (shared == end - start).then_some(largest)
}

/// What a valid book leaves of each contact in a class.
pub fn left(contacts: &[Row], lent: &Lent, class: Class) -> Vec<i64> {
    let volume = |&[start, end, _, _, rate]: &Row| (rate * (end - start) / 1000) as i64;
    let mut left: Vec<i64> = contacts.iter().map(volume).collect();
    let (places, _) = lent.book.as_chunks::<PLACE_WORDS>();
    let places = places.iter().zip(lent.booked.chunks_exact(LONGEST_BEST));
    for (&[mark, of, consumption, count], numbers) in places.take(PLACES) {
        if mark == OPEN && class.0 <= of {
            take(&mut left, &numbers[..count as usize], consumption as i64);
        }
    }
    left
}

/// Takes a consumption off each named contact, once.
fn take(left: &mut [i64], numbers: &[u16], consumption: i64) {
    for (place, number) in numbers.iter().enumerate() {
        if !numbers[..place].contains(number) {
            left[usize::from(*number) - 1] -= consumption;
        }
    }
}

#[cfg(test)]
mod tests {
    use super::*;

    /// A contact from 100 to 200, and the spans and light times of its ranges.
    fn light(ranges: &[[u64; 3]]) -> Option<u64> {
        let contact = [[100, 200, 2, 1, 1000]];
        let ranges: Vec<Row> = ranges.iter().map(|r| [r[0], r[1], 1, 2, r[2]]).collect();
        let lights = by_sort(&contact, &ranges).expect("a valid plan");
        assert_eq!(by_pairs(&contact, &ranges), Some(lights.clone()));
        lights[0]
    }

    #[test]
    fn ranges_cover_a_contact_together() {
        assert_eq!(light(&[[100, 200, 0]]), Some(0));
        assert_eq!(light(&[[150, 300, 5], [0, 150, 7]]), Some(7));
        assert_eq!(
            light(&[[150, 160, 9], [200, 300, 99], [160, 200, 1], [99, 150, 2]]),
            Some(9)
        );
    }

    #[test]
    fn a_missing_millisecond_leaves_a_contact_unranged() {
        assert_eq!(light(&[]), None);
        assert_eq!(light(&[[101, 200, 5]]), None);
        assert_eq!(light(&[[100, 199, 5]]), None);
        assert_eq!(light(&[[0, 150, 5], [151, 300, 5]]), None);
        assert_eq!(light(&[[0, 100, 5], [200, 300, 5]]), None);
    }

    #[test]
    fn overlaps_and_bad_values_are_found_in_any_order() {
        let row = |start, end, to| [start, end, 1, to, 1000];
        let overlapping = [row(0, 9, 2), row(5, 6, 3), row(10, 20, 2), row(8, 10, 2)];
        for plan in [&overlapping[..], &[row(0, 5, 1)], &[row(5, 5, 2)]] {
            assert_eq!(by_sort(plan, &[]), None);
            assert_eq!(by_pairs(plan, &[]), None);
        }
        assert!(by_sort(&overlapping[..3], &[]).is_some());
        assert!(by_pairs(&overlapping[..3], &[]).is_some());
    }
}
