//! The fixed inputs are what their titles say.

use std::collections::BTreeSet;

use bench::inputs::{full_book, growth, named, plans, Input, SIZES};
use bench::plans::{first, full, full_among, gaps, layers, line, lunar, shuffled, two_nodes};
use bench::plans::{Rows, SPREAD_NODES};
use second::book::OPEN;
use second::plain::light;
use second::plan::Row;
use second::units::{LONGEST_BEST, PLACE_WORDS, ROWS};

/// How many contacts and ranges a plan has, and how many nodes they name.
fn counts(rows: &Rows) -> [usize; 3] {
    let all = rows.contacts.iter().chain(&rows.ranges);
    let nodes: BTreeSet<u64> = all.flat_map(|row| [row[2], row[3]]).collect();
    [rows.contacts.len(), rows.ranges.len(), nodes.len()]
}

#[test]
fn plans_have_the_sizes_that_they_are_to_have() {
    assert_eq!(counts(&full()), [ROWS, ROWS, 20]);
    assert_eq!(counts(&shuffled()), [ROWS, ROWS, 20]);
    assert_eq!(counts(&full_among(SPREAD_NODES)), [ROWS, ROWS, 32]);
    assert_eq!(counts(&lunar())[2], 20);
    assert_eq!(counts(&line()), [63, 63, 64]);
    assert_eq!(counts(&layers()), [ROWS, ROWS, 64]);
    assert_eq!(counts(&two_nodes()), [ROWS, ROWS, 2]);
    assert_eq!(counts(&gaps()), [ROWS, ROWS, 2]);
    for size in SIZES {
        assert_eq!(counts(&first(size))[..2], [size, size]);
    }
}

#[test]
fn plans_are_in_time_order_but_for_the_shuffled_one() {
    let is_sorted = |rows: &[Row]| rows.is_sorted_by_key(|row| row[0]);
    let sorted = [full(), lunar(), line(), layers(), two_nodes(), gaps()];
    for rows in sorted.into_iter().chain([first(64)]) {
        assert!(is_sorted(&rows.contacts) && is_sorted(&rows.ranges));
    }
    let Rows {
        mut contacts,
        mut ranges,
    } = shuffled();
    assert!(!is_sorted(&contacts) && !is_sorted(&ranges));
    contacts.sort();
    ranges.sort();
    assert_eq!(Rows { contacts, ranges }, full());
}

#[test]
fn one_contact_of_eight_is_ranged_where_there_are_gaps() {
    let is_ranged = |rows: &Rows, contact: &Row| light(contact, &rows.ranges).is_some();
    let ranged = |rows: &Rows| rows.contacts.iter().filter(|c| is_ranged(rows, c)).count();
    assert_eq!(ranged(&two_nodes()), ROWS);
    assert_eq!(ranged(&gaps()), ROWS / 8);
}

#[test]
fn growth_ends_with_the_full_plan() {
    assert_eq!(first(ROWS), full());
    assert_eq!(first(64).contacts, full().contacts[..64]);
}

#[test]
fn the_full_book_has_bookings_of_four_contacts_in_all_places() {
    let Input { book, .. } = full_book();
    let (places, _) = book.as_chunks::<PLACE_WORDS>();
    assert_eq!(places.len(), 256);
    assert!(places.iter().all(|place| place[0] == OPEN && place[3] == 4));
    let Input { booked, .. } = full_book();
    for numbers in booked.chunks(LONGEST_BEST) {
        let contacts: BTreeSet<&u16> = numbers[..4].iter().collect();
        assert_eq!(contacts.len(), 4);
    }
}

#[test]
fn inputs_are_found_by_name() {
    for input in plans().into_iter().chain(growth()) {
        let found = named(&input.name).map(|input| input.title);
        assert_eq!(found, Some(input.title));
    }
    assert!(named("other").is_none());
}
