//! Lent tables, books and asks judged as plainly as they can be, for checks
//! only: each row is compared with each, light times are taken from all rows,
//! and what is left of a contact is counted straight from the words of the
//! book. It shares no code with `plan`, `book` and `ask`.

use crate::ask::Ask;
use crate::plan::Row;
use crate::refusal::{Refusal, ASK_VALUE, NO_SUCH_CLASS, SOURCE_IS_DESTINATION};
use crate::units::{HIGHEST_RATE, LARGEST_SIZE, LATEST_TIME, LONGEST_LIGHT, NODES, ROWS, WORDS};

/// Whether two lent tables hold a valid plan in their first rows.
pub fn is_valid(contacts: &[u64], contact_count: u64, ranges: &[u64], range_count: u64) -> bool {
    is_valid_table(contacts, contact_count, contact_is_good)
        && is_valid_table(ranges, range_count, range_is_good)
}

fn is_valid_table(table: &[u64], count: u64, is_good: fn(&Row) -> bool) -> bool {
    let rows = (table.len() / WORDS) as u64;
    if count > ROWS as u64 || count > rows {
        return false;
    }
    let row = |number: usize| -> Row { std::array::from_fn(|word| table[number * WORDS + word]) };
    (0..count as usize)
        .all(|n| is_good(&row(n)) && (0..n).all(|earlier| !overlap(&row(earlier), &row(n))))
}

/// Whether a contact's values are all in range.
pub fn contact_is_good(&[start, end, from, to, rate]: &Row) -> bool {
    start <= LATEST_TIME
        && end <= LATEST_TIME
        && start < end
        && (1..=NODES).contains(&from)
        && (1..=NODES).contains(&to)
        && from != to
        && (1..=HIGHEST_RATE).contains(&rate)
}

/// Whether a range's values are all in range.
pub fn range_is_good(&[start, end, a, b, light]: &Row) -> bool {
    start <= LATEST_TIME
        && end <= LATEST_TIME
        && start < end
        && (1..=NODES).contains(&a)
        && (1..=NODES).contains(&b)
        && a < b
        && light <= LONGEST_LIGHT
}

/// Whether two rows of one table name the same nodes and overlap.
pub fn overlap(one: &Row, other: &Row) -> bool {
    one[2..4] == other[2..4] && share_time(one, other)
}

/// The light time of a contact: the largest among the ranges of its two nodes
/// that share time with it; none if a millisecond of it is in none of them.
pub fn light(contact: &Row, ranges: &[Row]) -> Option<u64> {
    let of_pair = ranges_of(contact, ranges);
    let is_covered = |moment: u64| of_pair.iter().any(|r| r[0] <= moment && moment < r[1]);
    // The first millisecond that is in no range would be the contact's first,
    // or the first behind some range.
    let behind = of_pair.iter().map(|r| r[1]);
    let mut moments = behind
        .filter(|&moment| contact[0] < moment && moment < contact[1])
        .chain([contact[0]]);
    if !moments.all(is_covered) {
        return None;
    }
    let sharing = of_pair.iter().filter(|r| share_time(r, contact));
    sharing.map(|r| r[4]).max()
}

/// The ranges of a contact's two nodes, in the order of the table.
pub fn ranges_of<'a>(contact: &Row, ranges: &'a [Row]) -> Vec<&'a Row> {
    let of_pair = |r: &&Row| r[2..4] == contact[2..4] || r[2..4] == [contact[3], contact[2]];
    ranges.iter().filter(of_pair).collect()
}

/// Whether the start of each is below the end of the other.
pub fn share_time(one: &Row, other: &Row) -> bool {
    one[0] < other[1] && other[0] < one[1]
}

/// The refusal of an ask for its values, or for its two nodes being one.
pub fn ask_refusal(ask: &Ask) -> Option<Refusal> {
    ask_refusal_in(ask, 1)
}

/// The refusal of an ask of a class: for its values, for its class, or for
/// its two nodes being one.
pub fn ask_refusal_in(ask: &Ask, class: u64) -> Option<Refusal> {
    let nodes_are_good = [ask.source, ask.destination]
        .iter()
        .all(|node| (1..=NODES).contains(node));
    let times_are_good = ask.time <= LATEST_TIME && ask.deadline <= LATEST_TIME;
    let size_is_good = ask.size >= 1 && ask.size <= LARGEST_SIZE;
    if !(nodes_are_good && times_are_good && size_is_good) {
        Some(Refusal::bare(ASK_VALUE))
    } else if class != 1 && class != 2 && class != 3 {
        Some(Refusal::bare(NO_SUCH_CLASS))
    } else if ask.source == ask.destination {
        Some(Refusal::bare(SOURCE_IS_DESTINATION))
    } else {
        None
    }
}

/// Whether two lent slices hold a valid book of a plan of so many contacts.
pub fn book_is_valid(book: &[u64], booked: &[u16], contact_count: u64) -> bool {
    if book.len() < 256 * 4 || booked.len() < 256 * 63 {
        return false;
    }
    let is_in_plan = |&number: &u16| number != 0 && u64::from(number) <= contact_count;
    (0..256).all(|place| match book[4 * place] {
        0 => true,
        1 => {
            let class = book[4 * place + 1];
            let consumption = book[4 * place + 2];
            let count = book[4 * place + 3];
            (1..=3).contains(&class)
                && (1..=1_030_000_000).contains(&consumption)
                && (1..=63).contains(&count)
                && named(place, count, booked).iter().all(is_in_plan)
        }
        _ => false,
    })
}

/// The contact numbers of an open place, which are so many.
fn named(place: usize, count: u64, booked: &[u16]) -> &[u16] {
    &booked[63 * place..63 * place + count as usize]
}

/// What is left of a contact in a class: its volume less the consumption of
/// each open place of that class or a higher one that names it.
pub fn left(number: u64, contact: &Row, book: &[u64], booked: &[u16], class: u64) -> i128 {
    let mut left = volume(contact);
    for place in 0..256 {
        let is_open = book[4 * place] == 1;
        if is_open && book[4 * place + 1] >= class {
            let names = named(place, book[4 * place + 3], booked);
            if names.iter().any(|&name| u64::from(name) == number) {
                left -= i128::from(book[4 * place + 2]);
            }
        }
    }
    left
}

/// The volume of a contact: its rate times its length over 1000.
pub fn volume(&[start, end, _, _, rate]: &Row) -> i128 {
    i128::from(rate) * i128::from(end - start) / 1000
}
