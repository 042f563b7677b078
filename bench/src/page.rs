//! The part of the page of measurements that is written here.

use crate::counts::Counted;
use crate::facts::Facts;
use crate::times::{MODES, ROUNDS};

const BEGINS: &str = "<!-- bench begins -->";
const ENDS: &str = "<!-- bench ends -->";

/// What was seen on one input.
pub struct Seen {
    pub name: String,
    pub title: String,
    pub contacts: usize,
    pub ranges: usize,
    pub asks: usize,
    pub counted: Counted,
    pub ratios: [f64; MODES],
}

/// What was seen on the first contacts of the full plan.
#[derive(Clone, Copy)]
pub struct Grown {
    pub contacts: usize,
    pub counted: Counted,
}

/// The page with the part put in place of the one that it has, or at its end.
pub fn put(page: &str, part: &str) -> String {
    let part = format!("{BEGINS}\n{part}{ENDS}\n");
    let old = page.split_once(BEGINS).and_then(|(before, rest)| {
        let (_, after) = rest.split_once(ENDS)?;
        Some((before, after.strip_prefix('\n').unwrap_or(after)))
    });
    match old {
        Some((before, after)) => format!("{before}{part}{after}"),
        None => format!("{}\n\n{part}", page.trim_end()),
    }
}

/// The part that is written.
pub fn part(facts: &Facts, seen: &[Seen], grown: &[Grown]) -> String {
    let parts = [
        beginning(facts),
        instructions(seen),
        with_book(seen),
        ratios(seen),
        growth(grown),
    ];
    parts.concat()
}

fn beginning(facts: &Facts) -> String {
    let Facts {
        processor,
        cores,
        commit,
        date,
    } = facts;
    format!(
        "## Speed of a call of `route`

```sh
bash bench/run
```

counts instructions and takes times on fixed inputs, and writes this part and the plot.
Seen on {date} at commit {commit}, x86-64, {processor}, {cores} cores.

"
    )
}

fn instructions(seen: &[Seen]) -> String {
    let row = |seen: &Seen| {
        let Seen {
            title,
            contacts,
            ranges,
            asks,
            ..
        } = seen;
        let [all, memset] = [seen.counted.all, seen.counted.memset].map(thousands);
        format!("| {title} | {contacts} | {ranges} | {asks} | {all} | {memset} |\n")
    };
    let rows: String = seen.iter().map(row).collect();
    format!(
        "Instructions of a call, by `valgrind --tool=callgrind`: those inside the C function and what it calls, the mean over the asks. The
full plan has contacts among 20 nodes, and for each pair two or three ranges that together cover all of the time; the lunar plan is a
day of stations, relays, orbiters and landers, 20 nodes. What `memset` takes is counted byte by byte on some processors.

| input | contacts | ranges | asks | instructions | of these `memset` |
|---|---|---|---|---|---|
{rows}
"
    )
}

/// What a full book costs, where it was seen.
fn with_book(seen: &[Seen]) -> String {
    let of = |name| seen.iter().find(|seen| seen.name == name);
    let (Some(empty), Some(full)) = (of("empty-book"), of("full-book")) else {
        return String::new();
    };
    let times = times(full.counted, empty.counted);
    format!(
        "With 256 bookings of four contacts a call takes {times} times the instructions of one on an empty book.

"
    )
}

fn ratios(seen: &[Seen]) -> String {
    let row = |seen: &Seen| {
        let ratios = seen.ratios.map(ratio).join(" | ");
        format!("| {} | {ratios} |\n", seen.title)
    };
    let rows: String = seen.iter().map(row).collect();
    format!(
        "The time of the archive's call over that of the second program's, processor time taken in turns in one process, the median of
{ROUNDS} rounds: below 1 the archive is the faster one. The second program's three modes are those of `second/src/modes`: the plan is
checked once and kept, or checked at each ask, with a sort or pair by pair; the archive always checks it at each ask.

| input | checked once | checked with a sort | checked pair by pair |
|---|---|---|---|
{rows}
"
    )
}

fn growth(grown: &[Grown]) -> String {
    let row = |place: usize| {
        let Grown { contacts, counted } = grown[place];
        let before = place.checked_sub(1).map(|before| grown[before].counted);
        let times = before.map_or(String::new(), |before| times(counted, before));
        let [all, memset] = [counted.all, counted.memset].map(thousands);
        format!("| {contacts} | {all} | {memset} | {times} |\n")
    };
    let rows: String = (0..grown.len()).map(row).collect();
    format!(
        "How a call grows: the first contacts of the full plan in time order with as many ranges, and on each the same eight asks, each
answered by one of the first eight contacts.

| contacts | instructions | of these `memset` | times the row before |
|---|---|---|---|
{rows}
![Instructions of a call by contacts of the plan](growth.svg)
"
    )
}

/// How many times the instructions of the other.
fn times(one: Counted, other: Counted) -> String {
    ratio(one.all as f64 / other.all as f64)
}

/// A number with commas between its thousands.
pub fn thousands(number: u64) -> String {
    let digits = number.to_string();
    let groups = digits.as_bytes().rchunks(3).rev();
    let groups: Vec<_> = groups.map(String::from_utf8_lossy).collect();
    groups.join(",")
}

/// A ratio with three digits, or all before the point.
fn ratio(value: f64) -> String {
    let digits = match value {
        ..10.0 => 2,
        ..100.0 => 1,
        _ => 0,
    };
    format!("{value:.digits$}")
}

#[cfg(test)]
mod tests {
    use super::{put, ratio, thousands};

    #[test]
    fn the_part_goes_in_place_of_the_old_one() {
        let first = put("# Page\n\nText.\n", "one\n");
        let marked = |part| format!("<!-- bench begins -->\n{part}\n<!-- bench ends -->\n");
        assert_eq!(first, format!("# Page\n\nText.\n\n{}", marked("one")));
        assert_eq!(put(&first, "one\n"), first);
        let more = format!("{first}\n## More\n");
        let wanted = format!("# Page\n\nText.\n\n{}\n## More\n", marked("two"));
        assert_eq!(put(&more, "two\n"), wanted);
    }

    #[test]
    fn numbers_are_written_to_be_read() {
        assert_eq!(
            [0, 999, 1000, 58_670_057].map(thousands),
            ["0", "999", "1,000", "58,670,057"]
        );
        assert_eq!(
            [0.5, 9.994, 12.34, 123.4].map(ratio),
            ["0.50", "9.99", "12.3", "123"]
        );
    }
}
