//! Why a chain is turned down: each cause alone, each two at one position, and
//! faults at two, by cases worked out by hand.

use second::book::{self, BOOKED_NUMBERS, BOOK_WORDS};
use second::cases::draft::Draft;
use second::definitions::Definitions;
use second::faults::ChainFault;
use second::units::{Class, ContactNo, PlaceNo};
use second::{walk, walk_booked, Ask, Refusal};

/// The contacts by number. The ask's file takes 1030 ms on each of them, so it
/// fits on those of 10 s and not on those of 1 s.
const CONTACTS: [[u64; 5]; 10] = [
    [0, 10_000, 1, 2, 1000],
    [0, 10_000, 2, 3, 1000],
    [0, 10_000, 2, 1, 1000],
    [0, 10_000, 1, 3, 1000],
    // Unranged.
    [0, 10_000, 2, 4, 1000],
    // Too short.
    [20_000, 21_000, 2, 3, 1000],
    // Unranged, from the source.
    [0, 10_000, 1, 4, 1000],
    // Too short, from the source.
    [0, 1_000, 1, 5, 1000],
    // Unranged and too short, from the source.
    [0, 1_000, 1, 6, 1000],
    // Over before the file can be at node 2.
    [0, 1_039, 2, 5, 1_000_000],
];

const RANGES: [[u64; 5]; 5] = [
    [0, 30_000, 1, 2, 10],
    [0, 30_000, 2, 3, 20],
    [0, 30_000, 1, 3, 30],
    [0, 30_000, 1, 5, 0],
    [0, 30_000, 2, 5, 0],
];

/// From node 1 to node 3, with these neighbours excluded.
fn ask(excluded: &[u64]) -> Ask {
    Ask {
        source: 1,
        destination: 3,
        time: 0,
        size: 1000,
        deadline: 30_000,
        excluded: excluded.iter().map(|node| 1 << (node - 1)).sum(),
    }
}

/// What `walk` refuses a chain with, number and place; the same by the plain
/// definitions.
fn refusal(ask: Ask, chain: &[u64]) -> Option<(u64, u64)> {
    let (contacts, ranges) = (CONTACTS.concat(), RANGES.concat());
    let walked = walk(&contacts, 10, &ranges, 5, ask, chain);
    let definitions = Definitions::of(&Draft::of(&CONTACTS, &RANGES).plan());
    let plain = ask.check().and_then(|ask| definitions.figures(&ask, chain));
    assert_eq!(walked, plain);
    walked.err().map(|refusal| (refusal.number, refusal.place))
}

/// Every cause that holds at a position, counted from 1, by the definitions.
fn causes_at(position: u64, ask: Ask, chain: &[u64]) -> Vec<u64> {
    let definitions = Definitions::of(&Draft::of(&CONTACTS, &RANGES).plan());
    let faults = definitions.faults(&ask.check().expect("a good ask"), chain);
    let there = faults
        .into_iter()
        .filter(|fault| fault.position == position);
    there.map(|ChainFault { cause, .. }| cause).collect()
}

#[test]
fn allowed_chains() {
    let chains: [&[u64]; 4] = [&[1, 2], &[4], &[1, 3, 4], &[1, 3, 1, 2]];
    for chain in chains {
        assert_eq!(refusal(ask(&[]), chain), None);
    }
    // An excluded neighbour may be entered from elsewhere.
    assert_eq!(refusal(ask(&[3]), &[1, 2]), None);
}

#[test]
fn no_such_contact() {
    for number in [0, 11, 512, 513, 1 << 32, (1 << 32) + 1, u64::MAX] {
        assert_eq!(refusal(ask(&[]), &[number]), Some((18, 1)));
        assert_eq!(refusal(ask(&[]), &[number, 2]), Some((18, 1)));
        assert_eq!(refusal(ask(&[]), &[1, number, 2]), Some((18, 2)));
        assert_eq!(refusal(ask(&[]), &[1, 2, number]), Some((18, 3)));
    }
}

#[test]
fn does_not_join() {
    assert_eq!(refusal(ask(&[]), &[2]), Some((19, 1)));
    assert_eq!(refusal(ask(&[]), &[2, 2]), Some((19, 1)));
    assert_eq!(refusal(ask(&[]), &[1, 4]), Some((19, 2)));
    assert_eq!(refusal(ask(&[]), &[1, 1, 2]), Some((19, 2)));
    assert_eq!(refusal(ask(&[]), &[1, 3, 2]), Some((19, 3)));
}

#[test]
fn excluded_neighbour() {
    assert_eq!(refusal(ask(&[3]), &[4]), Some((20, 1)));
    assert_eq!(refusal(ask(&[2]), &[1, 2]), Some((20, 1)));
    assert_eq!(refusal(ask(&[3]), &[1, 3, 4]), Some((20, 3)));
    assert_eq!(refusal(ask(&[3]), &[1, 3, 4, 1]), Some((20, 3)));
}

#[test]
fn unranged() {
    assert_eq!(refusal(ask(&[]), &[7]), Some((21, 1)));
    assert_eq!(refusal(ask(&[]), &[7, 4]), Some((21, 1)));
    assert_eq!(refusal(ask(&[]), &[1, 5, 4]), Some((21, 2)));
    assert_eq!(refusal(ask(&[]), &[1, 3, 7]), Some((21, 3)));
}

#[test]
fn does_not_fit() {
    assert_eq!(refusal(ask(&[]), &[8]), Some((22, 1)));
    assert_eq!(refusal(ask(&[]), &[8, 4]), Some((22, 1)));
    assert_eq!(refusal(ask(&[]), &[1, 6]), Some((22, 2)));
    assert_eq!(refusal(ask(&[]), &[1, 6, 4]), Some((22, 2)));
    // The file is ready at node 2 at 1040: by then contact 10 is over.
    assert_eq!(refusal(ask(&[]), &[1, 10]), Some((22, 2)));
    let late = Ask {
        time: 8_971,
        ..ask(&[])
    };
    assert_eq!(refusal(late, &[1, 2]), Some((22, 1)));
    let just = Ask {
        time: 8_970,
        ..late
    };
    assert_eq!(refusal(just, &[1, 2]), Some((22, 2)));
    assert_eq!(refusal(just, &[4]), None);
}

#[test]
fn ends_elsewhere_or_empty() {
    assert_eq!(refusal(ask(&[]), &[]), Some((23, 0)));
    assert_eq!(refusal(ask(&[]), &[1]), Some((23, 1)));
    assert_eq!(refusal(ask(&[]), &[1, 3]), Some((23, 2)));
    assert_eq!(refusal(ask(&[]), &[1, 3, 1]), Some((23, 3)));
}

/// Each two causes that one contact can have, alone or with others, and who
/// has them where.
#[test]
fn two_at_one_position() {
    let cases: [(&[u64], &[u64], &[u64]); 9] = [
        (&[3], &[1, 4], &[19, 20]),
        (&[], &[5], &[19, 21]),
        (&[], &[1, 7], &[19, 21]),
        (&[], &[1, 8], &[19, 22]),
        (&[4], &[7], &[20, 21]),
        (&[5], &[8], &[20, 22]),
        (&[], &[9], &[21, 22]),
        (&[6], &[9], &[20, 21, 22]),
        (&[6], &[1, 9], &[19, 20, 21, 22]),
    ];
    for (excluded, chain, causes) in cases {
        let position = chain.len() as u64;
        assert_eq!(causes_at(position, ask(excluded), chain), causes);
        assert_eq!(refusal(ask(excluded), chain), Some((causes[0], position)));
    }
}

#[test]
fn the_first_position_is_told() {
    assert_eq!(refusal(ask(&[]), &[8, 0]), Some((22, 1)));
    assert_eq!(refusal(ask(&[]), &[7, 2, 0]), Some((21, 1)));
    assert_eq!(refusal(ask(&[2]), &[1, 0, 2]), Some((20, 1)));
    assert_eq!(refusal(ask(&[]), &[1, 4, 0]), Some((19, 2)));
    assert_eq!(refusal(ask(&[]), &[1, 6, 2, 0]), Some((22, 2)));
    assert_eq!(refusal(ask(&[3]), &[1, 3, 7, 4]), Some((21, 3)));
}

#[test]
fn every_contact_comes_before_the_end() {
    let chains: [(&[u64], (u64, u64)); 5] = [
        (&[0], (18, 1)),
        (&[1, 1], (19, 2)),
        (&[1, 3, 1], (20, 1)),
        (&[1, 5], (21, 2)),
        (&[8], (22, 1)),
    ];
    for (chain, told) in chains {
        let excluded: &[u64] = if told.0 == 20 { &[2] } else { &[] };
        assert_eq!(refusal(ask(excluded), chain), Some(told));
    }
}

#[test]
fn the_deadline_comes_last() {
    let late = Ask {
        deadline: 5,
        ..ask(&[])
    };
    assert_eq!(refusal(late, &[4]), Some((14, 0)));
    assert_eq!(refusal(late, &[1]), Some((23, 1)));
    assert_eq!(refusal(late, &[]), Some((23, 0)));
    assert_eq!(refusal(late, &[1, 6]), Some((22, 2)));
}

#[test]
fn the_ask_comes_first() {
    let to_itself = Ask {
        destination: 1,
        ..ask(&[])
    };
    let of_no_bytes = Ask {
        size: 0,
        ..to_itself
    };
    for chain in [&[][..], &[0], &[2], &[9]] {
        assert_eq!(refusal(to_itself, chain), Some((12, 0)));
        assert_eq!(refusal(of_no_bytes, chain), Some((11, 0)));
    }
}

/// A booking that leaves 1029 bytes of contact 2, or the 1030 that are needed.
#[test]
fn too_little_volume() {
    let walked = |left: u64, class: u64, chain: &[u64]| {
        let mut book = vec![0; BOOK_WORDS];
        let mut booked = vec![0; BOOKED_NUMBERS];
        let (place, in_class) = (PlaceNo(256), Class(2));
        let taken = 10_000 - left;
        book::open(
            &mut book,
            &mut booked,
            place,
            in_class,
            taken,
            &[ContactNo(2)],
        );
        let (contacts, ranges) = (CONTACTS.concat(), RANGES.concat());
        let ask = ask(&[]);
        let walked = walk_booked(&contacts, 10, &ranges, 5, &book, &booked, ask, class, chain);
        walked.map(|_| ())
    };
    for class in [1, 2] {
        let told = Err(Refusal::new(22, 2));
        assert_eq!(walked(1029, class, &[1, 2]), told);
        assert_eq!(walked(1030, class, &[1, 2]), Ok(()));
        assert_eq!(walked(1029, class, &[1, 2, 0]), told);
        assert_eq!(walked(1029, class, &[2]), Err(Refusal::new(19, 1)));
    }
    assert_eq!(walked(1029, 3, &[1, 2]), Ok(()));
    for class in [0, 4] {
        assert_eq!(walked(1029, class, &[0]), Err(Refusal::bare(24)));
    }
}
