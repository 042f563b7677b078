//! Plans through which a best chain has 33 to 63 contacts: passes that wait for
//! one another, and ties that only the contact numbers decide.

use crate::ask::Ask;
use crate::cases::draft::{Draft, Kind};
use crate::cases::ranging::{range_all_wide, some_nodes, two_of};
use crate::random::Random;
use crate::units::{LATEST_TIME, NODES};

/// The fewest contacts of the way.
pub const FEWEST: u64 = 33;

/// A plan, and the nodes from which and to which the way leads.
pub struct LongWay {
    pub draft: Draft,
    pub ends: (u64, u64),
}

/// A way over so many contacts, stage after stage. Each stage has a few passes
/// that touch, and the next one opens with it or later: where the file waits
/// for it, each of the passes is as good. The nodes that are not on the way
/// stand beside one of it, with the same passes there and on.
pub fn long_way(random: &mut Random) -> LongWay {
    let hops = random.between(FEWEST, NODES - 1) as usize;
    let nodes = some_nodes(random, NODES as usize);
    let (way, beside) = nodes.split_at(hops + 1);
    let mut draft = Draft::default();
    let mut start = random.below(50);
    let mut starts = Vec::new();
    for pair in way.windows(2) {
        starts.push(start);
        add_passes(&mut draft, random, start, pair[0], pair[1]);
        start += random.pick(&[0, 20, 60, 150, 400]);
    }
    for &node in beside {
        let place = random.between(1, hops as u64 - 1) as usize;
        copy_passes(
            &mut draft,
            (way[place - 1], way[place]),
            (way[place - 1], node),
        );
        copy_passes(
            &mut draft,
            (way[place], way[place + 1]),
            (node, way[place + 1]),
        );
    }
    for _ in 0..random.below(40) {
        let (from, to) = two_of(random, &nodes);
        let after = start + random.below(1000);
        draft.add(Kind::Contact, [after, after + 5000, from, to, 1000]);
    }
    draft.renumber(random);
    let light = random.below(2);
    range_all_wide(&mut draft, random, light);
    LongWay {
        draft,
        ends: (way[0], way[hops]),
    }
}

/// One to three passes of a pair that touch, each of them long enough for the
/// files that are asked for, and the last until long after.
fn add_passes(draft: &mut Draft, random: &mut Random, start: u64, from: u64, to: u64) {
    let mut start = start;
    for _ in 0..random.below(3) {
        let end = start + random.between(15, 40);
        let rate = random.pick(&[1000, 1000, 1500, 1_000_000]);
        draft.add(Kind::Contact, [start, end, from, to, rate]);
        start = end;
    }
    draft.add(Kind::Contact, [start, start + 60_000, from, to, 1000]);
}

/// Gives a pair the passes of another one.
fn copy_passes(draft: &mut Draft, (from, to): (u64, u64), (other_from, other_to): (u64, u64)) {
    let passes = draft
        .contacts
        .iter()
        .filter(|row| row[2] == from && row[3] == to);
    let passes: Vec<[u64; 5]> = passes.copied().collect();
    for [start, end, _, _, rate] in passes {
        draft.add(Kind::Contact, [start, end, other_from, other_to, rate]);
    }
}

/// An ask for a small file all along a way between these ends, most of them
/// early.
pub fn ask(random: &mut Random, (source, destination): (u64, u64)) -> Ask {
    let one = 1 << random.below(NODES);
    Ask {
        source,
        destination,
        time: random.pick(&[0, 0, 1, 100, 5000]) + random.below(50),
        size: random.between(1, 10),
        deadline: random.pick(&[LATEST_TIME, LATEST_TIME, 20_000]),
        excluded: random.pick(&[0, 0, 0, one]),
    }
}

#[cfg(test)]
mod tests {
    use super::{long_way, LongWay, FEWEST};
    use crate::ask::Ask;
    use crate::random::Random;
    use crate::route::Network;
    use crate::router::Router;
    use crate::units::{ContactNo, LATEST_TIME, LONGEST_BEST};

    fn early_chain(way: &LongWay) -> Vec<ContactNo> {
        let ask = Ask {
            source: way.ends.0,
            destination: way.ends.1,
            time: 0,
            size: 10,
            deadline: LATEST_TIME,
            excluded: 0,
        };
        let network = Network::prepare(&way.draft.plan());
        let best = network.best(&ask.check().expect("a good ask"));
        best.expect("a way in time").chain
    }

    #[test]
    fn a_best_chain_has_33_to_63_contacts() {
        let ways: Vec<LongWay> = (0..60)
            .map(|case| long_way(&mut Random::new(case)))
            .collect();
        let counts: Vec<usize> = ways.iter().map(|way| early_chain(way).len()).collect();
        let wanted = FEWEST as usize..=LONGEST_BEST;
        assert!(
            counts.iter().all(|count| wanted.contains(count)),
            "{counts:?}"
        );
        assert!(counts.contains(&LONGEST_BEST), "{counts:?}");
    }

    /// Where the numbers are turned round, another chain is the best in a tie.
    #[test]
    fn the_numbers_decide() {
        let mut tied = 0;
        for case in 0..20 {
            let mut way = long_way(&mut Random::new(case));
            let last = way.draft.contacts.len() as u64 + 1;
            let chain = early_chain(&way);
            way.draft.contacts.reverse();
            let turned = early_chain(&way).into_iter();
            let turned: Vec<ContactNo> = turned.map(|number| ContactNo(last - number.0)).collect();
            tied += u64::from(turned != chain);
        }
        assert_eq!(tied, 20);
    }
}
