//! Pairs of calls for 'Earlier, smaller, more': what one answer says of another.
//!
//! [`scene`] makes a plan, at times with a book, and asks on it; [`answers`] asks
//! the archive; [`facts`] holds two answers against each other, and against a
//! walk of the first one's chain; [`counts`] says what was met. [`faults`] are
//! stand-ins for the archive that are wrong on purpose: each must be found.

pub mod answers;
pub mod counts;
pub mod facts;
pub mod faults;
pub mod scene;

use second::random::Random;

use answers::Answers;
use counts::Counts;
use facts::Kind;
use scene::Scene;

/// The asks that are made on a plan.
const ASKS: usize = 8;

/// Makes all pairs of the scene of a seed with a number; what each difference
/// is about.
pub fn compare(
    seed: u64,
    number: u64,
    who: &impl Answers,
    counts: &mut Counts,
) -> Vec<(Kind, String)> {
    let random = &mut Random::for_case(seed, number);
    let scene = Scene::some(random);
    let network = scene.network();
    let mut differences = Vec::new();
    for _ in 0..ASKS {
        let ask = scene.ask(random, &network);
        let first = who.route(&scene.lent, ask);
        for kind in Kind::ALL {
            let Some(pair) = scene.pair(random, kind, ask, &first) else {
                continue;
            };
            match pair.check(who, &first) {
                Ok(outcome) => counts.add(kind, outcome, scene.lent.book.is_some()),
                Err(what) => differences.push((kind, format!("{what}; {pair}"))),
            }
        }
    }
    differences
}
