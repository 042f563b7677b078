//! The folders to run a program in: a plan file and an input of asks each.

use crate::ask::Ask;
use crate::cases::asks;
use crate::cases::damage;
use crate::cases::draft::Draft;
use crate::cases::edges::EDGES;
use crate::cases::plans::{self, Family};
use crate::random::Random;
use crate::route::Network;
use crate::router::Router;
use crate::units::LONGEST_TEXT;

/// What stands at `plan.txt`.
pub enum PlanFile {
    Text(Vec<u8>),
    Missing,
    Directory,
}

impl PlanFile {
    /// The text that the program is to see.
    pub fn text(&self) -> &[u8] {
        match self {
            PlanFile::Text(text) => text,
            PlanFile::Missing | PlanFile::Directory => &[],
        }
    }
}

/// One folder.
pub struct Folder {
    pub name: String,
    pub plan: PlanFile,
    pub input: Vec<u8>,
}

impl Folder {
    pub fn new(name: impl Into<String>, plan_text: Vec<u8>, input: Vec<u8>) -> Self {
        Self {
            name: name.into(),
            plan: PlanFile::Text(plan_text),
            input,
        }
    }
}

/// The asks of cases A to G.
pub const FIGURE_ASKS: &[u8] = b"ask\t1\t3\t0\t1000\t30000\t0
ask\t1\t3\t0\t1000\t30000\t2
ask\t1\t3\t0\t1000\t6081\t0
ask\t1\t3\t0\t1000\t6080\t0
ask\t1\t3\t9000\t1000\t30000\t0
ask\t3\t1\t0\t1000\t30000\t0
ask\t1\t1\t0\t1000\t30000\t0
";

/// The ask of cases H and I.
pub const TIE_ASK: &[u8] = b"ask\t1\t4\t0\t1000\t20000\t0\n";

/// The folder of a seed with a number, counted from 0. First come those that
/// are always the same in kind, then one valid and two damaged plans in turn.
pub fn folder(seed: u64, number: u64, ask_count: usize) -> Folder {
    let random = &mut Random::for_case(seed, number);
    let place = number as usize;
    if let Some(piece) = SET_PIECES.get(place) {
        return piece(random, ask_count);
    }
    match EDGES.get(place - SET_PIECES.len()) {
        Some(edge) => edge(random),
        None => in_turn(random, number - ALWAYS as u64, ask_count),
    }
}

/// How many folders are always the same in kind.
const ALWAYS: usize = SET_PIECES.len() + EDGES.len();

/// A valid plan, then two damaged ones.
fn in_turn(random: &mut Random, turn: u64, ask_count: usize) -> Folder {
    if turn.is_multiple_of(3) {
        valid(random, turn / 3, ask_count)
    } else {
        damaged(random, turn - turn / 3 - 1)
    }
}

const SET_PIECES: [fn(&mut Random, usize) -> Folder; 12] = [
    |random, count| figures("A to G", plans::figures_plan(), FIGURE_ASKS, random, count),
    |random, count| {
        figures(
            "A to G, cut",
            plans::cut_figures_plan(),
            FIGURE_ASKS,
            random,
            count,
        )
    },
    |random, count| figures("H", plans::case_h(), TIE_ASK, random, count),
    |random, count| figures("I", plans::case_i(), TIE_ASK, random, count),
    |random, count| figures("empty plan", Draft::default(), b"", random, count),
    |random, _| Folder {
        name: "plan missing".into(),
        plan: PlanFile::Missing,
        input: input(random, &plans::figures_plan(), 3),
    },
    |random, _| Folder {
        name: "plan a directory".into(),
        plan: PlanFile::Directory,
        input: input(random, &plans::figures_plan(), 3),
    },
    |_, _| Folder::new("plan of no bytes", Vec::new(), FIGURE_ASKS.to_vec()),
    |_, _| Folder::new("no asks", plans::case_h().text(), Vec::new()),
    |random, _| input_of_length("input at the limit", random, LONGEST_TEXT),
    |random, _| input_of_length("input over the limit", random, LONGEST_TEXT + 1),
    |random, _| input_of_length("input far over the limit", random, 3 * LONGEST_TEXT),
];

/// A plan of document 01, its asks, and then others.
fn figures(name: &str, draft: Draft, first: &[u8], random: &mut Random, count: usize) -> Folder {
    let mut asks = first.to_vec();
    add_asks(&mut asks, random, &draft, count);
    Folder::new(name, draft.text(), asks)
}

/// A valid plan with asks of any length in all.
fn input_of_length(name: &str, random: &mut Random, length: usize) -> Folder {
    let draft = plans::figures_plan();
    let mut bytes = Vec::new();
    while bytes.len() < length {
        bytes.extend_from_slice(&input(random, &draft, 100));
    }
    bytes.truncate(length);
    Folder::new(name, draft.text(), bytes)
}

fn valid(random: &mut Random, turn: u64, ask_count: usize) -> Folder {
    let families: Vec<Family> = [&plans::SMALL[..], &plans::LARGE].concat();
    let (name, family) = families[turn as usize % families.len()];
    let draft = family(random);
    let asks = input(random, &draft, ask_count);
    Folder::new(name, draft.text(), asks)
}

fn damaged(random: &mut Random, turn: u64) -> Folder {
    let damages = damage::all();
    let damage = &damages[turn as usize % damages.len()];
    let text = damage::make(random, damage).text;
    let asks = if random.percent(20) {
        vec![b'\n'; LONGEST_TEXT + 1]
    } else {
        input(random, &plans::figures_plan(), 3)
    };
    Folder::new(damage.to_string(), text, asks)
}

/// An input of so many asks, as far as they have room.
fn input(random: &mut Random, draft: &Draft, count: usize) -> Vec<u8> {
    let mut input = Vec::new();
    add_asks(&mut input, random, draft, count);
    input
}

/// Adds so many asks to an input, as far as they have room; at times the last
/// is left without its line feed.
fn add_asks(input: &mut Vec<u8>, random: &mut Random, draft: &Draft, count: usize) {
    let network = Network::prepare(&draft.plan());
    let mut recent: Option<Ask> = None;
    for _ in 0..count {
        let line = if random.percent(12) {
            let ask = asks::ask(random, draft);
            let faults = random.pick(&asks::FAULTS);
            asks::damaged(random, &ask, faults)
        } else {
            let ask = next_ask(random, draft, &network, recent);
            recent = Some(ask);
            asks::line(&ask)
        };
        if input.len() + line.len() > LONGEST_TEXT {
            break;
        }
        input.extend_from_slice(&line);
    }
    if random.percent(10) {
        input.pop();
    }
}

/// A new ask, or one at the edge of the recent one's answer.
fn next_ask(random: &mut Random, draft: &Draft, network: &Network, recent: Option<Ask>) -> Ask {
    let answered = recent.filter(|_| random.percent(50)).and_then(|ask| {
        let best = network.best(&ask.check().ok()?).ok()?;
        Some((ask, best))
    });
    match answered {
        Some((ask, best)) => asks::around(random, &ask, &best, draft),
        None => asks::ask(random, draft),
    }
}

#[cfg(test)]
mod tests {
    use super::{damage, ALWAYS};

    #[test]
    fn every_damage_stands_in_300_folders() {
        let in_turn = 300 - ALWAYS;
        assert!(damage::all().len() <= in_turn - in_turn.div_ceil(3));
    }
}
