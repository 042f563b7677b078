//! Who answers: the archive, on memory lent as it is.

use oivarnum::lent::{route, route_booked, walk, walk_booked};
use oivarnum::raw::ANSWER_WORDS;
use oivarnum::Plan;
use second::cases::lent::LentBook;
use second::cases::tables::Tables;
use second::router::Best;
use second::units::{ContactNo, LONGEST_BEST};
use second::{Ask, Figures, Refusal};

/// A route with its chain, or why there is none.
pub type Answer = Result<Best, Refusal>;

/// A plan's tables, and at times a book and the class of the asks.
#[derive(Clone)]
pub struct Lent {
    pub tables: Tables,
    pub book: Option<(LentBook, u64)>,
}

/// One that is asked for routes and walks.
pub trait Answers {
    fn route(&self, lent: &Lent, ask: Ask) -> Answer;
    fn walk(&self, lent: &Lent, ask: Ask, chain: &[ContactNo]) -> Result<Figures, Refusal>;
}

/// The archive: `route` and `walk`, over a book `route_booked` and `walk_booked`.
pub struct Archive;

impl Answers for Archive {
    fn route(&self, lent: &Lent, ask: Ask) -> Answer {
        let (plan, ask) = (plan(&lent.tables), ask.numbers().into());
        let mut chain = [0; LONGEST_BEST];
        let mut answer = [0; ANSWER_WORDS];
        let number = match &lent.book {
            None => route(plan, ask, &mut chain, &mut answer),
            Some((LentBook { words, numbers }, class)) => {
                let (chain, answer) = (&mut chain, &mut answer);
                route_booked(plan, words, numbers, ask, *class, chain, answer)
            }
        };
        let figures = figures(number, &answer)?;
        let chain = chain[..answer[6] as usize].iter();
        Ok(Best {
            figures,
            chain: chain.map(|&number| ContactNo(number)).collect(),
        })
    }

    fn walk(&self, lent: &Lent, ask: Ask, chain: &[ContactNo]) -> Result<Figures, Refusal> {
        let (plan, ask) = (plan(&lent.tables), ask.numbers().into());
        let chain: Vec<u64> = chain.iter().map(|number| number.0).collect();
        let mut answer = [0; ANSWER_WORDS];
        let number = match &lent.book {
            None => walk(plan, ask, &chain, &mut answer),
            Some((LentBook { words, numbers }, class)) => {
                walk_booked(plan, words, numbers, ask, *class, &chain, &mut answer)
            }
        };
        figures(number, &answer)
    }
}

fn plan(tables: &Tables) -> Plan<'_> {
    Plan {
        contacts: &tables.contacts,
        contact_count: tables.contact_count as usize,
        ranges: &tables.ranges,
        range_count: tables.range_count as usize,
    }
}

/// The figures of an answer, if the number that was returned is no refusal's.
fn figures(number: u64, answer: &[u64; ANSWER_WORDS]) -> Result<Figures, Refusal> {
    match number {
        0 => Ok(Figures {
            delivery: answer[2],
            opens: answer[3],
            last_call: answer[4],
            room: answer[5],
        }),
        _ => Err(Refusal::new(number, answer[1])),
    }
}
