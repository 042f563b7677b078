//! Routes and bookings on random books: the calls `route_booked` and
//! `book_route` against all chains, and against the layered router.

use crate::ask::Ask;
use crate::cases::books::{self, FAMILIES};
use crate::cases::draft::Draft;
use crate::cases::lent::{Lent, LentBook};
use crate::cases::plans::{LARGE, SMALL};
use crate::cases::tables::Tables;
use crate::cases::{asks, plans};
use crate::checks::tally::Tally;
use crate::definitions::{consumption, Definitions};
use crate::exhaustive::AllChains;
use crate::layered::Layered;
use crate::plan::Plan;
use crate::random::Random;
use crate::refusal::{Refusal, BOOK_FULL};
use crate::route::Network;
use crate::router::{Best, Router};
use crate::units::{LONGEST_BEST, PLACES};

const ASKS_A_BOOK: usize = 6;
const ASKS_A_LARGE_BOOK: usize = 8;
/// More places than a call needs.
const LENT_PLACES: usize = LONGEST_BEST + 2;
/// What lent places hold before a call.
const UNTOUCHED: u64 = 0xdead_beef;

/// A small plan of every family, with a book of any.
pub fn check_small(random: &mut Random, tally: &mut Tally) {
    for family in SMALL {
        let mut case = Case::of(random, family, true);
        case.check_asks(random, ASKS_A_BOOK, tally);
    }
}

/// A large plan with a book of any family.
pub fn check_large(random: &mut Random, turn: u64, tally: &mut Tally) {
    let family = LARGE[turn as usize % LARGE.len()];
    let mut case = Case::of(random, family, false);
    case.check_asks(random, ASKS_A_LARGE_BOOK, tally);
}

/// A plan with its book.
struct Case {
    name: String,
    is_small: bool,
    draft: Draft,
    plan: Plan,
    unbooked: Network,
    lent: Lent,
}

impl Case {
    fn of(random: &mut Random, (name, family): plans::Family, is_small: bool) -> Self {
        let draft = family(random);
        let plan = draft.plan();
        let book_family = random.pick(&FAMILIES);
        let book = books::of_family(&book_family, random, &draft);
        let tables = Tables::of(random, &draft);
        Self {
            name: format!("{name}, {} book", book_family.0),
            is_small,
            unbooked: Network::prepare(&plan),
            draft,
            plan,
            lent: Lent { tables, book },
        }
    }

    /// Random asks, each followed by one at the edge of its answer, and by the
    /// same one where just enough is left of a contact of its chain, or a byte
    /// too little.
    fn check_asks(&mut self, random: &mut Random, count: usize, tally: &mut Tally) {
        for _ in 0..count {
            let class = books::class(random);
            let ask = books::ask(random, &self.draft, &self.lent.book, class);
            if let Ok(best) = self.check(ask, class, tally) {
                let edge = asks::around(random, &ask, &best, &self.draft);
                // Its answer is compared and not needed any more.
                let _ = self.check(edge, class, tally);
                let number = random.pick(&best.chain).0;
                let left = consumption(ask.size) - random.below(2);
                let book = &mut self.lent.book;
                books::leave(book, random, &self.draft, number, class, left.into());
                let _ = self.check(ask, class, tally);
            }
        }
    }

    /// Compares both calls; what `route_booked` must answer.
    fn check(&self, ask: Ask, class: u64, tally: &mut Tally) -> Result<Best, Refusal> {
        let about = || self.about(ask, class);
        let by_layers = answer(&Layered::over(self.definitions(class)), ask);
        let wanted = if self.is_small {
            let wanted = answer(&AllChains::over(self.definitions(class)), ask);
            let what = "booked route, small plan by layers";
            tally.same(what, by_layers, wanted.clone(), about);
            wanted
        } else {
            by_layers
        };
        let what = match (self.is_small, wanted == answer(&self.unbooked, ask)) {
            (true, true) => "booked route, all chains tried, as on an empty book",
            (true, false) => "booked route, all chains tried, changed by bookings",
            (false, true) => "booked route, large plan by layers, as on an empty book",
            (false, false) => "booked route, large plan by layers, changed by bookings",
        };
        let mut chain = vec![UNTOUCHED; LENT_PLACES];
        let routed = self.lent.route(ask, class, &mut chain);
        let found = (routed.map(|routed| (routed.figures, routed.count)), chain);
        let figures = wanted
            .as_ref()
            .map(|best| (best.figures, best.chain.len() as u64))
            .map_err(|refusal| *refusal);
        tally.same(what, found, (figures, filled(wanted.as_ref().ok())), about);
        self.check_booking(ask, class, &wanted, tally);
        wanted
    }

    /// Compares `book_route`, where `route_booked` must give this answer.
    fn check_booking(&self, ask: Ask, class: u64, best: &Result<Best, Refusal>, tally: &mut Tally) {
        let mut after = self.lent.book.clone();
        let free = (0..PLACES).find(|&place| !after.is_open(place));
        let (what, wanted) = match (best, free) {
            (Ok(best), Some(place)) => {
                let chain = numbers(best);
                after.open(place, class, consumption(ask.size), &chain);
                let answer = (best.figures, chain.len() as u64, place as u64 + 1);
                ("booking on any book, made", Ok(answer))
            }
            (Ok(_), None) => {
                let full = Refusal::bare(BOOK_FULL);
                ("booking on any book, all places open", Err(full))
            }
            (Err(refusal), _) => ("booking on any book, refused as route does", Err(*refusal)),
        };
        let mut lent = self.lent.clone();
        let mut chain = vec![UNTOUCHED; LENT_PLACES];
        let booked = lent.book(ask, class, &mut chain);
        let booked = booked.map(|(routed, place)| (routed.figures, routed.count, place));
        let chain_after = filled(best.as_ref().ok().filter(|_| wanted.is_ok()));
        let found = (booked, chain, lent.book);
        tally.same(what, found, (wanted, chain_after, after), || {
            self.about(ask, class)
        });
    }

    fn definitions(&self, class: u64) -> Definitions {
        let book = &self.lent.book;
        Definitions::booked(&self.plan, &book.words, &book.numbers, class)
    }

    fn about(&self, ask: Ask, class: u64) -> String {
        let plan = String::from_utf8_lossy(&self.draft.text()).into_owned();
        let open = shown(&self.lent.book);
        format!("{}: {ask:?} in class {class}\n{plan}{open}", self.name)
    }
}

fn answer(router: &impl Router, ask: Ask) -> Result<Best, Refusal> {
    router.best(&ask.check()?)
}

/// The lent places after a call that fills in this chain, or none.
fn filled(best: Option<&Best>) -> Vec<u64> {
    let mut chain = best.map_or(Vec::new(), numbers);
    chain.resize(LENT_PLACES, UNTOUCHED);
    chain
}

/// The contact numbers of a best chain.
pub fn numbers(best: &Best) -> Vec<u64> {
    best.chain.iter().map(|number| number.0).collect()
}

/// The open places of a book.
pub fn shown(book: &LentBook) -> String {
    let shown = |place: usize| {
        let words = &book.words[4 * place..4 * place + 4];
        let numbers = &book.numbers[63 * place..63 * place + words[3] as usize];
        let place = place + 1;
        format!(
            "place {place}: class {}, {} over {numbers:?}\n",
            words[1], words[2]
        )
    };
    book.places(true).into_iter().map(shown).collect()
}
