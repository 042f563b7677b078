//! The call `walk_booked` on random books against the plain definitions, and
//! both calls on an empty book against document 01 by itself, in which nothing
//! is said of volumes.

use crate::ask::Ask;
use crate::cases::asks;
use crate::cases::books::{self, FAMILIES};
use crate::cases::chains::{chain, exclude_later};
use crate::cases::draft::Draft;
use crate::cases::lent::{Lent, LentBook};
use crate::cases::plans::SMALL;
use crate::cases::tables::Tables;
use crate::checks::booked_routes::{numbers, shown};
use crate::checks::causes;
use crate::checks::tally::Tally;
use crate::definitions::Definitions;
use crate::exhaustive::AllChains;
use crate::random::Random;
use crate::refusal::{Refusal, NOT_IN_TIME};
use crate::route::Network;
use crate::router::Router;
use crate::timing::Figures;
use crate::units::LONGEST_BEST;

const CHAINS_A_BOOK: usize = 8;
const ASKS_OF_EMPTY_BOOK: usize = 8;
/// The call as the kinds of refused chains have it.
pub const CALL: &str = "booked walk";
/// The same where the chain would be refused otherwise, or not at all, if
/// nothing were booked.
pub const FOR_BOOKINGS: &str = "booked walk, for bookings";

/// Random chains on a small plan of every family, with a book of any.
pub fn check(random: &mut Random, tally: &mut Tally) {
    for (name, family) in SMALL {
        let draft = family(random);
        let family = random.pick(&FAMILIES);
        let book = books::of_family(&family, random, &draft);
        let case = Case::of(random, name, draft, book);
        for _ in 0..CHAINS_A_BOOK {
            case.check_chain(random, tally);
        }
    }
}

/// On a book in which nothing is open, asks of any class are answered as in
/// document 01, and so are chains.
pub fn check_empty(random: &mut Random, tally: &mut Tally) {
    let (name, family) = random.pick(&SMALL);
    let draft = family(random);
    let book = once_open(random, &draft);
    let case = Case::of(random, name, draft, book);
    for _ in 0..ASKS_OF_EMPTY_BOOK {
        case.check_as_without(random, tally);
    }
}

/// A book in which every place is free: never open, or open before.
fn once_open(random: &mut Random, draft: &Draft) -> LentBook {
    let family = random.pick(&FAMILIES);
    let mut book = books::of_family(&family, random, draft);
    for place in book.places(true) {
        book.free(place);
    }
    book
}

/// A plan with its book.
struct Case {
    name: &'static str,
    draft: Draft,
    /// Document 01 by itself.
    unbooked: Definitions,
    network: Network,
    lent: Lent,
}

impl Case {
    fn of(random: &mut Random, name: &'static str, draft: Draft, book: LentBook) -> Self {
        let plan = draft.plan();
        let tables = Tables::of(random, &draft);
        Self {
            name,
            unbooked: Definitions::of(&plan),
            network: Network::prepare(&plan),
            draft,
            lent: Lent { tables, book },
        }
    }

    /// Walks a chain that was made for the plan with its book, or without.
    fn check_chain(&self, random: &mut Random, tally: &mut Tally) {
        let (class, ask) = self.some_ask(random);
        let LentBook { words, numbers } = &self.lent.book;
        let booked = Definitions::booked(&self.draft.plan(), words, numbers, class);
        let made_for = if random.percent(60) {
            &booked
        } else {
            &self.unbooked
        };
        let chain = chain(random, made_for, &self.network, &ask, 12);
        let later = exclude_later(random, &booked, &ask, &chain);
        for ask in [ask, later] {
            let found = self.lent.walk(ask, class, &chain);
            let wanted = figures(&booked, ask, &chain);
            let without = figures(&self.unbooked, ask, &chain);
            tally.same(kind(&wanted, &without), found, wanted, || {
                let about = self.about(ask, class);
                format!("{about}{}chain {chain:?}", shown(&self.lent.book))
            });
            if let Ok(ask) = ask.check() {
                let call = if wanted == without {
                    CALL
                } else {
                    FOR_BOOKINGS
                };
                causes::meet(call, &booked, &ask, &chain, tally);
            }
        }
    }

    fn check_as_without(&self, random: &mut Random, tally: &mut Tally) {
        let (class, ask) = self.some_ask(random);
        let mut places = [0; LONGEST_BEST];
        let routed = self.lent.route(ask, class, &mut places);
        let found = routed.map(|routed| {
            let count = routed.count as usize;
            (routed.figures, places[..count].to_vec())
        });
        let all_chains = AllChains::prepare(&self.draft.plan());
        let best = ask.check().and_then(|ask| all_chains.best(&ask));
        let wanted = best.map(|best| (best.figures, numbers(&best)));
        let about = || self.about(ask, class);
        tally.same("empty book, route as in document 01", found, wanted, about);

        let chain = chain(random, &self.unbooked, &self.network, &ask, 12);
        let walked = self.lent.walk(ask, class, &chain);
        let wanted = figures(&self.unbooked, ask, &chain);
        tally.same("empty book, walk as in document 01", walked, wanted, about);
    }

    fn some_ask(&self, random: &mut Random) -> (u64, Ask) {
        let class = books::class(random);
        let ask = asks::likely(&self.network, 3, || {
            books::ask(random, &self.draft, &self.lent.book, class)
        });
        (class, ask)
    }

    fn about(&self, ask: Ask, class: u64) -> String {
        let plan = String::from_utf8_lossy(&self.draft.text()).into_owned();
        format!("{}: {ask:?} in class {class}\n{plan}", self.name)
    }
}

fn figures(definitions: &Definitions, ask: Ask, chain: &[u64]) -> Result<Figures, Refusal> {
    definitions.figures(&ask.check()?, chain)
}

/// The kind of a walk, by what it must answer on the book and without one.
fn kind(wanted: &Result<Figures, Refusal>, without: &Result<Figures, Refusal>) -> &'static str {
    match wanted {
        Ok(_) if wanted == without => "booked walk, chain in time",
        Ok(_) => "booked walk, less room for bookings",
        Err(refusal) if refusal.number == NOT_IN_TIME => "booked walk, chain late",
        Err(_) if wanted == without => "booked walk, chain not allowed",
        Err(_) => "booked walk, chain not allowed for bookings",
    }
}
