//! What the functions over a book are given: a plan with its book, an ask of a
//! class and a chain or places for one, or the place of a booking.

use second::book::Book;
use second::cases::draft::Draft;
use second::cases::lent::LentBook;
use second::cases::long_ways::{self, long_way, LongWay};
use second::cases::{asks, books as good_books};
use second::plan::Plan;
use second::random::Random;
use second::route::Network;
use second::router::Router;
use second::timing::consumption;
use second::units::{Class, PLACES};
use second::Ask;

use super::routes::{places, some_ask, LONG_WAYS};
use super::walks::{self, Ways};
use super::{books, chains, plain_tables, plans, tables, words, Given};
use crate::call::Function;

/// The longest chain that is walked.
const VERY_LONG: u64 = 1_000_000;

pub fn walk(random: &mut Random, turn: u64) -> Given {
    match turn {
        0 => return full_walk(),
        1 | 2 => return long(VERY_LONG, turn - 1),
        _ => {}
    }
    let mut scene = Scene::some(random);
    let ways = Ways::booked(&scene.plan, &scene.book, scene.class);
    let any = |random: &mut Random| scene.ask(random);
    let (ask, mut chain) = ways.some_walk(random, &scene.draft, any);
    if random.percent(25) {
        scene.tighten(random, &ask, &chain);
    }
    if random.percent(6) {
        chain = chains::odd(random, &scene.draft);
    }
    scene.give(random, Function::WalkBooked, ask, chain)
}

pub fn route(random: &mut Random, turn: u64) -> Given {
    if turn == 0 {
        return full(random, Function::RouteBooked, 0);
    }
    best(random, Function::RouteBooked)
}

pub fn book(random: &mut Random, turn: u64) -> Given {
    match turn {
        0 | 1 => full(random, Function::BookRoute, turn as usize),
        _ => best(random, Function::BookRoute),
    }
}

pub fn release(random: &mut Random, turn: u64) -> Given {
    if turn == 0 {
        return full_release();
    }
    let Scene { draft, book, .. } = Scene::some(random);
    let place = some_place(random, &book);
    let book = books::damaged(random, book, &draft, 15);
    Given::release(tables::some(random, &draft, 10), book, place)
}

/// The plan and the book in which all is full: the longest best chain, and
/// every place open with it; so many of the last ones are free.
pub fn full(random: &mut Random, function: Function, free: usize) -> Given {
    let given = walks::full();
    let places = words(random, given.chain.len());
    let given = Given::route(given.tables, given.ask, places);
    given.over(function, books::full_line(free), 1)
}

/// The longest best chain walked over the full book.
pub fn full_walk() -> Given {
    walks::full().over(Function::WalkBooked, books::full_line(0), 1)
}

/// The last place of the full book released.
pub fn full_release() -> Given {
    let tables = plain_tables(&plans::full_line());
    Given::release(tables, books::full_line(0), PLACES as u64)
}

/// A chain to and fro, of a given length, over a book in which both of its
/// contacts are booked.
pub fn long(length: u64, late_by: u64) -> Given {
    let mut book = books::full_line(PLACES);
    for place in 0..PLACES {
        book.open(place, 1, 1, &[1, 2]);
    }
    walks::long(length, late_by).over(Function::WalkBooked, book, 1)
}

/// An ask for a best chain, and places for it.
fn best(random: &mut Random, function: Function) -> Given {
    let mut scene = match random.below(1000) < LONG_WAYS {
        true => Scene::long(random),
        false => Scene::some(random),
    };
    let network = scene.network();
    let ask = some_ask(random, &scene.draft, &network, |random| scene.ask(random));
    if random.percent(25) {
        let best = ask.check().and_then(|good| network.best(&good));
        let chain = best.map_or(Vec::new(), |best| best.chain);
        let chain: Vec<u64> = chain.iter().map(|number| number.0).collect();
        scene.tighten(random, &ask, &chain);
    }
    let chain = places(random);
    scene.give(random, function, ask, chain)
}

/// A plan, a valid book of it, and a class.
struct Scene {
    draft: Draft,
    plan: Plan,
    book: LentBook,
    class: u64,
    /// The ends of a long way, where the plan has one.
    ends: Option<(u64, u64)>,
}

impl Scene {
    fn some(random: &mut Random) -> Self {
        let draft = plans::some(random, 4);
        Self::of(random, draft, None)
    }

    fn long(random: &mut Random) -> Self {
        let LongWay { draft, ends } = long_way(random);
        Self::of(random, draft, Some(ends))
    }

    fn of(random: &mut Random, draft: Draft, ends: Option<(u64, u64)>) -> Self {
        Self {
            plan: draft.plan(),
            book: books::some(random, &draft),
            draft,
            class: good_books::class(random),
            ends,
        }
    }

    fn ask(&self, random: &mut Random) -> Ask {
        match self.ends {
            Some(ends) => long_ways::ask(random, ends),
            None => good_books::ask(random, &self.draft, &self.book, self.class),
        }
    }

    fn network(&self) -> Network {
        let LentBook { words, numbers } = &self.book;
        let book = Book::of_lent(words, numbers, &self.plan).expect("a valid book");
        Network::booked(&self.plan, &book, Class(self.class))
    }

    /// Leaves of a contact of a chain just what the ask's file consumes, or a
    /// byte less.
    fn tighten(&mut self, random: &mut Random, ask: &Ask, chain: &[u64]) {
        let last = self.draft.contacts.len() as u64;
        let known = chain.iter().filter(|&number| (1..=last).contains(number));
        let known: Vec<u64> = known.copied().collect();
        if known.is_empty() {
            return;
        }
        let number = random.pick(&known);
        let left = consumption(ask.size) - random.below(2);
        let (book, draft) = (&mut self.book, &self.draft);
        good_books::leave(book, random, draft, number, self.class, left.into());
    }

    /// All of it for a function, at times damaged or out of range.
    fn give(self, random: &mut Random, function: Function, ask: Ask, chain: Vec<u64>) -> Given {
        let tables = tables::some(random, &self.draft, 6);
        let book = books::damaged(random, self.book, &self.draft, 8);
        let ask = match random.percent(10) {
            true => asks::at_limits(random, &ask),
            false => ask,
        };
        let class = match random.percent(8) {
            true => good_books::class_at_limits(random),
            false => self.class,
        };
        Given::walk(tables, ask, chain).over(function, book, class)
    }
}

/// A place to release: one that is open, one that is not, or none at all.
fn some_place(random: &mut Random, book: &LentBook) -> u64 {
    let places = book.places(random.percent(75));
    if places.is_empty() || random.percent(12) {
        let last = PLACES as u64;
        random.pick(&[0, 1, last, last + 1, 1 << 32, (1 << 32) + 1, u64::MAX])
    } else {
        random.pick(&places) as u64 + 1
    }
}
