//! The fixed inputs: a plan with its book, and asks on it.

use second::book::{self, EMPTY_BOOK, EMPTY_BOOKED};
use second::modes::Lent;
use second::plan::Row;
use second::random::Random;
use second::units::{Class, ContactNo, PlaceNo, LATEST_TIME, NODES, PLACES};
use second::Ask;

use crate::plans::{self, Rows};

/// The C functions that are measured.
#[derive(Clone, Copy, Debug, PartialEq, Eq)]
pub enum Function {
    Route,
    RouteBooked,
}

impl Function {
    /// Its name in the archive.
    pub fn symbol(self) -> &'static str {
        match self {
            Self::Route => "oivarnum_route",
            Self::RouteBooked => "oivarnum_route_booked",
        }
    }
}

/// What is lent and given to the calls of a function.
pub struct Input {
    /// The name by which `calls` knows it.
    pub name: String,
    /// What it is.
    pub title: String,
    pub function: Function,
    pub contacts: Vec<u64>,
    pub ranges: Vec<u64>,
    pub contact_count: usize,
    pub range_count: usize,
    pub book: Vec<u64>,
    pub booked: Vec<u16>,
    pub asks: Vec<Ask>,
}

impl Input {
    fn new(name: &str, title: &str, rows: Rows, asks: Vec<Ask>) -> Self {
        Self {
            name: name.into(),
            title: title.into(),
            function: Function::Route,
            contact_count: rows.contacts.len(),
            range_count: rows.ranges.len(),
            contacts: rows.contacts.concat(),
            ranges: rows.ranges.concat(),
            book: EMPTY_BOOK.to_vec(),
            booked: EMPTY_BOOKED.to_vec(),
            asks,
        }
    }

    /// The class of every ask.
    pub const CLASS: u64 = Class::LOWEST.0;

    /// What is lent, for the second program.
    pub fn lent(&self) -> Lent<'_> {
        Lent {
            contacts: &self.contacts,
            contact_count: self.contact_count as u64,
            ranges: &self.ranges,
            range_count: self.range_count as u64,
            book: &self.book,
            booked: &self.booked,
        }
    }
}

/// The asks on a plan that has more than one.
const ASKS: u64 = 16;

/// The inputs that instructions are counted and times are taken on.
pub fn plans() -> Vec<Input> {
    let mut inputs = vec![
        Input::new(
            "full",
            "full plan, in time order",
            plans::full(),
            full_asks(),
        ),
        Input::new(
            "shuffled",
            "full plan, shuffled",
            plans::shuffled(),
            full_asks(),
        ),
        Input::new(
            "spread",
            "full plan among 32 nodes",
            plans::full_among(plans::SPREAD_NODES),
            asks_among(plans::SPREAD_NODES),
        ),
        Input::new("lunar", "lunar plan", plans::lunar(), lunar_asks()),
        Input::new(
            "line",
            "line of 63 contacts",
            plans::line(),
            vec![ask(1000)],
        ),
        Input::new(
            "layers",
            "63 layers of slow jumps",
            plans::layers(),
            vec![ask(plans::JUMP_SIZE)],
        ),
        Input::new(
            "two-nodes",
            "all contacts between two nodes",
            plans::two_nodes(),
            two_nodes_asks(),
        ),
        Input::new(
            "gaps",
            "the same, seven contacts of eight not ranged",
            plans::gaps(),
            two_nodes_asks(),
        ),
    ];
    inputs.extend(booked());
    inputs
}

/// The inputs through `oivarnum_route_booked`.
fn booked() -> Vec<Input> {
    let with_book = |input| Input {
        function: Function::RouteBooked,
        ..input
    };
    let (name, title) = ("empty-book", "full plan, in time order, empty book");
    let empty = Input::new(name, title, plans::full(), full_asks());
    vec![with_book(empty), with_book(full_book())]
}

/// The sizes of plan that growth is measured on.
pub const SIZES: [usize; 7] = [8, 16, 32, 64, 128, 256, 512];

/// The first contacts of the full plan, with the same asks on each.
pub fn growth() -> Vec<Input> {
    let first = |count| {
        let (name, title) = (format!("first-{count}"), format!("first {count} contacts"));
        Input::new(&name, &title, plans::first(count), growth_asks())
    };
    SIZES.map(first).into()
}

/// The input of a name.
pub fn named(name: &str) -> Option<Input> {
    let mut inputs = plans().into_iter().chain(growth());
    inputs.find(|input| input.name == name)
}

/// The full plan with a full book: 256 bookings of four contacts.
pub fn full_book() -> Input {
    let random = &mut Random::new(BOOK_SEED);
    let (name, title) = ("full-book", "full plan, in time order, full book");
    let mut input = Input::new(name, title, plans::full(), full_asks());
    let mut numbers: Vec<ContactNo> = (0..input.contact_count).map(ContactNo::of_row).collect();
    for place in (1..=PLACES as u64).map(PlaceNo) {
        random.shuffle(&mut numbers);
        let class = Class(random.between(1, 3));
        let consumption = random.between(1000, 200_000);
        let (book, booked) = (&mut input.book, &mut input.booked);
        book::open(book, booked, place, class, consumption, &numbers[..4]);
    }
    input
}

const BOOK_SEED: u64 = 5;
const ASK_SEED: u64 = 1;

/// Asks between any nodes of the full plan.
fn full_asks() -> Vec<Ask> {
    asks_among(plans::FULL_NODES)
}

/// Asks between any nodes of the full plan among so many.
fn asks_among(nodes: u64) -> Vec<Ask> {
    let random = &mut Random::new(ASK_SEED);
    let deadline = plans::full_among(nodes).end();
    let mut nodes: Vec<u64> = (1..=nodes).collect();
    let mut ask = |_| {
        random.shuffle(&mut nodes);
        Ask {
            source: nodes[0],
            destination: nodes[1],
            time: random.between(0, 3_000_000),
            size: random.between(1000, 1_000_000),
            deadline,
            excluded: 0,
        }
    };
    (0..ASKS).map(&mut ask).collect()
}

/// Asks between the nodes of each of the first contacts of the full plan, so
/// that the smallest plan has an answer too.
fn growth_asks() -> Vec<Ask> {
    let full = plans::full();
    let ask = |contact: &Row| Ask {
        source: contact[2],
        destination: contact[3],
        time: 0,
        size: 10_000,
        deadline: full.end(),
        excluded: 0,
    };
    full.contacts.iter().take(SIZES[0]).map(ask).collect()
}

/// Asks of landers and orbiters to the stations of the morning and back.
fn lunar_asks() -> Vec<Ask> {
    let random = &mut Random::new(ASK_SEED);
    let far = [plans::LANDERS, plans::ORBITERS].concat();
    let mut ask = |number| {
        let (far, station) = (random.pick(&far), random.pick(&plans::STATIONS[..2]));
        let is_down = number % 4 != 0;
        Ask {
            source: if is_down { far } else { station },
            destination: if is_down { station } else { far },
            time: random.below(plans::DAY / 8),
            size: random.between(1000, 1_000_000),
            deadline: plans::DAY,
            excluded: 0,
        }
    };
    (0..ASKS).map(&mut ask).collect()
}

/// Asks from the one node to the other through all of the time.
fn two_nodes_asks() -> Vec<Ask> {
    let end = plans::two_nodes().end();
    let ask = |number| Ask {
        source: 1,
        destination: 2,
        time: number * end / ASKS,
        size: 100_000,
        deadline: LATEST_TIME,
        excluded: 0,
    };
    (0..ASKS).map(ask).collect()
}

/// An ask from the first node of a line to the last.
fn ask(size: u64) -> Ask {
    Ask {
        source: 1,
        destination: NODES,
        time: 0,
        size,
        deadline: LATEST_TIME,
        excluded: 0,
    }
}
