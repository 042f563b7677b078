//! The calls to make: a seed and a number give always the same call.

pub mod booked;
pub mod books;
pub mod chains;
pub mod plans;
pub mod reads;
pub mod routes;
mod tables;
mod texts;
pub mod walks;
pub mod writes;

use second::cases::damage::{self, Damage};
use second::cases::draft::Draft;
use second::cases::lent::LentBook;
use second::cases::tables::Tables;
use second::random::Random;
use second::Ask;

use crate::call::{Call, Function, Memory};
use crate::lent::Lent;

/// The functions in the order in which they have their turn.
const TURNS: [Function; 14] = [
    Function::Read,
    Function::WalkBooked,
    Function::Route,
    Function::BookRoute,
    Function::Walk,
    Function::RouteBooked,
    Function::Write,
    Function::Release,
    Function::Walk,
    Function::Read,
    Function::BookRoute,
    Function::Route,
    Function::WalkBooked,
    Function::Walk,
];

pub struct Cases {
    seed: u64,
    damages: Vec<Damage>,
}

impl Cases {
    pub fn new(seed: u64) -> Self {
        Self {
            seed,
            damages: damage::all(),
        }
    }

    /// The call with a number. The first turns of each function have its
    /// largest input; all others are random.
    pub fn call(&self, number: u64) -> Call {
        let random = &mut Random::for_case(self.seed, number);
        let (function, turn) = turn(number);
        let given = match function {
            Function::Read => reads::given(random, &self.damages, turn),
            Function::Write => writes::given(random, turn),
            Function::Walk => walks::given(random, turn),
            Function::Route => routes::given(random, turn),
            Function::WalkBooked => booked::walk(random, turn),
            Function::RouteBooked => booked::route(random, turn),
            Function::BookRoute => booked::book(random, turn),
            Function::Release => booked::release(random, turn),
        };
        let answer = answer_length(random, function.answer_words());
        given.lend(random, answer)
    }
}

/// Whose turn a number is, and which of that function's turns, from 0.
fn turn(number: u64) -> (Function, u64) {
    let place = number as usize % TURNS.len();
    let function = TURNS[place];
    let turns = |some: &[Function]| some.iter().filter(|&&other| other == function).count();
    let rounds = number / TURNS.len() as u64;
    let before = turns(&TURNS[..place]) as u64;
    (function, rounds * turns(&TURNS) as u64 + before)
}

/// The words that an answer must have, some more, or at times too few.
fn answer_length(random: &mut Random, least: usize) -> usize {
    match random.below(100) {
        0..=2 => random.index(least),
        3 => least - 1,
        4..=29 => least + random.between(1, 9) as usize,
        _ => least,
    }
}

/// What a call is given; what its function does not take is empty.
pub struct Given {
    pub function: Function,
    /// The text to read, or what stands where the text is to be written.
    pub bytes: Vec<u8>,
    pub tables: Tables,
    pub book: LentBook,
    pub ask: Ask,
    pub class: u64,
    /// The place to release.
    pub place: u64,
    pub chain: Vec<u64>,
}

impl Given {
    /// The tables alone.
    fn of(function: Function, tables: Tables) -> Self {
        Self {
            function,
            bytes: Vec::new(),
            tables,
            book: LentBook {
                words: Vec::new(),
                numbers: Vec::new(),
            },
            ask: NO_ASK,
            class: 0,
            place: 0,
            chain: Vec::new(),
        }
    }

    pub fn read(text: Vec<u8>, contacts: Vec<u64>, ranges: Vec<u64>) -> Self {
        let tables = Tables {
            contacts,
            contact_count: 0,
            ranges,
            range_count: 0,
        };
        Self {
            bytes: text,
            ..Self::of(Function::Read, tables)
        }
    }

    pub fn write(tables: Tables, out: Vec<u8>) -> Self {
        Self {
            bytes: out,
            ..Self::of(Function::Write, tables)
        }
    }

    pub fn walk(tables: Tables, ask: Ask, chain: Vec<u64>) -> Self {
        Self {
            ask,
            chain,
            ..Self::of(Function::Walk, tables)
        }
    }

    pub fn route(tables: Tables, ask: Ask, chain: Vec<u64>) -> Self {
        Self {
            function: Function::Route,
            ..Self::walk(tables, ask, chain)
        }
    }

    /// The same for another function, in a class and over a book.
    pub fn over(self, function: Function, book: LentBook, class: u64) -> Self {
        Self {
            function,
            book,
            class,
            ..self
        }
    }

    pub fn release(tables: Tables, book: LentBook, place: u64) -> Self {
        Self {
            book,
            place,
            ..Self::of(Function::Release, tables)
        }
    }

    /// Lends it all, with an answer of so many words that hold anything.
    pub fn lend(self, random: &mut Random, answer: usize) -> Call {
        let answer = words(random, answer);
        let mut lent = |content: &[u64]| Lent::new(content, || random.word());
        let contacts = lent(&self.tables.contacts);
        let ranges = lent(&self.tables.ranges);
        let book = lent(&self.book.words);
        let chain = lent(&self.chain);
        let answer = lent(&answer);
        let booked = Lent::new(&self.book.numbers, || random.word() as u16);
        let bytes = Lent::new(&self.bytes, || random.word() as u8);
        Call {
            function: self.function,
            contact_count: self.tables.contact_count,
            range_count: self.tables.range_count,
            ask: self.ask,
            class: self.class,
            place: self.place,
            memory: Memory {
                bytes,
                contacts,
                ranges,
                book,
                booked,
                chain,
                answer,
            },
        }
    }
}

const NO_ASK: Ask = Ask {
    source: 0,
    destination: 0,
    time: 0,
    size: 0,
    deadline: 0,
    excluded: 0,
};

/// The rows of a draft as lent tables that hold nothing else.
pub fn plain_tables(draft: &Draft) -> Tables {
    let (contacts, ranges) = draft.tables();
    Tables {
        contacts,
        contact_count: draft.contacts.len() as u64,
        ranges,
        range_count: draft.ranges.len() as u64,
    }
}

/// So many words that hold anything.
pub fn words(random: &mut Random, count: usize) -> Vec<u64> {
    (0..count).map(|_| random.word()).collect()
}

/// So many bytes that hold anything.
pub fn bytes(random: &mut Random, count: usize) -> Vec<u8> {
    let words = words(random, count.div_ceil(8));
    let mut bytes: Vec<u8> = words.iter().flat_map(|word| word.to_le_bytes()).collect();
    bytes.truncate(count);
    bytes
}
