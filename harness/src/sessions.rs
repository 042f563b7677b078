//! Sessions: a plan, a book, and steps on them one after the other. Each step
//! is made through the archive on one copy of the lent memory and by the second
//! program on another, and then both copies are compared.

use second::cases::sessions::{filling, from_any, from_empty, large, Session};
use second::cases::steps::Step;
use second::random::Random;
use second::units::{LONGEST_BEST, ROWS};

use crate::call::{Call, Function, Memory};
use crate::cases::{words, Given};
use crate::check::{check_beside, Checked};
use crate::lent::Lent;

/// A kind of session, and how many steps it has at least and at most.
type Kind = (fn(&mut Random, usize) -> Session, u64, u64);

const FROM_EMPTY: Kind = (from_empty, 50, 600);
const FROM_ANY: Kind = (from_any, 50, 600);
/// Enough steps to find the book full.
const FILLING: Kind = (filling, 400, 600);
/// The costly ones: a step on a full plan takes as long as many on a small one.
const LARGE: Kind = (large, 50, 60);

fn some_kind(random: &mut Random) -> Kind {
    match random.below(20) {
        0..=5 => FROM_EMPTY,
        6..=12 => FROM_ANY,
        13..=16 => FILLING,
        _ => LARGE,
    }
}

/// Of a hundred steps so many are made spoilt first, and then as they are.
const SPOILT: u64 = 4;

/// A session under way.
pub struct Course {
    random: Random,
    session: Session,
    /// The steps that are made.
    pub made: usize,
    /// Whether the call is a step that is spoilt.
    pub is_spoilt: bool,
    /// The call, with the memory that is lent to the archive.
    pub call: Call,
    /// The second program's copy of that memory.
    memory: Memory,
}

impl Course {
    /// The session of a seed with a number, counted from 0, before its first
    /// step.
    pub fn of(seed: u64, number: u64) -> Self {
        let mut random = Random::for_case(seed, number);
        let (make, least, most) = some_kind(&mut random);
        let count = random.between(least, most) as usize;
        let session = make(&mut random, count);
        let (tables, book) = (session.lent.tables.clone(), session.lent.book.clone());
        let call = Given::release(tables, book, 0).lend(&mut random, 0);
        Self {
            random,
            session,
            made: 0,
            is_spoilt: false,
            memory: call.memory.clone(),
            call,
        }
    }

    /// Whether the plan has as many contacts and ranges as there may be.
    pub fn is_full_plan(&self) -> bool {
        let draft = &self.session.draft;
        draft.contacts.len() == ROWS && draft.ranges.len() == ROWS
    }

    /// Prepares the next call: the next step, or that step spoilt; false when
    /// all steps are made.
    pub fn goes_on(&mut self) -> bool {
        let Some(step) = self.session.steps.get(self.made).cloned() else {
            return false;
        };
        self.prepare(step);
        self.is_spoilt = !self.is_spoilt && self.random.percent(SPOILT);
        if self.is_spoilt {
            self.spoil();
        } else {
            self.made += 1;
        }
        self.memory.chain = self.call.memory.chain.clone();
        self.memory.answer = self.call.memory.answer.clone();
        true
    }

    /// Makes the call on both copies of the memory, and compares them.
    pub fn check(&mut self) -> Checked {
        check_beside(&mut self.call, &mut self.memory)
    }

    /// Makes a step the call.
    fn prepare(&mut self, step: Step) {
        let call = &mut self.call;
        call.contact_count = self.session.lent.tables.contact_count;
        call.range_count = self.session.lent.tables.range_count;
        let mut chain = Vec::new();
        match step {
            Step::Ask { ask, class } => {
                (call.function, call.ask, call.class) = (Function::RouteBooked, ask, class);
                chain = some_places(&mut self.random);
            }
            Step::Book { ask, class } => {
                (call.function, call.ask, call.class) = (Function::BookRoute, ask, class);
                chain = some_places(&mut self.random);
            }
            Step::Walk {
                ask,
                class,
                chain: given,
            } => {
                (call.function, call.ask, call.class) = (Function::WalkBooked, ask, class);
                chain = given;
            }
            Step::Release { place } => (call.function, call.place) = (Function::Release, place),
        }
        self.lend_chain(&chain);
        let more = self.random.pick(&[0, 0, 0, 1, 9]);
        self.lend_answer(self.call.function.answer_words() + more);
    }

    /// Spoils the call so that it must be refused, whatever the book holds: by
    /// an answer or a chain that is too short, or by too high a count.
    fn spoil(&mut self) {
        let function = self.call.function;
        let fills = matches!(function, Function::RouteBooked | Function::BookRoute);
        let count = self.random.pick(&[ROWS as u64 + 1, 1 << 32, u64::MAX]);
        match self.random.below(4) {
            0 if fills => {
                let places = self.random.index(LONGEST_BEST);
                let chain = words(&mut self.random, places);
                self.lend_chain(&chain);
            }
            0 | 1 => {
                let length = self.random.index(function.answer_words());
                self.lend_answer(length);
            }
            2 => self.call.contact_count = count,
            _ => self.call.range_count = count,
        }
    }

    fn lend_chain(&mut self, chain: &[u64]) {
        self.call.memory.chain = Lent::new(chain, || self.random.word());
    }

    /// Lends an answer of so many words that hold anything.
    fn lend_answer(&mut self, length: usize) {
        let answer = words(&mut self.random, length);
        self.call.memory.answer = Lent::new(&answer, || self.random.word());
    }
}

/// Places enough for a chain, at times more.
fn some_places(random: &mut Random) -> Vec<u64> {
    let more = random.pick(&[0, 0, 0, 1, 40]);
    words(random, LONGEST_BEST + more)
}
