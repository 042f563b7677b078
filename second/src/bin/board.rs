//! Prints what examples/c/board.c prints when it is given nothing: the plan of
//! cases A to G read, its asks answered, the first one's route booked, walked
//! over what is left and released twice, and the plan written.

use second::ask::Ask;
use second::cases::draft::Draft;
use second::cases::folders::FIGURE_ASKS;
use second::cases::lent::{Lent, LentBook};
use second::cases::plans::figures_plan;
use second::cases::tables::Tables;
use second::program::{answers, ask_of};
use second::random::Random;
use second::route::Network;
use second::text::{lines, parse};
use second::units::{LONGEST_BEST, WORDS};
use second::{write, Refusal};

const CLASS: u64 = 1;

fn main() {
    let draft = figures_plan();
    let text = draft.text();
    let plan = parse(&text).expect("the request's plan");
    println!("read {} {}", plan.contacts().len(), plan.ranges().len());
    let routes = String::from_utf8(answers::<Network>(&text, FIGURE_ASKS));
    print!("{}", routes.expect("answers are digits").replace('\t', " "));
    let first = lines(FIGURE_ASKS).next().expect("an ask");
    booked(&draft, ask_of(&first).expect("a good ask"));
    println!("write {}", text.len());
    let (contacts, ranges) = draft.tables();
    let (m, n) = (draft.contacts.len(), draft.ranges.len());
    let lent = &contacts[..(m - 1) * WORDS];
    let one_more = write(lent, m as u64, &ranges, n as u64, &mut []);
    refused(one_more.expect_err("a row less than is counted"));
}

/// A booking, a walk over what it leaves, and two releases.
fn booked(draft: &Draft, ask: Ask) {
    let random = &mut Random::new(1);
    let mut lent = Lent {
        tables: Tables::of(random, draft),
        book: LentBook::empty(random),
    };
    let mut chain = [0; LONGEST_BEST];
    let (routed, place) = lent.book(ask, CLASS, &mut chain).expect("a route");
    let chain = &chain[..routed.count as usize];
    let figures = routed.figures;
    let numbers = [
        figures.delivery,
        figures.opens,
        figures.last_call,
        figures.room,
        routed.count,
    ];
    let numbers: Vec<String> = numbers.iter().chain(chain).map(u64::to_string).collect();
    println!("book {}", numbers.join(" "));
    println!("place {place}");
    let left = lent.walk(ask, CLASS, chain).expect("some is left");
    println!("room {}", left.room);
    lent.release(place).expect("it is open");
    println!("release {place}");
    refused(lent.release(place).expect_err("it is released"));
}

fn refused(why: Refusal) {
    println!("refused {} {}", why.number, why.place);
}
