//! Lent tables and asks against the plain definitions, in every call: the
//! refusals 15, 9, 11 and 12 and their order, and that they come before those
//! of a walked chain.

use crate::ask::Ask;
use crate::calls::{route, walk};
use crate::cases::asks;
use crate::cases::plans::SMALL;
use crate::cases::tables::Tables;
use crate::checks::tally::Tally;
use crate::plain::{ask_refusal, is_valid};
use crate::random::Random;
use crate::refusal::{
    Refusal, ASK_VALUE, ENDS_ELSEWHERE, NO_SUCH_CONTACT, NO_VALID_PLAN, SHORT_CHAIN,
    SOURCE_IS_DESTINATION,
};
use crate::text::write;
use crate::units::LONGEST_BEST;

const TABLES: usize = 20;
/// No plan's text is longer.
const ROOM: usize = 46_087;

/// Damaged tables and asks are refused exactly where the definitions say so.
pub fn check(random: &mut Random, tally: &mut Tally) {
    for _ in 0..TABLES {
        let (_, family) = random.pick(&SMALL);
        let draft = family(random);
        let mut tables = Tables::of(random, &draft);
        for _ in 0..random.below(3) {
            tables.damage(random);
        }
        let mut ask = asks::ask(random, &draft);
        for _ in 0..random.below(3) {
            ask = asks::at_limits(random, &ask);
        }
        check_calls(&tables, ask, tally);
    }
}

fn check_calls(tables: &Tables, ask: Ask, tally: &mut Tally) {
    let about = || {
        let (contacts, ranges) = (&tables.contacts, &tables.ranges);
        let (contact_count, range_count) = (tables.contact_count, tables.range_count);
        format!("{ask:?}, {contact_count} of {contacts:?}, {range_count} of {ranges:?}")
    };
    let of_tables = (!tables_are_valid(tables)).then_some(Refusal::bare(NO_VALID_PLAN));
    let of_call = of_tables.or(ask_refusal(&ask));
    let what = match of_call {
        None => "calls, valid tables and ask",
        Some(Refusal {
            number: NO_VALID_PLAN,
            ..
        }) => "calls, tables no valid plan",
        Some(_) => "calls, ask out of range or to its source",
    };
    tally.same(what, early(written(tables)), of_tables, about);
    for (chain, of_chain) in [
        (&[0][..], Refusal::new(NO_SUCH_CONTACT, 1)),
        (&[], Refusal::bare(ENDS_ELSEWHERE)),
    ] {
        let wanted = of_call.or(Some(of_chain));
        tally.same(what, walked(tables, ask, chain), wanted, about);
    }
    tally.same(
        what,
        early(routed(tables, ask, LONGEST_BEST)),
        of_call,
        about,
    );
    let short = routed(tables, ask, LONGEST_BEST - 1);
    let wanted = Some(Refusal::bare(SHORT_CHAIN));
    tally.same("calls, short chain first", short, wanted, about);
}

/// A refusal if it is one that comes before the work of a call.
fn early(refusal: Option<Refusal>) -> Option<Refusal> {
    let numbers = [NO_VALID_PLAN, ASK_VALUE, SOURCE_IS_DESTINATION];
    refusal.filter(|refusal| numbers.contains(&refusal.number))
}

fn tables_are_valid(tables: &Tables) -> bool {
    is_valid(
        &tables.contacts,
        tables.contact_count,
        &tables.ranges,
        tables.range_count,
    )
}

fn written(tables: &Tables) -> Option<Refusal> {
    let written = write(
        &tables.contacts,
        tables.contact_count,
        &tables.ranges,
        tables.range_count,
        &mut vec![0; ROOM],
    );
    written.err()
}

fn walked(tables: &Tables, ask: Ask, chain: &[u64]) -> Option<Refusal> {
    let walked = walk(
        &tables.contacts,
        tables.contact_count,
        &tables.ranges,
        tables.range_count,
        ask,
        chain,
    );
    walked.err()
}

fn routed(tables: &Tables, ask: Ask, places: usize) -> Option<Refusal> {
    let routed = route(
        &tables.contacts,
        tables.contact_count,
        &tables.ranges,
        tables.range_count,
        ask,
        &mut vec![0; places],
    );
    routed.err()
}
