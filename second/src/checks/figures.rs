//! The figures that document 01 gives, cases A to I, and those it leaves out, a
//! pass under ranges that were cut, and the program's refusals of a whole plan
//! or input.

use crate::ask::Ask;
use crate::calls::walk;
use crate::cases::draft::Draft;
use crate::cases::folders::{FIGURE_ASKS, TIE_ASK};
use crate::cases::plans;
use crate::checks::tally::Tally;
use crate::exhaustive::AllChains;
use crate::layered::Layered;
use crate::program::answers;
use crate::refusal::{Refusal, DOES_NOT_JOIN, ENDS_ELSEWHERE};
use crate::route::Network;
use crate::units::LONGEST_TEXT;

const PRINTED_A_TO_G: &str = "route\t6080\t0\t5900\t2427\t2\t1\t2
route\t19600\t8000\t9700\t1165\t1\t3
route\t6080\t0\t2960\t1000\t2\t1\t2
refused\t14\t0
route\t20600\t9000\t9700\t1067\t1\t3
refused\t13\t0
refused\t12\t0
";
const PRINTED_H: &str = "route\t5002\t500\t1998\t1456310\t2\t3\t4\n";
const PRINTED_I: &str = "route\t4\t0\t996\t485436\t2\t2\t3\n";

/// A pass under three ranges that touch: 1030 bytes take 1030 ms, and the light
/// time is 700 ms from the start on, though that range begins at 5000. The pass
/// carries 10,000 bytes, which is the consumption of 9708.
const CUT_PASS: &[u8] = b"plan\t1
contact\t0\t10000\t1\t2\t1000
range\t5000\t9000\t1\t2\t700
range\t0\t5000\t1\t2\t10
range\t9000\t10000\t1\t2\t0
range\t10000\t20000\t1\t2\t900
";
/// The same with a millisecond between two of the ranges.
const GAP: &[u8] = b"plan\t1
contact\t0\t10000\t1\t2\t1000
range\t0\t5000\t1\t2\t10
range\t5001\t10000\t1\t2\t700
";
const CUT_ASK: &[u8] = b"ask\t1\t2\t0\t1000\t30000\t0\n";
const PRINTED_CUT: &str = "route\t1730\t0\t8970\t9708\t1\t1\n";

/// A plan's text, an input of asks and what is to be printed.
type Case<'a> = (&'static str, &'a [u8], &'a [u8], &'a str);

pub fn check(tally: &mut Tally) {
    let (figures, h, i) = (plans::figures_plan(), plans::case_h(), plans::case_i());
    let full_input = vec![b'\n'; LONGEST_TEXT];
    let full_answers: String = (1..=LONGEST_TEXT).map(refused_17).collect();
    let over_full_input = vec![b'\n'; LONGEST_TEXT + 1];
    let cut = plans::cut_figures_plan();
    let cases: [Case; 12] = [
        ("A to G", &figures.text(), FIGURE_ASKS, PRINTED_A_TO_G),
        ("A to G, cut", &cut.text(), FIGURE_ASKS, PRINTED_A_TO_G),
        ("cut pass", CUT_PASS, CUT_ASK, PRINTED_CUT),
        ("cut pass with a gap", GAP, CUT_ASK, "refused\t13\t0\n"),
        ("H", &h.text(), TIE_ASK, PRINTED_H),
        ("I", &i.text(), TIE_ASK, PRINTED_I),
        (
            "empty plan",
            &Draft::default().text(),
            TIE_ASK,
            "refused\t13\t0\n",
        ),
        ("empty plan, no asks", &Draft::default().text(), b"", ""),
        ("no plan", b"", TIE_ASK, "refused\t2\t1\n"),
        ("input at its limit", &h.text(), &full_input, &full_answers),
        (
            "input over its limit",
            &h.text(),
            &over_full_input,
            "refused\t1\t0\n",
        ),
        (
            "both refused",
            b"plan\t1",
            &over_full_input,
            "refused\t2\t1\n",
        ),
    ];
    for case in &cases {
        check_case(case, answers::<Network>, tally);
        check_case(case, answers::<AllChains>, tally);
        check_case(case, answers::<Layered>, tally);
    }
    check_walks_of_h(&h, tally);
}

fn refused_17(line: usize) -> String {
    format!("refused\t17\t{line}\n")
}

fn check_case(
    (name, plan, input, wanted): &Case,
    answers: fn(&[u8], &[u8]) -> Vec<u8>,
    tally: &mut Tally,
) {
    let printed = String::from_utf8_lossy(&answers(plan, input)).into_owned();
    tally.same(
        "figures of document 01",
        printed,
        wanted.to_string(),
        || format!("case {name}"),
    );
}

/// Both chains of case H deliver at 5002; one that is not joined is refused.
fn check_walks_of_h(h: &Draft, tally: &mut Tally) {
    let (contacts, ranges) = h.tables();
    let ask = Ask {
        source: 1,
        destination: 4,
        time: 0,
        size: 1000,
        deadline: 20000,
        excluded: 0,
    };
    let chains: [(&[u64], Result<u64, Refusal>); 4] = [
        (&[3, 4], Ok(5002)),
        (&[1, 2, 4], Ok(5002)),
        (&[1, 4], Err(Refusal::new(DOES_NOT_JOIN, 2))),
        (&[], Err(Refusal::bare(ENDS_ELSEWHERE))),
    ];
    for (chain, wanted) in chains {
        let walked = walk(&contacts, 4, &ranges, 4, ask, chain);
        let delivery = walked.map(|figures| figures.delivery);
        tally.same("figures of document 01", delivery, wanted, || {
            format!("case H, chain {chain:?}")
        });
    }
}
