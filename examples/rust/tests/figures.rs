//! Cases A to G of the request through the safe functions.

mod common;

use common::{on_plan, TEXT_A_TO_G};
use oivarnum::{read, route, walk, write, Figures, Plan, Refusal, CHAIN, ROWS, TEXT, WORDS};

/// An ask's six numbers, and the figures and the chain, or the refusal.
type Case = ([u64; 6], Result<([u64; 4], &'static [u64]), u64>);

const CASES: [Case; 7] = [
    (
        [1, 3, 0, 1000, 30000, 0],
        Ok(([6080, 0, 5900, 2427], &[1, 2])),
    ),
    (
        [1, 3, 0, 1000, 30000, 2],
        Ok(([19600, 8000, 9700, 1165], &[3])),
    ),
    (
        [1, 3, 0, 1000, 6081, 0],
        Ok(([6080, 0, 2960, 1000], &[1, 2])),
    ),
    ([1, 3, 0, 1000, 6080, 0], Err(14)),
    (
        [1, 3, 9000, 1000, 30000, 0],
        Ok(([20600, 9000, 9700, 1067], &[3])),
    ),
    ([3, 1, 0, 1000, 30000, 0], Err(13)),
    ([1, 1, 0, 1000, 30000, 0], Err(12)),
];

/// What `route` finds for a case, and what `walk` says of the chain.
fn check(plan: Plan, (numbers, wanted): Case) {
    let ask = numbers.into();
    let mut chain = [0; CHAIN];
    let routed = route(plan, ask, &mut chain);
    match wanted {
        Ok(([delivery, opens, last_call, room], wanted_chain)) => {
            let figures = Figures {
                delivery,
                opens,
                last_call,
                room,
            };
            assert_eq!(routed, Ok((figures, wanted_chain.len())));
            assert_eq!(chain[..wanted_chain.len()], *wanted_chain);
            assert_eq!(walk(plan, ask, wanted_chain), Ok(figures));
        }
        Err(number) => assert_eq!(routed, Err(Refusal { number, place: 0 })),
    }
}

#[test]
fn the_cases_of_the_request() {
    on_plan(|plan| {
        for case in CASES {
            check(plan, case);
        }
        let mut out = [0; TEXT];
        let length = write(plan, &mut out);
        assert_eq!(length, Ok(TEXT_A_TO_G.len()));
        assert_eq!(out[..TEXT_A_TO_G.len()], *TEXT_A_TO_G);
    });
}

#[test]
fn refusals_have_their_place() {
    let (mut contacts, mut ranges) = ([0; ROWS * WORDS], [0; ROWS * WORDS]);
    let refused = |number, place| Refusal { number, place };
    let bad_line = [TEXT_A_TO_G, b"range\n"].concat();
    let answer = read(&bad_line, &mut contacts, &mut ranges);
    assert_eq!(answer, Err(refused(3, 12)));
    let empty = Plan {
        contacts: &[],
        contact_count: 0,
        ranges: &[],
        range_count: 0,
    };
    assert_eq!(write(empty, &mut [0; 6]), Err(refused(10, 7)));
}
