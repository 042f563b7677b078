//! The plan of cases A to G.

use oivarnum::{read, Plan, ROWS, WORDS};

pub const TEXT_A_TO_G: &[u8] = b"plan\t1
contact\t0\t10000\t1\t2\t1000
contact\t4000\t9000\t2\t3\t500
contact\t8000\t20000\t1\t3\t100
contact\t12000\t30000\t2\t3\t1000
contact\t2000\t6000\t1\t4\t2000
contact\t3000\t15000\t4\t3\t1000
range\t0\t30000\t1\t2\t10
range\t0\t30000\t2\t3\t20
range\t0\t30000\t1\t3\t1300
range\t0\t30000\t1\t4\t5
";

/// Runs a test on the plan, read from its text.
pub fn on_plan(test: impl FnOnce(Plan)) {
    let (mut contacts, mut ranges) = ([0; ROWS * WORDS], [0; ROWS * WORDS]);
    let counts = read(TEXT_A_TO_G, &mut contacts, &mut ranges);
    assert_eq!(counts, Ok((6, 4)));
    test(Plan {
        contacts: &contacts,
        contact_count: 6,
        ranges: &ranges,
        range_count: 4,
    });
}
