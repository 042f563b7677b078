//! Prints the input of the test program `text_cases`: texts for every refusal of
//! `read` and every order of two, each headed by its length in four bytes.

use std::io::{self, Write};

use second::cases::{damage, plans};
use second::random::Random;

/// Texts that each stand for one rule, most of them by a single byte.
const TEXTS: &[&[u8]] = &[
    b"plan\t1\n",
    b"plan\t1",
    b"plan\t2\n",
    b"plan\t01\n",
    b"plan 1\n",
    b"Plan\t1\n",
    b"plan\t1\r\n",
    b"plan\t1\n\n",
    b"plan\t1\t\n",
    b"plan\t1\ncontact\t0\t10\t1\t2\t5\n",
    b"plan\t1\ncontact\t0\t10\t1\t2\t5",
    b"plan\t1\ncontact\t00\t10\t1\t2\t5\n",
    b"plan\t1\ncontact\t0\t10\t1\t2\t05\n",
    b"plan\t1\ncontact\t0\t10\t1\t2\t5\r\n",
    b"plan\t1\ncontact\t0\t10\t1\t2\t18446744073709551616\n",
    b"plan\t1\ncontact\t0\t10\t1\t2\t1000000000000000000000000000000000000000\n",
    b"plan\t1\ncontact\t18446744073709551616\t18446744073709551617\t1\t2\t5\n",
    b"plan\t1\ncontact\t10\t10\t1\t2\t5\n",
    b"plan\t1\ncontact\t0\t10\t1\t2\t5\ncontact\t10\t20\t1\t2\t5\n",
    b"plan\t1\ncontact\t0\t10\t1\t2\t5\ncontact\t9\t20\t1\t2\t5\n",
    b"plan\t1\ncontact\t0\t10\t1\t2\t5\ncontact\t9\t20\t2\t1\t5\n",
    b"plan\t1\nrange\t0\t10\t1\t2\t0\ncontact\t0\t10\t1\t2\t5\n",
    b"plan\t1\nrange\t0\t10\t1\t2\t0\nrange\t10\t20\t1\t2\t86400000\n",
    b"plan\t1\nrange\t0\t10\t2\t1\t0\n",
    b"plan\t1\nrange\t0\t10\t1\t2\t86400001\n",
    b"plan\t1\ncontact\t0\t8589934591\t1\t64\t1000000000\n",
    b"plan\t1\ncontact\t0\t8589934592\t1\t64\t1000000000\n",
    b"plan\t1\ncontact\t0\t10\t1\t65\t5\n",
    b"plan\t1\ncontact\t0\t10\t0\t2\t5\n",
    b"plan\t1\ncontact\t0\t10\t1\t2\t0\n",
    b"plan\t1\ncontact\t0\t10\t1\t2\t1000000001\n",
    b"plan\t1\ncontact\t0\t10\t1\t2\n",
    b"plan\t1\ncontact\t0\t10\t1\t2\t5\t6\n",
    b"plan\t1\ncontact\t0\t10\t\t2\t5\n",
    b"plan\t1\ncontact\t0\t10\t1\t2\t-5\n",
    b"plan\t1\ncontact\t0\t10\t1\t2\t 5\n",
    b"plan\t1\ncontact\t0\t10\t1\t2\t5\0\n",
    b"plan\t1\ncontact\t0\t10\t1\t2\t\xff\n",
    b"plan\t1\ncontacts\t0\t10\t1\t2\t5\n",
    b"plan\t1\ncontact\t0\t10\t1\t1\t5\n",
];

/// Rows that hold the longest values there are.
fn lines(word: &str, count: u64, last: u64) -> String {
    (0..count)
        .map(|i| (1_000_000_000 + 10 * i, 1_000_000_005 + 10 * i))
        .map(|(start, end)| format!("{word}\t{start}\t{end}\t10\t11\t{last}\n"))
        .collect()
}

fn texts() -> Vec<Vec<u8>> {
    let mut texts = vec![Vec::new()];
    texts.extend(TEXTS.iter().map(|text| text.to_vec()));
    texts.push(plans::figures_plan().text());
    for (m, n) in [(512, 512), (513, 0), (0, 513), (512, 513), (513, 512)] {
        let contacts = lines("contact", m, 1_000_000_000);
        let ranges = lines("range", n, 86_400_000);
        texts.push(format!("plan\t1\n{contacts}{ranges}").into_bytes());
    }
    for (number, damage) in damage::all().iter().enumerate() {
        let mut random = Random::for_case(1, number as u64);
        texts.push(damage::make(&mut random, damage).text);
    }
    texts
}

fn main() -> io::Result<()> {
    let mut output = io::stdout().lock();
    for text in texts() {
        output.write_all(&(text.len() as u32).to_be_bytes())?;
        output.write_all(&text)?;
    }
    Ok(())
}
