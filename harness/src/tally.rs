//! How many calls each function got, by what they were to give.

use crate::call::Function;
use crate::wanted::Wanted;

/// The largest number of a refusal that a function gives.
const LARGEST: usize = 26;

/// A chain that is found is long from so many contacts on.
const LONG: u64 = 33;

/// What a walk must be seen to say of chains that are not allowed.
const NOT_ALLOWED: &[usize] = &[18, 19, 20, 21, 22, 23];

/// What a function must be seen to give at least once; 0 is success.
fn must_meet(function: Function) -> Vec<usize> {
    let own: &[usize] = match function {
        Function::Read => &[0, 1, 2, 3, 4, 5, 6, 7, 8],
        Function::Write => &[0, 9, 10],
        Function::Walk => &[0, 9, 11, 12, 14],
        Function::Route => &[0, 9, 11, 12, 13, 14, 15],
        Function::WalkBooked => &[0, 9, 11, 12, 14, 24],
        Function::RouteBooked => &[0, 9, 11, 12, 13, 14, 15, 24],
        Function::BookRoute => &[0, 9, 11, 12, 13, 14, 15, 24, 25],
        Function::Release => &[0, 9, 26],
    };
    let of_chain = if function.walks() { NOT_ALLOWED } else { &[] };
    [own, of_chain].concat()
}

/// The calls of one function.
#[derive(Clone, Copy, Default)]
struct Counts {
    by_number: [u64; LARGEST + 1],
    /// 10 for an answer that is too short, apart from `write`'s own 10.
    short_answer: u64,
    /// Successes that found a long chain.
    long_chains: u64,
}

impl Counts {
    fn all(&self) -> u64 {
        self.by_number.iter().sum::<u64>() + self.short_answer
    }
}

#[derive(Clone, Copy, Default)]
pub struct Tally {
    counts: [Counts; Function::COUNT],
    pub differences: u64,
}

impl Tally {
    pub fn add(&mut self, function: Function, wanted: &Wanted, differs: bool) {
        let counts = &mut self.counts[function as usize];
        if wanted.short_answer {
            counts.short_answer += 1;
        } else {
            counts.by_number[wanted.returned as usize] += 1;
        }
        counts.long_chains += u64::from(wanted.contacts >= LONG);
        self.differences += u64::from(differs);
    }

    pub fn join(&mut self, other: &Self) {
        for (counts, others) in self.counts.iter_mut().zip(&other.counts) {
            for (count, more) in counts.by_number.iter_mut().zip(others.by_number) {
                *count += more;
            }
            counts.short_answer += others.short_answer;
            counts.long_chains += others.long_chains;
        }
        self.differences += other.differences;
    }

    /// Whether nothing differs and these functions gave all that they must be
    /// seen to; prints what is missing.
    pub fn is_good(&self, functions: &[Function]) -> bool {
        let missing = self.missing(functions);
        if !missing.is_empty() {
            println!("never met: {}", missing.join(", "));
        }
        self.differences == 0 && missing.is_empty()
    }

    fn missing(&self, functions: &[Function]) -> Vec<String> {
        let mut missing = Vec::new();
        for &function in functions {
            let counts = &self.counts[function as usize];
            let numbers = must_meet(function).into_iter();
            let unmet = numbers.filter(|&number| counts.by_number[number] == 0);
            missing.extend(unmet.map(|number| format!("{} {number}", function.name())));
            if counts.short_answer == 0 {
                missing.push(format!("{} short answer", function.name()));
            }
            if function.routes() && counts.long_chains == 0 {
                missing.push(format!("{} {LONG} contacts", function.name()));
            }
        }
        missing
    }

    /// Prints a row for each number, a column for each of these functions.
    pub fn print(&self, functions: &[Function]) {
        let names = functions.iter().map(|function| function.name());
        print_row("refusal", names.map(String::from));
        for number in 0..=LARGEST {
            let row = self.row(functions, |counts| counts.by_number[number]);
            if row.iter().any(|&count| count > 0) {
                let name = match number {
                    0 => "0, success".into(),
                    _ => number.to_string(),
                };
                print_row(&name, row.into_iter().map(shown));
            }
        }
        let short = self.row(functions, |counts| counts.short_answer);
        print_row("short answer", short.into_iter().map(shown));
        let long = self.row(functions, |counts| counts.long_chains);
        print_row("long chains", long.into_iter().map(shown));
        let all = self.row(functions, Counts::all);
        let calls: u64 = all.iter().sum();
        print_row("calls", all.into_iter().map(shown));
        println!("{calls} calls, {} differences", self.differences);
    }

    fn row(&self, functions: &[Function], count: impl Fn(&Counts) -> u64) -> Vec<u64> {
        let counts = functions
            .iter()
            .map(|&function| self.counts[function as usize]);
        counts.map(|counts| count(&counts)).collect()
    }
}

fn shown(count: u64) -> String {
    match count {
        0 => ".".into(),
        _ => count.to_string(),
    }
}

fn print_row(name: &str, row: impl Iterator<Item = String>) {
    let row: String = row.map(|cell| format!("{cell:>13}")).collect();
    println!("{name:<12}{row}");
}

#[cfg(test)]
mod tests {
    use super::{must_meet, Tally, LONG};
    use crate::call::Function;
    use crate::wanted::Wanted;

    /// A tally in which a function gave all that it must.
    fn complete(function: Function) -> Tally {
        let mut tally = Tally::default();
        let mut add = |returned: usize, short_answer, contacts| {
            let returned = returned as u64;
            let wanted = Wanted {
                returned,
                short_answer,
                contacts,
            };
            tally.add(function, &wanted, false);
        };
        for number in must_meet(function) {
            add(number, false, 0);
        }
        add(10, true, 0);
        if function.routes() {
            add(0, false, LONG);
        }
        tally
    }

    #[test]
    fn what_is_missing_is_told() {
        for function in Function::ALL {
            let tally = complete(function);
            assert!(tally.is_good(&[function]));
            let others = Function::ALL.into_iter().filter(|&other| other != function);
            for other in others {
                assert!(!tally.is_good(&[function, other]));
            }
        }
        let route = Tally::default().missing(&[Function::Route]);
        assert_eq!(route.len(), must_meet(Function::Route).len() + 2);
    }

    #[test]
    fn one_difference_is_enough() {
        let mut tally = complete(Function::Write);
        tally.join(&Tally {
            differences: 1,
            ..Tally::default()
        });
        assert!(!tally.is_good(&[Function::Write]));
    }
}
