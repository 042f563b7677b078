//! Answers the cases of the program `cases`: standard input is its input, and
//! standard output what it is to print.
//!
//! Lines of a plan are put into two tables, and the lines of cases are asked
//! over these. Fields are parted by tabs; an ask is six numbers.
//!
//!     # TEXT                    nothing
//!     plan                      both tables are empty
//!     contact NUMBERS           put behind the words of the contacts; whole rows count
//!     range NUMBERS             the same of the ranges
//!     counts CONTACTS RANGES    that many rows count
//!     valid NAME                whether the tables are a plan
//!     light NAME CONTACT        the light time of a contact
//!     walk NAME ASK CONTACTS    the figures of a chain
//!     million NAME ASK          those of a chain of a million contacts
//!     route NAME ASK PLACES     the best chain, where so many places are lent
//!     places NAME ASK PLACES    the same, and every place afterwards

use std::io::{self, Read};

use second::plan::Plan;
use second::units::{ContactNo, WORDS};
use second::{route, walk, Ask, Figures, Refusal};

const BAD: &str = "bad line";

fn main() -> io::Result<()> {
    let mut input = String::new();
    io::stdin().read_to_string(&mut input)?;
    let mut tables = Tables::default();
    for line in input.lines() {
        if let Some(answer) = tables.take(line) {
            println!("{answer}");
        }
    }
    Ok(())
}

/// The two tables that are lent to a call.
#[derive(Default)]
struct Tables {
    contacts: Table,
    ranges: Table,
}

#[derive(Default)]
struct Table {
    words: Vec<u64>,
    count: u64,
}

impl Table {
    fn put(&mut self, numbers: &[u64]) {
        self.words.extend(numbers);
        self.count = (self.words.len() / WORDS) as u64;
    }
}

impl Tables {
    /// Takes a line: the answer of a case, and of what is no line at all.
    fn take(&mut self, line: &str) -> Option<String> {
        let fields: Vec<&str> = line.split('\t').collect();
        match fields[0] {
            "#" => None,
            "plan" => {
                *self = Self::default();
                None
            }
            "contact" | "range" | "counts" => match numbers(&fields[1..]) {
                Some(numbers) => self.change(fields[0], &numbers),
                None => Some(format!("\t{BAD}")),
            },
            _ => {
                let named = fields.len().min(2);
                let answer = numbers(&fields[named..])
                    .and_then(|numbers| self.answer(fields[0], &numbers))
                    .unwrap_or(BAD.to_string());
                Some(format!("{}\t{answer}", fields[..named].join("\t")))
            }
        }
    }

    /// Puts the numbers of a row, or the two counts.
    fn change(&mut self, word: &str, numbers: &[u64]) -> Option<String> {
        match (word, numbers) {
            ("contact", _) => self.contacts.put(numbers),
            ("range", _) => self.ranges.put(numbers),
            ("counts", &[contacts, ranges]) => {
                self.contacts.count = contacts;
                self.ranges.count = ranges;
            }
            _ => return Some(format!("\t{BAD}")),
        }
        None
    }

    /// What a call answers; none where it has no such numbers.
    fn answer(&self, call: &str, numbers: &[u64]) -> Option<String> {
        match (call, numbers) {
            ("valid", []) => Some(self.valid()),
            ("light", &[number]) => self.light(ContactNo(number)),
            ("walk", _) if numbers.len() >= 6 => {
                let (ask, chain) = numbers.split_at(6);
                Some(self.walk(ask, chain))
            }
            ("million", _) if numbers.len() == 6 => Some(self.walk(numbers, &million())),
            ("route" | "places", _) if numbers.len() == 7 => {
                let (ask, lent) = numbers.split_at(6);
                Some(self.route(ask, lent[0], call == "places"))
            }
            _ => None,
        }
    }

    fn plan(&self) -> Result<Plan, Refusal> {
        let Self { contacts, ranges } = self;
        Plan::of_tables(&contacts.words, contacts.count, &ranges.words, ranges.count)
    }

    fn valid(&self) -> String {
        match self.plan() {
            Ok(_) => "plan".to_string(),
            Err(_) => "no plan".to_string(),
        }
    }

    /// None where the number is no contact's that counts.
    fn light(&self, number: ContactNo) -> Option<String> {
        let row = number.row()?;
        if number.0 > self.contacts.count {
            return None;
        }
        let told = match self.plan() {
            Ok(plan) => match plan.light(&plan.contacts()[row]) {
                Some(light) => light.0.to_string(),
                None => "unranged".to_string(),
            },
            Err(_) => "no plan".to_string(),
        };
        Some(told)
    }

    fn walk(&self, ask: &[u64], chain: &[u64]) -> String {
        let Self { contacts, ranges } = self;
        let answer = walk(
            &contacts.words,
            contacts.count,
            &ranges.words,
            ranges.count,
            ask_of(ask),
            chain,
        );
        match answer {
            Ok(figures) => tabbed(&four(figures)),
            Err(why) => refused(why),
        }
    }

    /// The answer over so many places, and a line of these where they are
    /// shown. Before the call each has a number that no contact has.
    fn route(&self, ask: &[u64], lent: u64, shown: bool) -> String {
        let Self { contacts, ranges } = self;
        let mut places: Vec<u64> = (0..lent).map(|place| 1000 + place % 100).collect();
        let answer = route(
            &contacts.words,
            contacts.count,
            &ranges.words,
            ranges.count,
            ask_of(ask),
            &mut places,
        );
        let told = match answer {
            Ok(best) => {
                let mut told = four(best.figures).to_vec();
                told.push(best.count);
                told.extend(&places[..best.count as usize]);
                format!("route\t{}", tabbed(&told))
            }
            Err(why) => refused(why),
        };
        if shown {
            format!("{told}\nplaces\t{}", tabbed(&places))
        } else {
            told
        }
    }
}

/// The numbers that fields are; none where one is no number as lines have it.
fn numbers(fields: &[&str]) -> Option<Vec<u64>> {
    let number = |field: &&str| {
        let number: u64 = field.parse().ok()?;
        (number.to_string() == *field).then_some(number)
    };
    fields.iter().map(number).collect()
}

/// Contacts 1 and 2 in turn, and 3 at the end.
fn million() -> Vec<u64> {
    let mut chain = [1, 2].repeat(500_000);
    chain[999_999] = 3;
    chain
}

fn ask_of(numbers: &[u64]) -> Ask {
    Ask {
        source: numbers[0],
        destination: numbers[1],
        time: numbers[2],
        size: numbers[3],
        deadline: numbers[4],
        excluded: numbers[5],
    }
}

fn four(figures: Figures) -> [u64; 4] {
    [
        figures.delivery,
        figures.opens,
        figures.last_call,
        figures.room,
    ]
}

fn refused(why: Refusal) -> String {
    format!("refused\t{}\t{}", why.number, why.place)
}

fn tabbed(numbers: &[u64]) -> String {
    let words: Vec<String> = numbers.iter().map(u64::to_string).collect();
    words.join("\t")
}
