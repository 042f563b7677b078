//! The options of the two runners: `--name number` and plain flags.

use std::collections::VecDeque;

/// What is left of a command line.
pub struct Options {
    words: VecDeque<String>,
}

impl Options {
    /// The words after the program's own name.
    pub fn of_command_line() -> Self {
        Self {
            words: std::env::args().skip(1).collect(),
        }
    }

    /// Takes the value of an option, if it is there.
    pub fn value(&mut self, name: &str) -> Result<Option<String>, String> {
        let Some(place) = self.words.iter().position(|word| word == name) else {
            return Ok(None);
        };
        self.words.remove(place);
        match self.words.remove(place) {
            Some(value) => Ok(Some(value)),
            None => Err(format!("{name} wants a value")),
        }
    }

    /// Takes the number of an option, or its default.
    pub fn number(&mut self, name: &str, default: u64) -> Result<u64, String> {
        match self.value(name)? {
            Some(value) => value
                .parse()
                .map_err(|_| format!("{name} wants a number, not {value}")),
            None => Ok(default),
        }
    }

    /// Takes a flag, if it is there.
    pub fn flag(&mut self, name: &str) -> bool {
        let place = self.words.iter().position(|word| word == name);
        place.and_then(|place| self.words.remove(place)).is_some()
    }

    /// Takes the next word that is left.
    pub fn word(&mut self) -> Option<String> {
        self.words.pop_front()
    }

    /// Refuses words that nothing took.
    pub fn finish(mut self) -> Result<(), String> {
        match self.word() {
            Some(word) => Err(format!("{word} is not known")),
            None => Ok(()),
        }
    }
}
