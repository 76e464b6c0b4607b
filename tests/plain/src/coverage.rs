//! How often each command got each answer.

use crate::book::{number_of, Book, Number};
use crate::calls::Call;
use crate::generate::{generate, Kind};
use crate::session::watched;
use std::collections::BTreeMap;

/// The slice lent to each session.
const SLICE: usize = 65_536;

/// Counts over some generated texts.
#[derive(Clone, Debug, Default)]
pub struct Coverage {
    /// How often a command, by its word, got an answer.
    pub answers: BTreeMap<(String, Number), usize>,
    /// How many texts gave 22.
    pub too_long: usize,
    /// How many parts lists were as deep, over the books reached.
    pub depths: BTreeMap<usize, usize>,
}

impl Coverage {
    fn count(&mut self, word: &str, answer: Number) {
        *self.answers.entry((word.to_string(), answer)).or_default() += 1;
    }

    /// The parts lists of the book reached.
    fn count_depths(&mut self, book: &Book) {
        for (component, version) in book.pairs() {
            if let Ok(parts) = book.parts(component, version, usize::MAX) {
                *self.depths.entry(parts.depth).or_default() += 1;
            }
        }
    }

    fn add_session(&mut self, text: &[u8]) {
        let outcome = watched(text, SLICE, |word, answer| self.count(word, answer));
        if outcome.listing.is_err() {
            self.too_long += 1;
        }
        self.count_depths(&outcome.book);
    }

    fn add_calls(&mut self, lines: &str) {
        let mut book = Book::default();
        for call in lines.lines().filter_map(Call::read) {
            let answer = number_of(call.perform(&mut book));
            self.count(call.word(), answer);
        }
        self.count_depths(&book);
    }

    /// A line for each command: its word, then each answer with its count.
    pub fn table(&self) -> String {
        let mut lines: BTreeMap<&str, String> = BTreeMap::new();
        for ((word, answer), count) in &self.answers {
            *lines.entry(word).or_default() += &format!(" {answer}:{count}");
        }
        let mut table = String::new();
        for (word, answers) in lines {
            table += &format!("{word:<11}{answers}\n");
        }
        table += &format!("sessions giving 22: {}\n", self.too_long);
        table += "parts lists by longest chain:";
        for (depth, count) in &self.depths {
            table += &format!(" {depth}:{count}");
        }
        table + "\n"
    }
}

/// The counts over the texts of so many seeds, from the first one on.
pub fn coverage(kind: Kind, seed: u64, count: u64) -> Coverage {
    let mut coverage = Coverage::default();
    for seed in seed..seed.saturating_add(count) {
        let text = generate(kind, seed, None);
        match kind {
            Kind::Calls => coverage.add_calls(&String::from_utf8_lossy(&text)),
            _ => coverage.add_session(&text),
        }
    }
    coverage
}
