//! Which answers were met, and which Books: a comparison that met too little fails.

use plain::book::Number;
use std::collections::BTreeMap;

/// The ten commands in the order of their numbers, each with the answers that document 01's questions can give it.
pub const COMMANDS: [(&str, &[Number]); 10] = [
    ("ADD-SPEC", &[0, 1, 2, 3, 5, 12, 13, 14, 25]),
    ("ADD-MOD", &[0, 1, 2, 3, 4, 8, 9, 25]),
    ("ADD-SYS", &[0, 1, 2, 3, 4, 8, 9, 16, 17, 19, 20, 21, 25]),
    ("ADD-MODVAR", &[0, 1, 6, 11, 12, 13, 25]),
    ("ADD-SYSVAR", &[0, 1, 2, 3, 7, 11, 12, 21, 25]),
    ("DEL-SPEC", &[0, 1, 4, 18, 25]),
    ("DEL-MOD", &[0, 1, 6, 25]),
    ("DEL-SYS", &[0, 1, 7, 21, 25]),
    ("DEL-MODVAR", &[0, 1, 6, 10, 15, 18, 25]),
    ("DEL-SYSVAR", &[0, 1, 7, 10, 15, 18, 25]),
];

/// The queries in the order of their numbers, CHOICE and the parts list.
pub const QUERIES: [(&str, &[Number]); 8] = [
    ("SUPPLIES", &[0, 1, 4, 25]),
    ("NEEDS", &[0, 1, 4, 10, 25]),
    ("UNDEFINED", &[0, 25]),
    ("UNUSED", &[0, 25]),
    ("WHEREUSED", &[0, 1, 4, 25]),
    ("STANDARD", &[0, 1, 4, 25]),
    ("CHOICE", &[0, 22, 25]),
    ("parts", &[0, 1, 4, 10, 22, 25]),
];

/// The parts of the question for 25 that can get the only no. B3 is broken only where B5 or B8 is, and a component without a version has no
/// standard one (B1).
const ALONE: [&str; 11] =
    ["a kind", "a limit", "a version twice", "B1", "B2", "B4", "B5", "B6", "B7", "B8", "B9"];
const NEVER_ALONE: [&str; 2] = ["1 to 8 versions", "B3"];

/// Of the changed Books, so many of a hundred at least are books, and so many are not.
const LEAST: usize = 20;

/// What was met.
#[derive(Default)]
pub struct Met {
    /// How often a command or query got an answer.
    answers: BTreeMap<(&'static str, Number), usize>,
    /// How many changed Books are books, and how many are not.
    books: usize,
    no_books: usize,
    /// How many got a no at this part of the question for 25, and how many only there.
    noes: BTreeMap<&'static str, usize>,
    alone: BTreeMap<&'static str, usize>,
}

impl Met {
    pub fn command(&mut self, kind: usize, answer: Number) {
        *self.answers.entry((COMMANDS[kind.min(9)].0, answer)).or_default() += 1;
    }

    pub fn query(&mut self, kind: usize, answer: Number) {
        *self.answers.entry((QUERIES[kind.min(5)].0, answer)).or_default() += 1;
    }

    pub fn choice(&mut self, answer: Number) {
        *self.answers.entry((QUERIES[6].0, answer)).or_default() += 1;
    }

    pub fn parts(&mut self, answer: Number) {
        *self.answers.entry((QUERIES[7].0, answer)).or_default() += 1;
    }

    /// A changed Book, and the parts of the question for 25 that it gets a no at.
    pub fn changed(&mut self, noes: &[&'static str]) {
        match noes {
            [] => self.books += 1,
            _ => self.no_books += 1,
        }
        for part in noes {
            *self.noes.entry(part).or_default() += 1;
        }
        if let [part] = noes {
            *self.alone.entry(part).or_default() += 1;
        }
    }

    pub fn add(&mut self, other: Met) {
        for (key, count) in other.answers {
            *self.answers.entry(key).or_default() += count;
        }
        for (part, count) in other.noes {
            *self.noes.entry(part).or_default() += count;
        }
        for (part, count) in other.alone {
            *self.alone.entry(part).or_default() += count;
        }
        self.books += other.books;
        self.no_books += other.no_books;
    }

    /// What was met too seldom.
    pub fn missing(&self) -> Vec<String> {
        let mut missing = Vec::new();
        for (word, answers) in COMMANDS.into_iter().chain(QUERIES) {
            let unmet =
                answers.iter().filter(|answer| !self.answers.contains_key(&(word, **answer)));
            missing.extend(unmet.map(|answer| format!("{word} never got {answer}")));
        }
        let unmet = ALONE.iter().filter(|part| !self.alone.contains_key(*part));
        missing.extend(unmet.map(|part| format!("no changed Book broke only this: {part}")));
        let unmet = NEVER_ALONE.iter().filter(|part| !self.noes.contains_key(*part));
        missing.extend(unmet.map(|part| format!("no changed Book broke this: {part}")));
        let all = self.books + self.no_books;
        if all == 0 || self.books.min(self.no_books) * 100 < all * LEAST {
            missing.push(format!("of {all} changed Books {} are books", self.books));
        }
        missing
    }

    /// A line for each command and query, with its answers and how often each was met; and a line for the changed Books.
    pub fn table(&self) -> String {
        let mut table = String::new();
        for (word, answers) in COMMANDS.into_iter().chain(QUERIES) {
            let count = |answer: &Number| self.answers.get(&(word, *answer)).copied().unwrap_or(0);
            let counts = answers.iter().map(|answer| format!(" {answer}:{}", count(answer)));
            table += &format!("{word:<10}{}\n", counts.collect::<String>());
        }
        let all = self.books + self.no_books;
        table += &format!("{all} changed Books, {} of them books; the others broke", self.books);
        for (part, count) in &self.noes {
            let alone = self.alone.get(part).copied().unwrap_or(0);
            table += &format!(", {part} {count} times ({alone} alone)");
        }
        table + "\n"
    }
}
