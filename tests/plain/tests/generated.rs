//! Generated sessions and calls: reading back, what the answers reach, and
//! what holds of every book reached.

use plain::book::{Book, Facilities, Number, Pair, Specification, System};
use plain::calls::Call;
use plain::coverage::coverage;
use plain::generate::{generate, Kind};
use plain::session::{session, Outcome, Tables};
use plain::written;
use std::collections::BTreeSet;

/// Reading back: the written text is accepted by a fresh session, and the
/// book reached is written as the same text.
fn read_back(outcome: &Outcome) {
    let Ok(text) = written::text(&outcome.book, &outcome.tables, usize::MAX) else {
        panic!("the book of a session is written");
    };
    let again = session(&text, usize::MAX);
    let lines = text.iter().filter(|byte| **byte == b'\n').count();
    let accepted: String = (1..=lines).map(|number| format!("{number},0\n")).collect();
    assert_eq!(again.listing, Ok(accepted.into_bytes()));
    assert_eq!(written::text(&again.book, &again.tables, usize::MAX), Ok(text));
    assert_eq!(facts(&outcome.book, &outcome.tables), facts(&again.book, &again.tables));
}

/// Facts with their numbers replaced by names.
struct Facts<'a> {
    tables: &'a Tables,
    held: BTreeSet<Vec<String>>,
}

/// A number of a table.
enum Of {
    Component(Number),
    Version(Number),
    Facility(Number),
    Implementation(Number),
}

impl Facts<'_> {
    fn hold(&mut self, word: &str, numbers: &[Of]) {
        let name = |of: &Of| {
            String::from_utf8_lossy(match of {
                Of::Component(number) => self.tables.components.name(*number),
                Of::Version(number) => self.tables.versions.name(*number),
                Of::Facility(number) => self.tables.facilities.name(*number),
                Of::Implementation(number) => self.tables.implementations.name(*number),
            })
            .into_owned()
        };
        let mut fact = vec![word.to_string()];
        fact.extend(numbers.iter().map(name));
        self.held.insert(fact);
    }

    fn hold_specification(&mut self, c: Number, specification: &Specification) {
        self.hold("specified", &[Of::Component(c)]);
        self.hold("standard", &[Of::Component(c), Of::Version(specification.standard)]);
        for f in &specification.provides {
            self.hold("provides", &[Of::Component(c), Of::Facility(*f)]);
        }
        for (v, required) in &specification.versions {
            self.hold("version", &[Of::Component(c), Of::Version(*v)]);
            for f in required {
                self.hold("requires", &[Of::Component(c), Of::Version(*v), Of::Facility(*f)]);
            }
        }
    }

    fn hold_system(&mut self, c: Number, system: &System) {
        self.hold("system", &[Of::Component(c)]);
        for usable in &system.usable {
            self.hold("usable", &[Of::Component(c), Of::Component(*usable)]);
        }
        for (v, composition) in &system.compositions {
            self.hold("composed", &[Of::Component(c), Of::Version(*v)]);
            for (member, held) in composition {
                let (pair, member) = ((c, *v), (*member, *held));
                let numbers = [pair, member].map(|(c, v)| [Of::Component(c), Of::Version(v)]);
                self.hold("member", &numbers.into_iter().flatten().collect::<Vec<_>>());
            }
        }
    }
}

/// Every fact of the book by names.
fn facts(book: &Book, tables: &Tables) -> BTreeSet<Vec<String>> {
    let mut facts = Facts { tables, held: BTreeSet::new() };
    for (c, specification) in &book.specifications {
        facts.hold_specification(*c, specification);
    }
    for (c, module) in &book.modules {
        facts.hold("module", &[Of::Component(*c)]);
        for (v, i) in module {
            let numbers = [Of::Component(*c), Of::Version(*v), Of::Implementation(*i)];
            facts.hold("implemented", &numbers);
        }
    }
    for (c, system) in &book.systems {
        facts.hold_system(*c, system);
    }
    facts.held
}

#[test]
fn reading_back() {
    for kind in [Kind::Growing, Kind::Mixed, Kind::Full, Kind::Damaged] {
        for seed in 1000..1100 {
            read_back(&session(&generate(kind, seed, None), usize::MAX));
        }
    }
}

/// Different books have different texts: one more command changes the text
/// exactly where it changes a fact.
#[test]
fn equal_texts() {
    for seed in 2000..2040 {
        let text = generate(Kind::Growing, seed, Some(30));
        let mut known = Vec::new();
        for end in (0..text.len()).filter(|place| text[*place] == b'\n') {
            let reached = session(&text[..end], usize::MAX);
            let Ok(text) = written::text(&reached.book, &reached.tables, usize::MAX) else {
                panic!("the book of a session is written");
            };
            known.push((text, facts(&reached.book, &reached.tables)));
        }
        for pair in known.windows(2) {
            assert_eq!(pair[0].0 == pair[1].0, pair[0].1 == pair[1].1);
        }
    }
}

/// The answers that each command of a session can have.
const ANSWERS: [(&str, &[Number]); 20] = [
    ("spec", &[0, 3, 5, 12, 13, 24]),
    ("mod", &[0, 3, 4, 8, 9, 24]),
    ("sys", &[0, 3, 4, 8, 9, 16, 17, 19, 20, 21, 24]),
    ("delspec", &[0, 4, 18]),
    ("delmod", &[0, 6]),
    ("delsys", &[0, 7, 21]),
    ("modvar", &[0, 6, 11, 12, 13, 24]),
    ("sysvar", &[0, 3, 7, 11, 12, 21, 24]),
    ("delmodvar", &[0, 6, 10, 15, 18]),
    ("delsysvar", &[0, 7, 10, 15, 18]),
    ("supplies", &[0, 4]),
    ("needs", &[0, 4, 10]),
    ("choice", &[0]),
    ("standard", &[0, 4]),
    ("undefined", &[0]),
    ("unused", &[0]),
    ("whereused", &[0, 4]),
    ("parts", &[0, 4, 10]),
    ("out", &[0]),
    ("text", &[23]),
];

/// The answers that each call can have on a book reached by calls.
const CALL_ANSWERS: [(&str, &[Number]); 10] = [
    ("add-spec", &[0, 1, 2, 3, 5, 12, 13, 14]),
    ("add-mod", &[0, 1, 2, 3, 4, 8, 9]),
    ("add-sys", &[0, 1, 2, 3, 4, 8, 9, 16, 17, 19, 20, 21]),
    ("del-spec", &[0, 1, 4, 18]),
    ("del-mod", &[0, 1, 6]),
    ("del-sys", &[0, 1, 7, 21]),
    ("add-modvar", &[0, 1, 6, 11, 12, 13]),
    ("add-sysvar", &[0, 1, 2, 3, 7, 11, 12, 21]),
    ("del-modvar", &[0, 1, 6, 10, 15, 18]),
    ("del-sysvar", &[0, 1, 7, 10, 15, 18]),
];

fn expected(answers: &[(&str, &[Number])]) -> BTreeSet<(String, Number)> {
    let each = |(word, numbers): &(&str, &[Number])| -> Vec<(String, Number)> {
        numbers.iter().map(|number| (word.to_string(), *number)).collect()
    };
    answers.iter().flat_map(each).collect()
}

#[test]
fn sessions_reach_every_answer_and_no_other() {
    let mut reached = BTreeSet::new();
    let mut deepest = 0;
    for (kind, count) in
        [(Kind::Growing, 40), (Kind::Mixed, 150), (Kind::Full, 60), (Kind::Long, 4)]
    {
        let coverage = coverage(kind, 1, count);
        reached.extend(coverage.answers.into_keys());
        deepest = deepest.max(coverage.depths.keys().copied().max().unwrap_or(0));
    }
    assert_eq!(reached, expected(&ANSWERS));
    assert!(deepest >= 6);
}

#[test]
fn calls_reach_every_answer_and_no_other() {
    let coverage = coverage(Kind::Calls, 1, 100);
    let reached: BTreeSet<_> = coverage.answers.into_keys().collect();
    assert_eq!(reached, expected(&CALL_ANSWERS));
}

/// Needs without memory, straight from the lines 2.49 to 2.52.
fn needs(book: &Book, (component, version): Pair) -> Facilities {
    match book.systems.get(&component) {
        None => book.specifications[&component].versions[&version].clone(),
        Some(system) => {
            let members = system.compositions[&version].iter();
            members.flat_map(|(member, version)| needs(book, (*member, *version))).collect()
        }
    }
}

/// The longest chain from a pair, over all chains.
fn longest_chain(book: &Book, pair: Pair) -> usize {
    let chains = book.members(pair).into_iter().map(|member| longest_chain(book, member));
    1 + chains.max().unwrap_or(0)
}

/// What demand 3 says of the parts list of each stored version.
fn check_parts(book: &Book) {
    let pairs = book.pairs().count();
    for pair in book.pairs() {
        let parts = book.parts(pair.0, pair.1, pairs);
        let Ok(parts) = parts else {
            panic!("a slice with a row for each version is never too short");
        };
        assert!(parts.depth <= book.systems.len() + 1);
        assert_eq!(parts.depth, longest_chain(book, pair));
        assert_eq!(parts.rows.last(), Some(&pair));
        let mut listed = BTreeSet::new();
        for row in &parts.rows {
            assert!(book.members(*row).iter().all(|member| listed.contains(member)));
            assert!(listed.insert(*row));
            let held = |user: &Pair| book.members(*user).contains(row);
            assert!(row == &pair || parts.rows.iter().any(held));
        }
        assert_eq!(book.parts(pair.0, pair.1, parts.rows.len() - 1), Err(22));
        assert_eq!(book.needs(pair.0, pair.1), Ok(needs(book, pair)));
    }
}

#[test]
fn books_reached_by_calls() {
    for seed in 3000..3040 {
        let text = generate(Kind::Calls, seed, None);
        let text = String::from_utf8_lossy(&text);
        let mut book = Book::default();
        for line in text.lines() {
            let Some(call) = Call::read(line) else {
                panic!("a generated line is a call");
            };
            assert_eq!(call.line(), line);
            let before = book.clone();
            let answer = call.perform(&mut book);
            assert_eq!(answer.is_err(), book == before, "{line}");
            assert!(book.is_sound(), "{line}");
        }
        check_parts(&book);
    }
}

#[test]
fn books_reached_by_sessions() {
    for seed in 4000..4040 {
        check_parts(&session(&generate(Kind::Mixed, seed, None), usize::MAX).book);
    }
}

/// Any text gives a listing of rows from 1 on, or 22.
#[test]
fn any_bytes() {
    for seed in 0..2000 {
        let outcome = session(&generate(Kind::Bytes, seed, None), 65_536);
        let listing = outcome.listing.unwrap_or_default();
        assert!(listing.is_empty() || listing.starts_with(b"1,"));
    }
}

#[test]
fn long_texts() {
    for seed in 5000..5006 {
        let text = generate(Kind::Long, seed, None);
        assert!((62_000..=65_537).contains(&text.len()));
        let outcome = session(&text, 65_536);
        match &outcome.listing {
            Ok(listing) => assert!(listing.len() <= 65_536),
            Err(number) => assert_eq!((*number, outcome.book), (22, Book::default())),
        }
    }
}
