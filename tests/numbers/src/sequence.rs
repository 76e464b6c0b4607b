//! Sequences of the ten calls beside the plain book, and changed Books on the way.

use crate::asked::Asked;
use crate::carried::Carried;
use crate::decoded::Decoded;
use crate::host::{Checked, Host};
use crate::met::Met;
use crate::raw::Raw;
use crate::{odd, said, wild};
use plain::book::{number_of, Book};
use plain::calls::Call;
use plain::generate::{generate, Kind};
use plain::random::Random;

/// The queries are asked, and changed Books are tried, after so many calls.
const EVERY: usize = 10;
/// How many changed Books are tried each time.
const CHANGED: usize = 3;
/// So many of a hundred calls have another before them with something spoiled.
const SPOILED: usize = 40;
/// Of so many pairs each time the parts lists are asked for; in the end, of all.
const PAIRS: usize = 5;

pub struct Sequence<'a> {
    host: &'a mut Host,
    met: &'a mut Met,
    random: Random,
    /// The Book as the last call handed it back, and the plain book.
    raw: Raw,
    book: Book,
}

impl<'a> Sequence<'a> {
    /// The sequence that begins with the empty Book.
    pub fn new(host: &'a mut Host, met: &'a mut Met, seed: u64) -> Self {
        let random = Random::new(!seed);
        Sequence { host, met, random, raw: Raw::empty(), book: Book::default() }
    }

    /// The sequence that begins with the Book of a book.
    pub fn from(mut self, raw: Raw, book: Book) -> Self {
        (self.raw, self.book) = (raw, book);
        self
    }

    /// One call: the answers are equal; refused, the Book comes back byte for byte; accepted, it holds what the plain book holds and passes
    /// the test for 25.
    fn call(&mut self, carried: &Carried) -> Checked {
        let answer = number_of(said::perform(carried, &mut self.book));
        self.met.command(carried.kind, answer);
        self.host.lend(&self.raw);
        let (given, next) = self.host.call(carried)?;
        if given != answer {
            return Err(format!("{given} stands for {answer}: {carried:?}"));
        }
        if answer != 0 {
            return match next == self.raw {
                true => Ok(()),
                false => Err(format!("{answer}, and another Book is handed back: {carried:?}")),
            };
        }
        self.raw = next;
        self.host.lend(&self.raw);
        let decoded = Decoded::of(&self.raw);
        if decoded.unknown_kind || decoded.version_twice || decoded.book != self.book {
            return Err(format!("the Book handed back holds something else: {carried:?}"));
        }
        match self.host.test()? {
            true => Ok(()),
            false => Err(format!("the Book handed back is none: {carried:?}")),
        }
    }

    /// The queries of the Book reached, and the parts lists of so many pairs at most.
    pub fn ask(&mut self, pairs: usize) -> Checked {
        self.host.lend(&self.raw);
        let (host, random, met) = (&mut *self.host, &mut self.random, &mut *self.met);
        Asked { host, book: Some(&self.book), random, met }.all(pairs)
    }

    /// A call of each of the ten commands, a few of them spoiled, and of no command's number.
    fn ten(&mut self, book: &Book) -> Vec<Carried> {
        let random = &mut self.random;
        let mut calls: Vec<Carried> = (0..10).map(|kind| odd::likely(random, book, kind)).collect();
        calls.push(odd::likely(random, book, 9));
        calls[10].kind = random.pick(&[10, 256, 1 << 32, usize::MAX]).unwrap_or(10);
        for call in &mut calls {
            if random.chance(20) {
                odd::spoil(random, call);
            }
        }
        calls
    }

    /// So often a call of each of the ten commands and a changed Book.
    pub fn go_on(&mut self, times: usize) -> Checked {
        for _ in 0..times {
            let book = self.book.clone();
            self.ten(&book).iter().try_for_each(|carried| self.call(carried))?;
            self.change(&[])?;
        }
        self.ask(PAIRS)
    }

    /// A changed Book: 25 exactly where the plain program's question says no; else it is as the plain book that it means.
    fn change(&mut self, then: &[Carried]) -> Checked {
        let raw = wild::changed(&mut self.random, &self.raw);
        let decoded = Decoded::of(&raw);
        let (sound, noes) = (decoded.is_sound(), decoded.noes());
        assert_eq!(sound, noes.is_empty(), "the question for 25 and its parts");
        self.met.changed(&noes);
        self.host.lend(&raw);
        let passes = self.host.test()?;
        if passes != sound {
            return Err(format!("a changed Book: {passes} stands for {sound} {noes:?}"));
        }
        let mut calls = self.ten(&decoded.book);
        calls.extend_from_slice(then);
        let wrong = match sound {
            true => self.as_book(raw, decoded.book, &calls),
            false => self.as_none(&raw, &calls),
        };
        wrong.map_err(|wrong| format!("a changed Book {noes:?}: {wrong}"))
    }

    /// The calls, each on the Book that the one before handed back, and the queries before and after them.
    fn as_book(&mut self, raw: Raw, book: Book, calls: &[Carried]) -> Checked {
        let random = Random::new(self.random.bits());
        let (host, met) = (&mut *self.host, &mut *self.met);
        let mut sequence = Sequence { host, met, random, raw, book };
        sequence.ask(1)?;
        for carried in calls {
            sequence.call(carried)?;
        }
        sequence.ask(1)
    }

    /// Every call and query answers 25, and the Book is handed back byte for byte.
    fn as_none(&mut self, raw: &Raw, calls: &[Carried]) -> Checked {
        self.host.lend(raw);
        for carried in calls {
            self.met.command(carried.kind, 25);
            let (given, next) = self.host.call(carried)?;
            if given != 25 || next != *raw {
                return Err(format!(
                    "{given} stands for 25, or another Book is handed back: {carried:?}"
                ));
            }
        }
        let (host, random, met) = (&mut *self.host, &mut self.random, &mut *self.met);
        Asked { host, book: None, random, met }.all(0)
    }

    /// The calls of a seed one after the other, some with a spoiled one before them; queries and changed Books between.
    pub fn run(&mut self, seed: u64, count: usize) -> Checked {
        let lines = generate(Kind::Calls, seed, Some(count));
        let lines = String::from_utf8_lossy(&lines).into_owned();
        let calls: Option<Vec<Call>> = lines.lines().map(Call::read).collect();
        let calls: Vec<Carried> =
            calls.ok_or("a line is no call")?.iter().map(Carried::of).collect();
        for (place, carried) in calls.iter().enumerate() {
            if self.random.chance(SPOILED) {
                let mut spoiled = carried.clone();
                odd::spoil(&mut self.random, &mut spoiled);
                self.call(&spoiled)?;
            }
            self.call(carried)?;
            if place % EVERY == EVERY - 1 {
                self.ask(PAIRS)?;
                let then = &calls[place + 1..calls.len().min(place + 4)];
                (0..CHANGED).try_for_each(|_| self.change(then))?;
            }
        }
        self.ask(usize::MAX)
    }
}
