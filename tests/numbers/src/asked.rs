//! The queries, CHOICE and the parts lists of a Book beside those of the plain book.

use crate::host::{Checked, Host, Listing};
use crate::lent::marks;
use crate::met::Met;
use crate::odd;
use plain::book::{bits, Book, Number, Pair, COMPONENTS, VERSIONS};
use plain::random::Random;

/// A Book that is lent to the host, and what it is compared with.
pub struct Asked<'a> {
    pub host: &'a mut Host,
    /// The plain book; none where the Book is none, and every answer is 25.
    pub book: Option<&'a Book>,
    pub random: &'a mut Random,
    pub met: &'a mut Met,
}

/// What stands in a row of a slice.
fn row((component, version): &Pair) -> u16 {
    (*component * VERSIONS + *version) as u16
}

fn number(raw: usize) -> Number {
    Number::try_from(raw).unwrap_or(Number::MAX)
}

/// What a listing must be: the rows at the start of the slice, and the rest as it was.
fn listing(found: &Result<Vec<Pair>, Number>, length: usize) -> Listing {
    let mut slice = marks(length);
    match found {
        Ok(rows) => {
            let written = slice.iter_mut().zip(rows);
            written.for_each(|(place, pair)| *place = row(pair));
            Listing { answer: 0, rows: rows.len(), slice }
        }
        Err(answer) => Listing { answer: *answer, rows: 0, slice },
    }
}

fn same<T: PartialEq + std::fmt::Debug>(found: T, expected: T, what: &str) -> Checked {
    match found == expected {
        true => Ok(()),
        false => Err(format!("{what}: {found:?} stands for {expected:?}")),
    }
}

impl Asked<'_> {
    /// The plain book's reply to a query of a number, as a number.
    fn reply(&self, kind: usize, component: Number, version: Number) -> Result<u64, Number> {
        let book = self.book.ok_or(25u32)?;
        match kind {
            0 => book.supplies(component).map(|found| bits(&found)),
            1 => book.needs(component, version).map(|found| bits(&found)),
            2 => book.undefined().map(|found| bits(&found)),
            3 => book.unused().map(|found| bits(&found)),
            4 => book.whereused(component).map(|found| bits(&found)),
            _ => book.standard(component).map(u64::from),
        }
    }

    fn query(&mut self, kind: usize, c: usize, v: usize) -> Checked {
        let expected = match self.reply(kind, number(c), number(v)) {
            Ok(found) => (0, found),
            Err(answer) => (answer, 0),
        };
        self.met.query(kind, expected.0);
        same(self.host.query(kind, c, v)?, expected, &format!("query {kind} of {c}, {v}"))
    }

    /// The six queries: of these components, and of these versions of them.
    fn queries(&mut self, pairs: &[(usize, usize)]) -> Checked {
        self.query(2, usize::MAX, 0)?;
        self.query(3, 0, usize::MAX)?;
        for (c, v) in pairs {
            for kind in [0, 1, 4, 5] {
                self.query(kind, *c, *v)?;
            }
        }
        // Every other number stands for the last query.
        let (kind, c) = (self.random.pick(&[6, 256, 1 << 32, usize::MAX]), self.random.below(32));
        self.query(kind.unwrap_or(6), c, 0)
    }

    fn choice(&mut self, wanted: u64, length: usize) -> Checked<usize> {
        let found = match self.book {
            Some(book) => book.choice(wanted, length),
            None => Err(25),
        };
        let expected = listing(&found, length);
        self.met.choice(expected.answer);
        let what = format!("CHOICE of {wanted}, a slice of {length}");
        same(self.host.choice(wanted, length)?, expected, &what)?;
        Ok(found.map_or(0, |rows| rows.len()))
    }

    /// CHOICE of nothing, of what a component provides, of a part of that, and of any facilities.
    fn choices(&mut self) -> Checked {
        let specifications = self.book.into_iter().flat_map(|book| book.specifications.values());
        let provided: Vec<u64> = specifications.map(|s| bits(&s.provides)).collect();
        let one = self.random.pick(&provided).unwrap_or(0);
        for wanted in [0, one, one & self.random.bits(), self.random.bits()] {
            let rows = self.choice(wanted, 300)?;
            for length in lengths(rows) {
                self.choice(wanted, length)?;
            }
        }
        Ok(())
    }

    fn parts(&mut self, (c, v): (usize, usize), length: usize) -> Checked<usize> {
        let found = match self.book {
            Some(book) => book.parts(number(c), number(v), length),
            None => Err(25),
        };
        let (chain, most) = match (&found, self.book) {
            (Ok(list), Some(book)) => (list.depth, book.systems.len() + 1),
            _ => (0, 0),
        };
        let found = found.map(|list| list.rows);
        let expected = listing(&found, length);
        self.met.parts(expected.answer);
        let what = format!("parts of {c}, {v}, a slice of {length}");
        let (listed, depth) = self.host.parts(c, v, length)?;
        same(listed, expected, &what)?;
        match (chain..=most).contains(&depth) {
            true => Ok(found.map_or(0, |rows| rows.len())),
            false => Err(format!("{what}: a depth of {depth}, and not from {chain} to {most}")),
        }
    }

    /// The parts list of each of the pairs.
    fn parts_lists(&mut self, pairs: &[(usize, usize)]) -> Checked {
        for pair in pairs {
            let rows = self.parts(*pair, 300)?;
            for length in lengths(rows) {
                self.parts(*pair, length)?;
            }
        }
        Ok(())
    }

    /// Pairs of the book, at most so many, and some that are not there.
    fn pairs(&mut self, most: usize) -> Vec<(usize, usize)> {
        let held = self.book.map_or(Vec::new(), |book| book.pairs().collect());
        let held: Vec<(usize, usize)> =
            held.into_iter().map(|(c, v)| (c as usize, v as usize)).collect();
        let random = &mut *self.random;
        let mut pairs = random.some(&held, most);
        let (c, v) = random.pick(&held).unwrap_or((0, 0));
        pairs.extend([
            (odd::above(random, COMPONENTS), v),
            (c, odd::above(random, VERSIONS)),
            (c, odd::any(random, VERSIONS)),
            (odd::any(random, COMPONENTS), odd::any(random, VERSIONS)),
            (random.below(32), v),
        ]);
        pairs
    }

    /// Every query, CHOICE and parts lists, of so many pairs of the book at most and of others.
    pub fn all(&mut self, most: usize) -> Checked {
        let pairs = self.pairs(most);
        self.queries(&pairs)?;
        self.choices()?;
        self.parts_lists(&pairs)
    }
}

/// Slices that are too short, exactly long enough, and longer.
fn lengths(rows: usize) -> Vec<usize> {
    let mut lengths = vec![0, rows / 2, rows.saturating_sub(1), rows, rows + 1];
    lengths.dedup();
    lengths
}
