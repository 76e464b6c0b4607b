//! The proved functions of crate `bench_host`, called on memory that is looked at afterwards.

use crate::carried::Carried;
use crate::exports::{version_book_call, version_book_choice, version_book_parts};
use crate::exports::{version_book_query, version_book_test};
use crate::lent::Lent;
use crate::raw::Raw;
use plain::book::Number;

/// The longest list and the longest slice that are lent.
const MOST: usize = 4096;

/// What a call was found wrong at.
pub type Checked<T = ()> = Result<T, String>;

/// Rows in a slice: the answer, how many there are said to be, and the slice after the call.
#[derive(Debug, PartialEq, Eq)]
pub struct Listing {
    pub answer: Number,
    pub rows: usize,
    pub slice: Vec<u16>,
}

/// The memory that is lent, and the Book in it.
pub struct Host {
    book: Raw,
    sets: Lent<u64>,
    numbers: Lent<u8>,
    usable: Lent<usize>,
    versions: Lent<usize>,
    lengths: Lent<usize>,
    members: Lent<usize>,
    chosen: Lent<usize>,
    required: Lent<u64>,
    next_sets: Lent<u64>,
    next_numbers: Lent<u8>,
    found: Lent<u64>,
    out: Lent<u16>,
    rows: Lent<usize>,
    depth: Lent<usize>,
}

/// The one number that a call wrote.
fn number<T: Copy + PartialEq + From<u8>>(lent: &mut Lent<T>) -> Checked<T> {
    let written = lent.written().ok_or("something beside a number is written")?;
    Ok(written[0])
}

impl Host {
    pub fn new() -> Self {
        Host {
            book: Raw::empty(),
            sets: Lent::new(MOST),
            numbers: Lent::new(2 * MOST + 1024),
            usable: Lent::new(MOST),
            versions: Lent::new(MOST),
            lengths: Lent::new(MOST),
            members: Lent::new(MOST),
            chosen: Lent::new(MOST),
            required: Lent::new(MOST),
            next_sets: Lent::new(MOST),
            next_numbers: Lent::new(2 * MOST + 1024),
            found: Lent::new(1),
            out: Lent::new(MOST),
            rows: Lent::new(1),
            depth: Lent::new(1),
        }
    }

    /// Lends the Book to the calls that follow.
    pub fn lend(&mut self, book: &Raw) {
        self.book = book.clone();
    }

    fn lent_book(&mut self) -> (*const u64, *const u8) {
        (self.sets.lend_to_read(&self.book.sets), self.numbers.lend_to_read(&self.book.numbers))
    }

    /// The two arrays hold what they held before the call.
    fn untouched(&mut self) -> Checked {
        match self.sets.holds(&self.book.sets) && self.numbers.holds(&self.book.numbers) {
            true => Ok(()),
            false => Err("the Book that is lent is written to".to_string()),
        }
    }

    /// The test for 25.
    pub fn test(&mut self) -> Checked<bool> {
        let (sets, numbers) = self.lent_book();
        // SAFETY: the two arrays are lent for the call. The checks here look for what it touches.
        let passes = unsafe { version_book_test(sets, numbers) };
        self.untouched()?;
        Ok(passes)
    }

    /// A call of one of the ten commands: the answer, and the Book handed back.
    pub fn call(&mut self, carried: &Carried) -> Checked<(Number, Raw)> {
        let (sets, numbers) = self.lent_book();
        // SAFETY: the arrays and slices are lent for the call, with their lengths.
        let answer = unsafe {
            version_book_call(
                sets,
                numbers,
                carried.kind,
                carried.c,
                carried.v,
                carried.i,
                carried.set,
                self.usable.lend_to_read(&carried.usable),
                carried.usable.len(),
                self.versions.lend_to_read(&carried.versions),
                carried.versions.len(),
                self.lengths.lend_to_read(&carried.lengths),
                carried.lengths.len(),
                self.members.lend_to_read(&carried.members),
                carried.members.len(),
                self.chosen.lend_to_read(&carried.chosen),
                carried.chosen.len(),
                self.required.lend_to_read(&carried.required),
                carried.required.len(),
                self.next_sets.lend_to_write(self.book.sets.len()),
                self.next_numbers.lend_to_write(self.book.numbers.len()),
            )
        };
        self.untouched()?;
        self.lists_untouched(carried)?;
        Ok((Number::from(answer), self.next()?))
    }

    /// The lists hold what they held before the call.
    fn lists_untouched(&mut self, carried: &Carried) -> Checked {
        let untouched = self.usable.holds(&carried.usable)
            && self.versions.holds(&carried.versions)
            && self.lengths.holds(&carried.lengths)
            && self.members.holds(&carried.members)
            && self.chosen.holds(&carried.chosen)
            && self.required.holds(&carried.required);
        match untouched {
            true => Ok(()),
            false => Err("a list that is lent is written to".to_string()),
        }
    }

    /// The Book that a call handed back.
    fn next(&mut self) -> Checked<Raw> {
        let beside = "something beside the Book is written";
        let mut next = Raw::empty();
        next.sets.copy_from_slice(self.next_sets.written().ok_or(beside)?);
        next.numbers.copy_from_slice(self.next_numbers.written().ok_or(beside)?);
        Ok(next)
    }

    /// A query of a number: the answer, and the number found.
    pub fn query(&mut self, kind: usize, c: usize, v: usize) -> Checked<(Number, u64)> {
        let (sets, numbers) = self.lent_book();
        // SAFETY: as above.
        let answer =
            unsafe { version_book_query(sets, numbers, kind, c, v, self.found.lend_to_write(1)) };
        self.untouched()?;
        Ok((Number::from(answer), number(&mut self.found)?))
    }

    /// What a call wrote into the slice that was lent to it.
    fn listing(&mut self, answer: u8) -> Checked<Listing> {
        self.untouched()?;
        let slice = self.out.written().ok_or("something beside the slice is written")?.to_vec();
        Ok(Listing { answer: Number::from(answer), rows: number(&mut self.rows)?, slice })
    }

    /// CHOICE, with a slice of so many places.
    pub fn choice(&mut self, wanted: u64, length: usize) -> Checked<Listing> {
        let (sets, numbers) = self.lent_book();
        let (out, rows) = (self.out.lend_to_write(length), self.rows.lend_to_write(1));
        // SAFETY: as above.
        let answer = unsafe { version_book_choice(sets, numbers, wanted, out, length, rows) };
        self.listing(answer)
    }

    /// The parts list of a pair, with a slice of so many places; and its depth.
    pub fn parts(&mut self, c: usize, v: usize, length: usize) -> Checked<(Listing, usize)> {
        let (sets, numbers) = self.lent_book();
        let (out, rows) = (self.out.lend_to_write(length), self.rows.lend_to_write(1));
        let depth = self.depth.lend_to_write(1);
        // SAFETY: as above.
        let answer = unsafe { version_book_parts(sets, numbers, c, v, out, length, rows, depth) };
        Ok((self.listing(answer)?, number(&mut self.depth)?))
    }
}
