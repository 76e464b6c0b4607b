//! One text: the proved listing for slices of every length that matters, and its book read back.

use crate::host;
use crate::memory::Fenced;
use plain::language::Reader;
use plain::session::{session, Outcome};
use plain::written;

/// A written book has about a million bytes at most, and its listing little more.
const ROOM: usize = 1 << 22;
/// Bytes on both sides of the lent slice that must stay.
const GUARD: usize = 64;
/// The row of an "out" is not longer than this.
const LONGEST_ROW: usize = 24;

/// What a text was found wrong at.
pub type Checked = Result<(), String>;

/// Memory that texts and slices are lent from.
pub struct Checker {
    text: Fenced,
    slice: Fenced,
}

/// The bytes that the slice and its guards hold before the call; no two neighbours are equal, and none is 0.
fn before(place: usize) -> u8 {
    (place % 251) as u8 + 1
}

/// The lengths that are lent: none, one byte, and all around the listing's.
fn lengths(listing: usize) -> Vec<usize> {
    let mut lengths = vec![0, 1];
    lengths.extend(listing.saturating_sub(2)..=listing + 2);
    lengths.sort_unstable();
    lengths.dedup();
    lengths
}

/// The text as far as its commands are of the language, without a "quit" and what follows it.
fn good_part(text: &[u8]) -> &[u8] {
    let mut reader = Reader::new(text);
    let mut end = 0;
    while let Ok(Some(_)) = reader.command() {
        end = reader.position();
    }
    &text[..end]
}

/// The rows of so many accepted commands.
fn accepted(commands: usize) -> Vec<u8> {
    let rows = (1..=commands).map(|number| format!("{number},0\n"));
    rows.collect::<String>().into_bytes()
}

fn lines(text: &[u8]) -> usize {
    text.iter().filter(|byte| **byte == b'\n').count()
}

/// The place of the first difference, and both from there on.
fn difference(found: &[u8], expected: &[u8]) -> String {
    let both = found.iter().zip(expected);
    let place = both.take_while(|(left, right)| left == right).count();
    let from = |bytes: &[u8]| {
        let rest = &bytes[place..bytes.len().min(place + 60)];
        String::from_utf8_lossy(rest).into_owned()
    };
    format!("from byte {place} on {:?} stands for {:?}", from(found), from(expected))
}

impl Checker {
    pub fn new() -> Self {
        Checker { text: Fenced::new(ROOM), slice: Fenced::new(ROOM) }
    }

    /// The call on the text and a slice of so many bytes: the answer, and the slice with its guards afterwards.
    fn call(&mut self, text: &[u8], length: usize) -> (i32, &[u8]) {
        self.text.last(text.len()).copy_from_slice(text);
        let guarded = self.slice.last(length + 2 * GUARD);
        guarded.iter_mut().enumerate().for_each(|(place, byte)| *byte = before(place));
        let lent = &mut guarded[GUARD..GUARD + length];
        let answer = self.text.read_only(text.len(), |text| host::session(text, lent));
        (answer, guarded)
    }

    /// The listing fills the start of the slice and the rest is untouched; where it is longer, minus 22 and zeros. The guards stay.
    fn check_slice(&mut self, text: &[u8], length: usize, listing: &[u8]) -> Checked {
        let mut expected: Vec<u8> = (0..length + 2 * GUARD).map(before).collect();
        let lent = &mut expected[GUARD..GUARD + length];
        let answer = match lent.get_mut(..listing.len()) {
            Some(start) => {
                start.copy_from_slice(listing);
                listing.len() as i32
            }
            None => {
                lent.fill(0);
                -22
            }
        };
        let (given, guarded) = self.call(text, length);
        if given != answer {
            return Err(format!("a slice of {length} bytes: {given} stands for {answer}"));
        }
        if guarded != expected {
            let found = difference(guarded, &expected);
            return Err(format!("a slice of {length} bytes between guards of {GUARD}: {found}"));
        }
        Ok(())
    }

    /// The proved listing, in a slice of so many bytes that it must fit.
    fn listing(&mut self, text: &[u8], length: usize) -> Result<Vec<u8>, String> {
        let (answer, guarded) = self.call(text, length);
        match usize::try_from(answer) {
            Ok(answer) if answer <= length => Ok(guarded[GUARD..GUARD + answer].to_vec()),
            _ => Err(format!("a slice of {length} bytes: {answer}")),
        }
    }

    /// The text of the book that the proved session reaches: what follows the row of one more command, "out".
    fn book_text(&mut self, text: &[u8], length: usize) -> Result<Vec<u8>, String> {
        let good = good_part(text);
        let rows = self.listing(good, length)?;
        let listing = self.listing(&[good, b"\nout\n"].concat(), length)?;
        let Some(after) = listing.strip_prefix(rows.as_slice()) else {
            return Err(format!("out: {}", difference(&listing, &rows)));
        };
        let row = after.iter().position(|byte| *byte == b'\n').ok_or("out gives no row")?;
        let (row, written) = after.split_at(row + 1);
        if row.ends_with(b",0\n") {
            Ok(written.to_vec())
        } else {
            Err("out is refused".to_string())
        }
    }

    /// The text of the book reached, read into an empty session: all rows are 0, and its "out" is the same text.
    fn check_read_back(&mut self, text: &[u8], outcome: &Outcome, listing: usize) -> Checked {
        let plain = written::text(&outcome.book, &outcome.tables, usize::MAX);
        let plain = plain.map_err(|number| format!("the plain text is refused: {number}"))?;
        let written = self.book_text(text, listing + LONGEST_ROW + plain.len())?;
        if written != plain {
            return Err(format!("the book as text: {}", difference(&written, &plain)));
        }
        let expected = [accepted(lines(&written) + 1), plain].concat();
        let again = self.listing(&[written.as_slice(), b"out\n"].concat(), expected.len())?;
        if again != expected {
            return Err(format!("read back: {}", difference(&again, &expected)));
        }
        Ok(())
    }

    /// All of this for one text.
    pub fn check(&mut self, text: &[u8]) -> Checked {
        let outcome = session(text, usize::MAX);
        let listing = outcome.listing.as_deref().unwrap_or_default();
        for length in lengths(listing.len()) {
            self.check_slice(text, length, listing)?;
        }
        self.check_read_back(text, &outcome, listing.len())
    }
}
