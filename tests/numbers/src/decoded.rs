//! The plain book that two arrays mean, by crates/book/specs/Layout.antt, and what document 01's question for 25 says of it.

use crate::raw::{Raw, FREE, IMPLEMENTATION, MEMBERS, MEMBER_VERSION, REQUIRES, STANDARD};
use crate::raw::{USABLE, VERSION};
use plain::book::{facilities, Book, Composition, Number, Specification, System, COMPONENTS};
use std::collections::{BTreeMap, BTreeSet};

/// The kinds of a component.
pub const UNSPECIFIED: u8 = 0;
pub const UNDEFINED: u8 = 1;
pub const MODULE: u8 = 2;
pub const SYSTEM: u8 = 3;
/// How many slots for versions a component has.
pub const SLOTS: usize = 8;

/// A plain book, and what the arrays hold that it has no place for.
pub struct Decoded {
    pub book: Book,
    /// A kind that stands for nothing: a number beyond its limit.
    pub unknown_kind: bool,
    /// A version that stands in two slots of a component.
    pub version_twice: bool,
}

/// The numbers of a set.
fn numbers(set: u64) -> BTreeSet<Number> {
    facilities(set)
}

/// The places of the slots of a component that are not free, each with its version.
pub fn places(raw: &Raw, c: usize) -> Vec<(usize, Number)> {
    let places = (c * SLOTS..(c + 1) * SLOTS).map(|i| (i, raw.numbers[VERSION + i]));
    places.filter(|(_, v)| *v != FREE).map(|(i, v)| (i, Number::from(v))).collect()
}

/// What stands at the lowest place of each version.
fn by_version<T>(places: &[(usize, Number)], at: impl Fn(usize) -> T) -> BTreeMap<Number, T> {
    places.iter().rev().map(|(i, version)| (*version, at(*i))).collect()
}

fn composition(raw: &Raw, i: usize) -> Composition {
    // A member beyond the limit has no version of its own.
    let version = |m: Number| match m < COMPONENTS {
        true => Number::from(raw.numbers[MEMBER_VERSION + i * 32 + m as usize]),
        false => 0,
    };
    numbers(raw.sets[MEMBERS + i]).into_iter().map(|m| (m, version(m))).collect()
}

impl Decoded {
    pub fn of(raw: &Raw) -> Decoded {
        let book = Book::default();
        let mut decoded = Decoded { book, unknown_kind: false, version_twice: false };
        for c in 0..32 {
            if raw.numbers[c] != UNSPECIFIED {
                decoded.specify(raw, c);
            }
        }
        decoded
    }

    /// A component that is specified, and its definition.
    fn specify(&mut self, raw: &Raw, c: usize) {
        let (component, places) = (c as Number, places(raw, c));
        let specification = Specification {
            provides: facilities(raw.sets[c]),
            versions: by_version(&places, |i| facilities(raw.sets[REQUIRES + i])),
            standard: Number::from(raw.numbers[STANDARD + c]),
        };
        self.version_twice |= specification.versions.len() < places.len();
        self.book.specifications.insert(component, specification);
        match raw.numbers[c] {
            MODULE => {
                let implementation = |i: usize| Number::from(raw.numbers[IMPLEMENTATION + i]);
                self.book.modules.insert(component, by_version(&places, implementation));
            }
            SYSTEM => {
                let usable = numbers(raw.sets[USABLE + c]);
                let compositions = by_version(&places, |i| composition(raw, i));
                self.book.systems.insert(component, System { usable, compositions });
            }
            kind => self.unknown_kind |= kind != UNDEFINED,
        }
    }

    /// The question for 25: "are its numbers below their limits, has each specified component 1 to 8 different versions, and do B1 to B9
    /// hold?"
    pub fn is_sound(&self) -> bool {
        !self.unknown_kind && !self.version_twice && self.book.is_sound()
    }

    /// Each part of the question that gets a no.
    pub fn noes(&self) -> Vec<&'static str> {
        let book = &self.book;
        let needs = book.all_needs();
        let asked = [
            ("a kind", !self.unknown_kind),
            ("a limit", book.below_limits()),
            ("a version twice", !self.version_twice),
            ("1 to 8 versions", book.version_counts_fit()),
            ("B1", book.b1()),
            ("B2", book.b2()),
            ("B3", book.b3()),
            ("B4", book.b4()),
            ("B5", book.b5()),
            ("B6", book.b6()),
            ("B7", book.b7(&needs)),
            ("B8", book.b8()),
            ("B9", book.b9(&needs)),
        ];
        asked.iter().filter(|(_, yes)| !yes).map(|(part, _)| *part).collect()
    }
}
