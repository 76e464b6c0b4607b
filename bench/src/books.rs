//! The books that are judged, changed and read.

use plain::book::{facilities, Book, Composition, Number, Pair, Specification, System};
use std::collections::{BTreeMap, BTreeSet};

/// As many versions as a component may have.
pub const VERSIONS: [Number; 8] = [0, 1, 2, 3, 4, 5, 6, 7];

/// Component `c` with the versions, each requiring the same facilities; the first one is the standard version.
fn specify(book: &mut Book, c: Number, provides: u64, versions: &[Number], requires: u64) {
    let versions_of = versions.iter().map(|v| (*v, facilities(requires))).collect();
    let provides = facilities(provides);
    let specification = Specification { provides, versions: versions_of, standard: versions[0] };
    book.specifications.insert(c, specification);
}

/// Document 01's example: probe, valve, loop and tank.
pub fn teaching() -> Book {
    let mut book = Book::default();
    specify(&mut book, 0, 0b001, &[0], 0);
    specify(&mut book, 1, 0b010, &[1], 0b001);
    specify(&mut book, 2, 0b100, &[2], 0b011);
    specify(&mut book, 3, 0b100, &[3], 0);
    let composition: Composition = [(0, 0), (1, 1), (2, 2)].into();
    let usable: BTreeSet<Number> = [0, 1, 2].into();
    let compositions: BTreeMap<Number, Composition> = [(3, composition)].into();
    book.systems.insert(3, System { usable, compositions });
    book
}

/// Four modules provide a facility each and require the other three; each of 28 systems is made from the latest
/// providers of the four facilities, member `m` of version `v` of system `c` with version `member_version(c, v, m)`.
fn layered_by(versions: &[Number], member_version: fn(Number, Number, Number) -> Number) -> Book {
    let mut book = Book::default();
    for c in 0..4 {
        specify(&mut book, c, 1 << c, versions, 0b1111 ^ 1 << c);
        book.modules.insert(c, versions.iter().map(|v| (*v, *v)).collect());
    }
    for c in 4..32 {
        specify(&mut book, c, 1 << (c % 4), versions, 0);
        let members =
            |v: &Number| (*v, (c - 4..c).map(|m| (m, member_version(c, *v, m))).collect());
        let compositions = versions.iter().map(members).collect();
        book.systems.insert(c, System { usable: (c - 4..c).collect(), compositions });
    }
    book
}

/// The layered book in which each member has the system version's own number.
pub fn layered(versions: &[Number]) -> Book {
    layered_by(versions, |_, v, _| v)
}

/// The layered book with 8 versions, in which the member just before the system has the next version: one pair is
/// made from many versions of a component.
pub fn mixed() -> Book {
    layered_by(&VERSIONS, |c, v, m| if m + 1 == c { (v + 1) % 8 } else { v })
}

/// The book in which every composition that holds the pair holds the other version instead.
pub fn with_instead(mut book: Book, (component, version): Pair, other: Number) -> Book {
    let systems = book.systems.values_mut();
    for composition in systems.flat_map(|system| system.compositions.values_mut()) {
        if composition.get(&component) == Some(&version) {
            composition.insert(component, other);
        }
    }
    book
}
