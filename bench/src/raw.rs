//! A Book as its two arrays, in the layout of crates/book/specs/Layout.antt.

use plain::book::{bits, Book, Number};
use std::collections::BTreeSet;

pub const USABLE: usize = 32;
pub const REQUIRES: usize = 64;
pub const MEMBERS: usize = 320;
pub const STANDARD: usize = 32;
pub const VERSION: usize = 64;
pub const IMPLEMENTATION: usize = 320;
pub const MEMBER_VERSION: usize = 576;
pub const FREE: u8 = 64;

#[derive(Clone, PartialEq, Eq)]
pub struct Raw {
    pub sets: [u64; 576],
    pub numbers: [u8; 8768],
}

fn byte(number: Number) -> u8 {
    u8::try_from(number).expect("the books that are judged have numbers below 256")
}

fn kind(book: &Book, c: Number) -> u8 {
    match (book.is_module(c), book.is_system(c)) {
        (true, _) => 2,
        (_, true) => 3,
        _ => 1,
    }
}

fn members(numbers: impl Iterator<Item = Number>) -> u64 {
    bits(&numbers.collect::<BTreeSet<Number>>())
}

impl Raw {
    /// The empty Book.
    pub fn empty() -> Raw {
        Raw { sets: [0; 576], numbers: [0; 8768] }
    }

    /// The Book that holds the plain book.
    pub fn of(book: &Book) -> Raw {
        let mut raw = Raw::empty();
        for (component, specification) in &book.specifications {
            let c = *component as usize;
            raw.sets[c] = bits(&specification.provides);
            raw.numbers[c] = kind(book, *component);
            raw.numbers[STANDARD + c] = byte(specification.standard);
            raw.numbers[VERSION + c * 8..VERSION + c * 8 + 8].fill(FREE);
            for (j, (version, requires)) in specification.versions.iter().enumerate() {
                raw.numbers[VERSION + c * 8 + j] = byte(*version);
                raw.sets[REQUIRES + c * 8 + j] = bits(requires);
                raw.define(book, *component, *version, c * 8 + j);
            }
        }
        raw
    }

    /// The definition of a version, at its slot.
    fn define(&mut self, book: &Book, component: Number, version: Number, slot: usize) {
        if let Some(module) = book.modules.get(&component) {
            self.numbers[IMPLEMENTATION + slot] = byte(module[&version]);
        }
        if let Some(system) = book.systems.get(&component) {
            self.sets[USABLE + component as usize] = bits(&system.usable);
            let composition = &system.compositions[&version];
            self.sets[MEMBERS + slot] = members(composition.keys().copied());
            for (member, version) in composition {
                self.numbers[MEMBER_VERSION + slot * 32 + *member as usize] = byte(*version);
            }
        }
    }
}
