//! Raw numbers and lists for a call: likely ones, and odd ones.

use crate::carried::{Carried, PROVED_LEFT_OUT};
use plain::book::{Book, Number, COMPONENTS, IMPLEMENTATIONS, VERSIONS};
use plain::random::Random;

/// A number at or above the limit, or one that is below it once its upper bits are cut off.
pub fn above(random: &mut Random, limit: Number) -> usize {
    let limit = limit as usize;
    let below = random.below(limit);
    let numbers = [
        limit,
        limit,
        limit + 1,
        2 * limit + below,
        256 + below,
        PROVED_LEFT_OUT,
        (1 << 16) + below,
        (1 << 32) + below,
        (1 << 63) + below,
        usize::MAX,
    ];
    random.pick(&numbers).unwrap_or(limit).max(limit)
}

/// Any number: mostly below the limit.
pub fn any(random: &mut Random, limit: Number) -> usize {
    match random.chance(75) {
        true => random.below(limit as usize),
        false => above(random, limit),
    }
}

/// Empties the list, drops, doubles, changes or puts in an item.
fn spoil_list<T: Clone>(random: &mut Random, list: &mut Vec<T>, item: T) {
    let place = random.below(list.len());
    match (random.below(6), list.get(place).cloned()) {
        (0, _) => list.clear(),
        (1, Some(_)) => drop(list.remove(place)),
        (2, Some(held)) => list.push(held),
        (3 | 4, Some(_)) => list[place] = item,
        _ => list.insert(place, item),
    }
}

/// Changes one to three numbers or lists of what the call carries: which of two questions comes first shows where both say no.
pub fn spoil(random: &mut Random, carried: &mut Carried) {
    for _ in 0..random.between(1, 3) {
        spoil_one(random, carried);
    }
}

fn spoil_one(random: &mut Random, carried: &mut Carried) {
    let component = any(random, COMPONENTS);
    let version = any(random, VERSIONS);
    match random.below(14) {
        0 => carried.c = above(random, COMPONENTS),
        1 => carried.v = above(random, VERSIONS),
        2 => carried.i = above(random, IMPLEMENTATIONS),
        3 => carried.set ^= random.bits() & random.bits(),
        4 => spoil_list(random, &mut carried.usable, component),
        5 => spoil_list(random, &mut carried.versions, version),
        6 => {
            // Lengths of compositions, or implementations.
            let length = random.pick(&[0, 1, 2, 3, 255, 256, 1 << 63, usize::MAX]).unwrap_or(0);
            spoil_list(random, &mut carried.lengths, length);
        }
        7 => spoil_list(random, &mut carried.members, component),
        8 => spoil_list(random, &mut carried.chosen, version),
        9 => spoil_list(random, &mut carried.chosen, PROVED_LEFT_OUT),
        10 => {
            let set = random.bits() & random.bits() & random.bits();
            spoil_list(random, &mut carried.required, set);
        }
        11 => {
            carried.members.push(component);
            carried.chosen.push(version);
        }
        12 => carried.c = any(random, COMPONENTS),
        _ => carried.v = any(random, VERSIONS),
    }
}

fn wide(numbers: impl Iterator<Item = Number>) -> Vec<usize> {
    numbers.map(|number| number as usize).collect()
}

/// One of the numbers, or any below the limit.
fn one_of(random: &mut Random, numbers: &[usize], limit: Number) -> usize {
    let other = random.below(limit as usize);
    random.pick(numbers).filter(|_| !random.chance(8)).unwrap_or(other)
}

/// Few facilities.
fn few(random: &mut Random) -> u64 {
    random.bits() & random.bits() & random.bits() & random.bits()
}

/// The components that a command of the kind is likely to be accepted for.
fn likely_components(book: &Book, kind: usize) -> Vec<usize> {
    let wanted = |component: &Number| match kind {
        0 => !book.is_specified(*component),
        1 | 2 => book.is_specified(*component) && !book.is_defined(*component),
        3 | 6 | 8 => book.is_module(*component),
        4 | 7 | 9 => book.is_system(*component),
        _ => book.is_specified(*component),
    };
    wide((0..COMPONENTS).filter(wanted))
}

/// A call of the kind that a book may well accept.
pub fn likely(random: &mut Random, book: &Book, kind: usize) -> Carried {
    let c = one_of(random, &likely_components(book, kind), COMPONENTS);
    let specification = book.specifications.get(&(c as Number));
    let held = wide(specification.into_iter().flat_map(|s| s.versions.keys().copied()));
    let numbers: Vec<usize> = (0..VERSIONS as usize).collect();
    let mut carried = Carried { kind, c, set: few(random), ..Carried::default() };
    carried.i = random.below(IMPLEMENTATIONS as usize);
    carried.versions = held.clone();
    carried.v = one_of(random, &held, VERSIONS);
    match kind {
        0 => {
            let most = random.between(1, 4);
            carried.versions = random.some(&numbers, most);
            let required = |_: &usize| few(random) & !carried.set;
            carried.required = carried.versions.iter().map(required).collect();
            carried.v = one_of(random, &carried.versions, VERSIONS);
        }
        1 => {
            let implementation = |_: &usize| random.below(IMPLEMENTATIONS as usize);
            carried.lengths = held.iter().map(implementation).collect();
        }
        2 => compose(random, book, &mut carried),
        3 | 4 => {
            carried.v = random.below(VERSIONS as usize);
            let system = book.systems.get(&(c as Number));
            let composition = system.and_then(|system| system.compositions.values().next());
            for (member, version) in composition.into_iter().flatten() {
                carried.members.push(*member as usize);
                carried.chosen.push(*version as usize);
            }
        }
        _ => {}
    }
    carried
}

/// Some specified components as usable ones, all of them in the composition of each version.
fn compose(random: &mut Random, book: &Book, carried: &mut Carried) {
    let specified = wide(book.specifications.keys().copied());
    let most = random.between(1, 4);
    carried.usable = random.some(&specified, most);
    carried.lengths = carried.versions.iter().map(|_| carried.usable.len()).collect();
    for _ in 0..carried.versions.len() {
        carried.members.extend(&carried.usable);
    }
    carried.chosen = vec![PROVED_LEFT_OUT; carried.members.len()];
}
