//! Books with bytes and sets changed: at random, and where something stands.

use crate::decoded::{places, MODULE, SLOTS, SYSTEM, UNSPECIFIED};
use crate::raw::{Raw, FREE, IMPLEMENTATION, MEMBERS, MEMBER_VERSION, REQUIRES, STANDARD};
use crate::raw::{USABLE, VERSION};
use plain::random::Random;

/// A Book changed.
pub fn changed(random: &mut Random, raw: &Raw) -> Raw {
    let mut wild = raw.clone();
    match random.below(20) {
        0 => anything(random, &mut wild),
        1 => sparse(random, &mut wild),
        2 | 3 => unmeant(random, &mut wild),
        4..=6 => exchange_slots(random, &mut wild),
        7..=10 => (0..random.between(1, 20)).for_each(|_| anywhere(random, &mut wild)),
        11..=15 => somewhere(random, &mut wild),
        16..=18 => (0..random.between(2, 3)).for_each(|_| somewhere(random, &mut wild)),
        _ => {
            unmeant(random, &mut wild);
            somewhere(random, &mut wild);
        }
    }
    wild
}

fn byte(random: &mut Random) -> u8 {
    random.bits() as u8
}

/// Random bits everywhere.
fn anything(random: &mut Random, raw: &mut Raw) {
    raw.sets.iter_mut().for_each(|set| *set = random.bits());
    raw.numbers.iter_mut().for_each(|number| *number = byte(random));
}

/// Few components, with random numbers that are mostly below their limits.
fn sparse(random: &mut Random, raw: &mut Raw) {
    raw.sets.iter_mut().for_each(|set| *set = random.bits() & random.bits() & 0x8001_0003);
    raw.numbers.iter_mut().for_each(|number| *number = byte(random) % 5);
    for c in 0..32 {
        raw.numbers[c] = random.below(40).saturating_sub(36) as u8;
        let versions = random.between(1, SLOTS);
        let slots = c * SLOTS..(c + 1) * SLOTS;
        for (j, i) in slots.enumerate() {
            raw.numbers[VERSION + i] = if j < versions { j as u8 } else { FREE };
        }
    }
}

/// One byte or one set, wherever it stands.
fn anywhere(random: &mut Random, raw: &mut Raw) {
    match random.chance(80) {
        true => raw.numbers[random.below(8768)] = byte(random),
        false => raw.sets[random.below(576)] ^= 1 << random.below(64),
    }
}

/// Random bits at every place that has no meaning: of components that are not specified, of slots that are free, of definitions of another
/// kind, of components that are no members.
fn unmeant(random: &mut Random, raw: &mut Raw) {
    for c in 0..32 {
        let kind = raw.numbers[c];
        if kind == UNSPECIFIED {
            raw.sets[c] = random.bits();
            raw.numbers[STANDARD + c] = byte(random);
        }
        if kind != SYSTEM {
            raw.sets[USABLE + c] = random.bits();
        }
        for i in c * SLOTS..(c + 1) * SLOTS {
            unmeant_at(random, raw, kind, i);
        }
    }
}

fn unmeant_at(random: &mut Random, raw: &mut Raw, kind: u8, i: usize) {
    let free = kind == UNSPECIFIED || raw.numbers[VERSION + i] == FREE;
    if kind == UNSPECIFIED {
        raw.numbers[VERSION + i] = byte(random);
    }
    if free {
        raw.sets[REQUIRES + i] = random.bits();
    }
    if free || kind != MODULE {
        raw.numbers[IMPLEMENTATION + i] = byte(random);
    }
    let composed = kind == SYSTEM && !free;
    let members = if composed { raw.sets[MEMBERS + i] } else { 0 };
    if !composed {
        raw.sets[MEMBERS + i] = random.bits();
    }
    for m in (0..32).filter(|m| members >> m & 1 == 0) {
        raw.numbers[MEMBER_VERSION + i * 32 + m] = byte(random);
    }
}

/// Two slots of a component exchanged, with all that stands in them: the same book.
fn exchange_slots(random: &mut Random, raw: &mut Raw) {
    let c = component(random, raw);
    let one = c * SLOTS + random.below(SLOTS);
    let other = c * SLOTS + random.below(SLOTS);
    raw.numbers.swap(VERSION + one, VERSION + other);
    raw.numbers.swap(IMPLEMENTATION + one, IMPLEMENTATION + other);
    raw.sets.swap(REQUIRES + one, REQUIRES + other);
    raw.sets.swap(MEMBERS + one, MEMBERS + other);
    for m in 0..32 {
        raw.numbers.swap(MEMBER_VERSION + one * 32 + m, MEMBER_VERSION + other * 32 + m);
    }
}

/// A component, mostly a specified one.
fn component(random: &mut Random, raw: &Raw) -> usize {
    let specified: Vec<usize> = (0..32).filter(|c| raw.numbers[*c] != UNSPECIFIED).collect();
    let other = random.below(32);
    random.pick(&specified).filter(|_| !random.chance(5)).unwrap_or(other)
}

/// A system, where there is one.
fn system(random: &mut Random, raw: &Raw) -> usize {
    let systems: Vec<usize> = (0..32).filter(|c| raw.numbers[*c] == SYSTEM).collect();
    random.pick(&systems).unwrap_or_else(|| component(random, raw))
}

/// The place of a slot of the component, mostly one that is not free.
fn slot(random: &mut Random, raw: &Raw, c: usize) -> usize {
    let used: Vec<usize> = places(raw, c).iter().map(|(i, _)| *i).collect();
    let other = c * SLOTS + random.below(SLOTS);
    random.pick(&used).filter(|_| !random.chance(10)).unwrap_or(other)
}

/// A version that the component has, or any byte.
fn version(random: &mut Random, raw: &Raw, c: usize) -> u8 {
    let i = slot(random, raw, c);
    let (held, other) = (raw.numbers[VERSION + i], byte(random));
    random.pick(&[held, held, held, FREE, FREE - 1, FREE + 1, other]).unwrap_or(held)
}

/// A facility, mostly one that a component provides.
fn facility(random: &mut Random, raw: &Raw) -> u32 {
    let provided = raw.sets[component(random, raw)];
    let facilities: Vec<u32> = (0..64).filter(|f| provided >> f & 1 == 1).collect();
    let other = random.below(64) as u32;
    random.pick(&facilities).unwrap_or(other)
}

/// The numbers of a set, as far as they are components.
fn components(set: u64) -> Vec<usize> {
    (0..32).filter(|c| set >> c & 1 == 1).collect()
}

/// A component as a bit of a set: one of the set's own, any other, or one beyond the limit.
fn bit(random: &mut Random, raw: &Raw, set: u64) -> u64 {
    let other = component(random, raw);
    match random.below(12) {
        0 => 1 << (32 + random.below(32)),
        1..=4 => 1 << other,
        _ => 1 << random.pick(&components(set)).unwrap_or(other),
    }
}

/// One thing that has a meaning.
fn somewhere(random: &mut Random, raw: &mut Raw) {
    let (c, s) = (component(random, raw), system(random, raw));
    let (i, k) = (slot(random, raw, c), slot(random, raw, s));
    match random.below(15) {
        0 => raw.numbers[c] = random.pick(&[0, 1, 2, 3, 4, 5, 255]).unwrap_or(0),
        1 | 2 => raw.numbers[VERSION + i] = version(random, raw, c),
        3 => raw.numbers[STANDARD + c] = version(random, raw, c),
        4 => raw.numbers[IMPLEMENTATION + i] = byte(random),
        5 | 6 => {
            let members = components(raw.sets[MEMBERS + k]);
            let m = random.pick(&members).unwrap_or(random.below(32));
            raw.numbers[MEMBER_VERSION + k * 32 + m] = version(random, raw, m);
        }
        7 => raw.sets[c] ^= 1 << facility(random, raw),
        8 => raw.sets[s] ^= 1 << facility(random, raw),
        9 => raw.sets[REQUIRES + i] ^= 1 << facility(random, raw),
        10 | 11 => raw.sets[USABLE + s] ^= bit(random, raw, 0),
        12 | 13 => raw.sets[MEMBERS + k] ^= bit(random, raw, raw.sets[USABLE + s]),
        _ => {
            let set = random.pick(&[c, USABLE + s, REQUIRES + i, MEMBERS + k]).unwrap_or(c);
            raw.sets[set] = random.bits() & random.bits() & random.bits();
        }
    }
}
