//! Sessions made from seeds, shared out among the processors.

use crate::check::{Checked, Checker};
use crate::program;
use plain::generate::{generate, Kind};
use std::sync::atomic::{AtomicUsize, Ordering};

/// One session in so many goes through the program too.
const THROUGH_PROGRAM: usize = 12;
/// The kinds in turn; the long ones take a hundred times as long and come seldom.
const KINDS: [Kind; 8] = [
    Kind::Growing,
    Kind::Mixed,
    Kind::Damaged,
    Kind::Bytes,
    Kind::Growing,
    Kind::Mixed,
    Kind::Damaged,
    Kind::Full,
];
const LONG_EVERY: usize = 500;

/// The kind and the count of the session at a place.
fn kind_at(place: usize) -> (Kind, Option<usize>) {
    if place % LONG_EVERY == LONG_EVERY - 1 {
        return (Kind::Long, None);
    }
    let kind = KINDS[place % KINDS.len()];
    let count = match kind {
        Kind::Growing | Kind::Mixed => Some(4 + place % 67),
        Kind::Full => Some(20 + place % 31),
        _ => None,
    };
    (kind, count)
}

fn check_at(checker: &mut Checker, program: &str, seed: u64, place: usize) -> Checked {
    let (kind, count) = kind_at(place);
    let seed = seed + place as u64;
    let text = generate(kind, seed, count);
    let through = place.is_multiple_of(THROUGH_PROGRAM) || kind == Kind::Long;
    let checked = checker.check(&text).and_then(|()| match through {
        true => program::check(program, &text),
        false => Ok(()),
    });
    checked.map_err(|wrong| format!("{kind:?}, seed {seed}, count {count:?}: {wrong}"))
}

/// What is wrong with each of the sessions at the next places.
fn check_some(program: &str, seed: u64, count: usize, next: &AtomicUsize) -> Vec<String> {
    let mut checker = Checker::new();
    let mut wrong = Vec::new();
    loop {
        let place = next.fetch_add(1, Ordering::Relaxed);
        if place >= count {
            return wrong;
        }
        wrong.extend(check_at(&mut checker, program, seed, place).err());
    }
}

/// What is wrong with each of so many sessions.
pub fn check(program: &str, seed: u64, count: usize) -> Vec<String> {
    let next = AtomicUsize::new(0);
    let processors = std::thread::available_parallelism().map_or(1, usize::from);
    std::thread::scope(|scope| {
        let start = |_| scope.spawn(|| check_some(program, seed, count, &next));
        let running: Vec<_> = (0..processors).map(start).collect();
        running.into_iter().flat_map(|one| one.join().expect("the checks end")).collect()
    })
}
