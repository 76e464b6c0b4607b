//! What the numbers and lists of a call say to the plain program.

use crate::carried::{Carried, PROVED_LEFT_OUT};
use plain::book::{ask, Answer, Book, Number, Pair, LEFT_OUT};
use plain::calls::Call;

/// The number; one that the plain program's have no room for is another above every limit.
fn number(said: usize) -> Number {
    Number::try_from(said).map_or(LEFT_OUT - 1, |number| number.min(LEFT_OUT - 1))
}

fn all(said: &[usize]) -> Vec<Number> {
    said.iter().copied().map(number).collect()
}

/// Members with their versions; none where the lists have different lengths.
fn members(members: &[usize], versions: &[usize]) -> Option<Vec<Pair>> {
    let version = |said: usize| match said {
        PROVED_LEFT_OUT => LEFT_OUT,
        said => number(said),
    };
    let pairs = members.iter().zip(versions).map(|(m, v)| (number(*m), version(*v)));
    (members.len() == versions.len()).then(|| pairs.collect())
}

/// Compositions of these lengths, one after the other; none where they are not the list.
fn compositions(lengths: &[usize], mut list: &[Pair]) -> Option<Vec<Vec<Pair>>> {
    let mut compositions = Vec::new();
    for length in lengths {
        let (composition, rest) = list.split_at_checked(*length)?;
        compositions.push(composition.to_vec());
        list = rest;
    }
    list.is_empty().then_some(compositions)
}

/// The call; none where its lists don't belong together.
fn said(carried: &Carried) -> Option<Call> {
    let (component, version) = (number(carried.c), number(carried.v));
    Some(match carried.kind {
        0 => Call::AddSpec {
            component,
            provides: carried.set,
            versions: all(&carried.versions),
            requires: carried.required.clone(),
            standard: version,
        },
        1 => Call::AddMod {
            component,
            versions: all(&carried.versions),
            implementations: all(&carried.lengths),
        },
        2 => Call::AddSys {
            component,
            usable: all(&carried.usable),
            versions: all(&carried.versions),
            compositions: compositions(
                &carried.lengths,
                &members(&carried.members, &carried.chosen)?,
            )?,
        },
        3 => Call::AddModvar {
            component,
            version,
            requires: carried.set,
            implementation: number(carried.i),
        },
        4 => Call::AddSysvar {
            component,
            version,
            composition: members(&carried.members, &carried.chosen)?,
        },
        5 => Call::DelSpec(component),
        6 => Call::DelMod(component),
        7 => Call::DelSys(component),
        8 => Call::DelModvar(component, version),
        _ => Call::DelSysvar(component, version),
    })
}

/// The plain book's answer. Lists that don't belong together are a number that is not below its limit.
pub fn perform(carried: &Carried, book: &mut Book) -> Answer {
    match said(carried) {
        Some(call) => call.perform(book),
        None => ask(book.is_sound(), 25).and(Err(1)),
    }
}
