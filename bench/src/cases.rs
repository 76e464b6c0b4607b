//! For each of the ten commands a call that is accepted, on the teaching book and on the full book. Where the book as
//! it stands has no place for the call, other accepted calls make room first.

use crate::books::{self, VERSIONS};
use plain::book::{Book, Number, Pair, LEFT_OUT};
use plain::calls::Call;

/// A book and a call that it accepts.
pub struct Case {
    pub book: Book,
    pub call: Call,
}

/// The case of a call after others, which are accepted too.
fn after(book: &Book, before: &[Call], call: Call) -> Case {
    let mut book = book.clone();
    for earlier in before {
        assert_eq!(earlier.perform(&mut book), Ok(()), "{} makes room", earlier.word());
    }
    Case { book, call }
}

/// The ten commands on document 01's example.
pub fn teaching() -> Vec<Case> {
    let book = books::teaching();
    let composition: Vec<Pair> = vec![(2, LEFT_OUT), (0, LEFT_OUT), (1, LEFT_OUT)];
    let (versions, implementations) = (vec![0], vec![0]);
    let module = Call::AddMod { component: 0, versions, implementations };
    let other = Call::AddSpec {
        component: 4,
        provides: 0b100,
        versions: vec![4],
        requires: vec![0],
        standard: 4,
    };
    let system = Call::AddSys {
        component: 4,
        usable: vec![2, 0, 1],
        versions: vec![4],
        compositions: vec![composition.clone()],
    };
    let module_version =
        Call::AddModvar { component: 0, version: 5, requires: 0, implementation: 1 };
    let system_version = Call::AddSysvar { component: 3, version: 5, composition };
    vec![
        after(&book, &[], other.clone()),
        after(&book, &[], module.clone()),
        after(&book, &[other], system),
        after(&book, &[module.clone()], module_version.clone()),
        after(&book, &[], system_version.clone()),
        after(&book, &[], Call::DelSpec(3)),
        after(&book, &[module.clone()], Call::DelMod(0)),
        after(&book, &[], Call::DelSys(3)),
        after(&book, &[module, module_version], Call::DelModvar(0, 5)),
        after(&book, &[system_version], Call::DelSysvar(3, 5)),
    ]
}

/// The ten commands on the full book: module 0 and system 31, or version 7 of them.
pub fn full() -> Vec<Case> {
    let book = books::layered(&VERSIONS);
    let unheld = books::with_instead(book.clone(), (0, 7), 0);
    let composition = |v: Number| -> Vec<Pair> { (27..31).map(|m| (m, v)).collect() };
    let specification = Call::AddSpec {
        component: 31,
        provides: 0b1000,
        versions: VERSIONS.to_vec(),
        requires: vec![0; 8],
        standard: 0,
    };
    let module = Call::AddMod {
        component: 0,
        versions: VERSIONS.to_vec(),
        implementations: VERSIONS.to_vec(),
    };
    let system = Call::AddSys {
        component: 31,
        usable: (27..31).collect(),
        versions: VERSIONS.to_vec(),
        compositions: VERSIONS.into_iter().map(composition).collect(),
    };
    let module_version =
        Call::AddModvar { component: 0, version: 7, requires: 0b1110, implementation: 7 };
    let system_version = Call::AddSysvar { component: 31, version: 7, composition: composition(7) };
    vec![
        after(&book, &[Call::DelSpec(31)], specification),
        after(&book, &[Call::DelMod(0)], module),
        after(&book, &[Call::DelSys(31)], system),
        after(&unheld, &[Call::DelModvar(0, 7)], module_version),
        after(&book, &[Call::DelSysvar(31, 7)], system_version),
        after(&book, &[], Call::DelSpec(31)),
        after(&book, &[], Call::DelMod(0)),
        after(&book, &[], Call::DelSys(31)),
        after(&unheld, &[], Call::DelModvar(0, 7)),
        after(&book, &[], Call::DelSysvar(31, 7)),
    ]
}
