//! The ten commands and the queries with raw numbers, and the question for 25.

use plain::book::{facilities, number_of, Answer, Book, Number, Pair, LEFT_OUT};
use plain::calls::{self, Call};
use plain::session::session;
use plain::written;

const TEMP: u64 = 1;
const COOL: u64 = 2;
const HOLD: u64 = 4;
const SPARE: u64 = 1 << 63;

/// The teaching book: probe 0 with version 0, valve 1 with 1, loop 2 with 2,
/// tank 3 with 3.
fn k() -> Book {
    let mut book = Book::default();
    let answers = [
        book.add_spec(0, TEMP, &[0], &[0], 0),
        book.add_spec(1, COOL, &[1], &[TEMP], 1),
        book.add_spec(2, HOLD, &[2], &[TEMP | COOL], 2),
        book.add_spec(3, HOLD, &[3], &[0], 3),
        book.add_sys(3, &[2, 0, 1], &[3], &[vec![(2, LEFT_OUT), (0, LEFT_OUT), (1, LEFT_OUT)]]),
    ];
    assert_eq!(answers, [Ok(()); 5]);
    book
}

/// The command answers so on the teaching book; a refusal leaves it as it is.
fn check(expected: Number, command: impl Fn(&mut Book) -> Answer) {
    let mut book = k();
    assert_eq!(number_of(command(&mut book)), expected);
    assert_eq!(book == k(), expected != 0);
    assert!(book.is_sound());
}

/// A composition that leaves each version out.
fn of(members: &[Number]) -> Vec<Pair> {
    members.iter().map(|member| (*member, LEFT_OUT)).collect()
}

#[test]
fn numbers_below_their_limits() {
    check(1, |book| book.add_spec(32, 0, &[0], &[0], 0));
    check(1, |book| book.add_spec(4, 0, &[0, 64], &[0, 0], 0));
    check(1, |book| book.add_spec(4, 0, &[0], &[0], 64));
    check(1, |book| book.add_spec(4, 0, &[0], &[0], LEFT_OUT));
    check(0, |book| book.add_spec(31, u64::MAX, &[63], &[0], 63));
    check(1, |book| book.add_mod(40, &[0], &[0]));
    check(1, |book| book.add_mod(0, &[64], &[0]));
    check(1, |book| book.add_mod(0, &[0], &[256]));
    check(0, |book| book.add_mod(0, &[0], &[255]));
    check(1, |book| book.add_sys(32, &[0], &[0], &[of(&[0])]));
    check(1, |book| book.add_sys(3, &[32], &[3], &[of(&[0])]));
    check(1, |book| book.add_sys(3, &[0], &[64], &[of(&[0])]));
    check(1, |book| book.add_sys(3, &[0], &[3], &[of(&[32])]));
    check(1, |book| book.add_sys(3, &[0], &[3], &[vec![(0, 64)]]));
    check(1, |book| book.add_sys(3, &[0], &[3], &[vec![(0, LEFT_OUT - 1)]]));
    check(1, |book| book.add_modvar(0, 1, 0, 256));
    check(1, |book| book.add_modvar(0, 64, 0, 0));
    check(1, |book| book.add_modvar(32, 1, 0, 0));
    check(1, |book| book.add_sysvar(3, 64, &of(&[0])));
    check(1, |book| book.add_sysvar(3, 4, &[(0, 64)]));
    check(1, |book| book.add_sysvar(3, LEFT_OUT, &[]));
    check(1, |book| book.del_spec(32));
    check(1, |book| book.del_mod(32));
    check(1, |book| book.del_sys(Number::MAX));
    check(1, |book| book.del_modvar(0, 64));
    check(1, |book| book.del_sysvar(32, 0));
}

#[test]
fn queries_below_their_limits() {
    let book = k();
    assert_eq!(book.supplies(32), Err(1));
    assert_eq!(book.needs(0, 64), Err(1));
    assert_eq!(book.standard(40), Err(1));
    assert_eq!(book.whereused(32), Err(1));
    assert_eq!(book.parts(31, 64, 0), Err(1));
    assert_eq!(book.supplies(31), Err(4));
    assert_eq!(book.needs(0, 63), Err(10));
    assert_eq!(book.parts(3, 0, 0), Err(10));
}

#[test]
fn lists_that_belong_together() {
    check(1, |book| book.add_spec(4, 0, &[0], &[], 0));
    check(1, |book| book.add_spec(4, 0, &[], &[0], 0));
    check(1, |book| book.add_mod(0, &[0], &[0, 1]));
    check(1, |book| book.add_sys(3, &[0], &[], &[of(&[0])]));
    check(1, |book| book.add_sys(3, &[0], &[0], &[]));
}

#[test]
fn lists_that_are_empty() {
    check(2, |book| book.add_spec(4, 0, &[], &[], 0));
    check(2, |book| book.add_mod(4, &[], &[]));
    check(2, |book| book.add_sys(4, &[], &[], &[]));
    check(2, |book| book.add_sys(4, &[0, 0], &[5, 5], &[of(&[0]), vec![]]));
    check(2, |book| book.add_sysvar(4, 0, &[]));
}

#[test]
fn lists_with_a_number_twice() {
    check(3, |book| book.add_spec(0, 0, &[5, 5], &[0, 0], 5));
    check(3, |book| book.add_mod(9, &[5, 5], &[0, 0]));
    check(3, |book| book.add_sys(9, &[0], &[5, 5], &[of(&[0]), of(&[0])]));
    check(3, |book| book.add_sys(9, &[0, 0], &[5], &[of(&[0])]));
    check(3, |book| book.add_sys(9, &[0], &[5], &[vec![(0, 0), (0, LEFT_OUT)]]));
    check(3, |book| book.add_sysvar(9, 0, &[(0, 0), (0, 1)]));
}

#[test]
fn an_empty_usable_list() {
    let mut book = k();
    assert_eq!(book.del_sys(3), Ok(()));
    assert_eq!(book.add_sys(3, &[], &[3], &[of(&[2])]), Err(19));
    assert_eq!(book.add_spec(4, 0, &[0], &[0], 0), Ok(()));
    assert_eq!(book.add_sys(4, &[], &[0], &[of(&[2])]), Err(21));
}

#[test]
fn the_order_of_the_questions() {
    let nine: Vec<Number> = (0..9).collect();
    check(5, |book| book.add_spec(0, TEMP, &nine, &[TEMP; 9], 60));
    check(12, |book| book.add_spec(4, TEMP, &nine, &[TEMP; 9], 60));
    check(13, |book| book.add_spec(4, TEMP, &[0, 1], &[0, TEMP], 60));
    check(14, |book| book.add_spec(4, TEMP, &[0, 1], &[0, 0], 60));
    check(4, |book| book.add_mod(4, &[0], &[0]));
    check(8, |book| book.add_mod(3, &[0], &[0]));
    check(9, |book| book.add_mod(0, &[0, 1], &[0, 0]));
    check(8, |book| book.add_sys(3, &[4], &[0], &[of(&[4])]));
    check(9, |book| book.add_sys(1, &[4], &[0], &[of(&[4])]));
    check(16, |book| book.add_sys(1, &[4], &[1], &[of(&[4])]));
    check(17, |book| book.add_sys(0, &[4, 0], &[0], &[of(&[4])]));
    check(19, |book| book.add_sys(0, &[1], &[0], &[of(&[4])]));
    check(20, |book| book.add_sys(0, &[0], &[0], &[of(&[4])]));
    check(20, |book| book.add_sys(0, &[0, 3], &[0], &[of(&[3])]));
    check(6, |book| book.add_modvar(3, 3, u64::MAX, 0));
    check(7, |book| book.add_sysvar(0, 0, &of(&[9])));
    check(11, |book| book.add_sysvar(3, 3, &of(&[9])));
    check(21, |book| book.add_sysvar(3, 4, &of(&[9])));
    check(7, |book| book.del_sysvar(0, 5));
    check(10, |book| book.del_sysvar(3, 5));
    check(15, |book| book.del_sysvar(3, 3));
    check(4, |book| book.del_spec(9));
    check(18, |book| book.del_spec(0));
    check(0, |book| book.del_spec(3));
}

#[test]
fn versions_of_modules() {
    let mut book = k();
    assert_eq!(book.add_mod(0, &[0], &[7]), Ok(()));
    for version in 1..8 {
        assert_eq!(book.add_modvar(0, version, COOL, 7), Ok(()));
    }
    assert_eq!(book.add_modvar(0, 7, TEMP, 7), Err(11));
    assert_eq!(book.add_modvar(0, 8, TEMP, 7), Err(12));
    assert_eq!(book.del_modvar(0, 8), Err(10));
    assert_eq!(book.del_modvar(0, 0), Err(15));
    assert_eq!(book.del_modvar(0, 7), Ok(()));
    assert_eq!(book.add_modvar(0, 8, TEMP | COOL, 7), Err(13));
    assert_eq!(book.add_sysvar(3, 0, &[(2, 2), (0, 1), (1, 1)]), Ok(()));
    assert_eq!(book.del_modvar(0, 1), Err(18));
    assert_eq!(book.del_sysvar(3, 0), Ok(()));
    assert_eq!(book.del_modvar(0, 1), Ok(()));
    assert_eq!(book.del_mod(0), Ok(()));
    assert_eq!(book.version_count(0), 6);
    assert_eq!(book.del_mod(0), Err(6));
}

#[test]
fn versions_of_systems() {
    let mut book = k();
    let composition = of(&[0, 1, 2]);
    for version in 10..17 {
        assert_eq!(book.add_sysvar(3, version, &composition), Ok(()));
    }
    assert_eq!(book.add_sysvar(3, 16, &of(&[2])), Err(11));
    assert_eq!(book.add_sysvar(3, 17, &of(&[2])), Err(12));
    assert_eq!(book.add_spec(4, HOLD, &[0], &[0], 0), Ok(()));
    assert_eq!(book.add_sys(4, &[3, 0], &[0], &[vec![(3, 12), (0, 0)]]), Ok(()));
    assert_eq!(book.del_sysvar(3, 12), Err(18));
    assert_eq!(book.del_sysvar(3, 11), Ok(()));
    assert_eq!(book.needs(4, 0), Ok(facilities(TEMP | COOL)));
    assert_eq!(book.del_sys(3), Err(21));
}

/// What is changed in the teaching book, and a word for it.
type Change = (&'static str, fn(&mut Book));

const CHANGES: [Change; 27] = [
    ("a component", |book| {
        let specification = book.specifications[&0].clone();
        book.specifications.insert(32, specification);
    }),
    ("a facility provided", |book| change_spec(book, 2, |s| s.provides.insert(64))),
    ("a facility required", |book| {
        change_spec(book, 2, |s| s.versions.insert(0, [64].into()).is_none())
    }),
    ("a version", |book| change_spec(book, 2, |s| s.versions.insert(64, [].into()).is_none())),
    ("an implementation", |book| drop(book.modules.insert(2, [(2, 256)].into()))),
    ("a usable component", |book| change_system(book, |s| s.usable.insert(32))),
    ("no version", |book| change_spec(book, 2, |s| s.versions.remove(&2).is_some())),
    ("nine versions", |book| {
        change_spec(book, 2, |s| {
            s.versions.extend((10..18).map(|version| (version, [].into())));
            true
        });
    }),
    ("B1, own facility", |book| {
        change_spec(book, 2, |s| s.versions.insert(2, [2].into()).is_some())
    }),
    ("B1, standard", |book| {
        change_spec(book, 0, |s| {
            s.standard = 9;
            true
        })
    }),
    ("B2, a module unspecified", |book| drop(book.modules.insert(9, [(2, 0)].into()))),
    ("B2, a system unspecified", |book| {
        let system = book.systems[&3].clone();
        book.systems.insert(9, system);
    }),
    ("B2, usable unspecified", |book| change_system(book, |s| s.usable.insert(9))),
    ("B2, module and system", |book| drop(book.modules.insert(3, [(3, 0)].into()))),
    ("B2, a module's versions", |book| drop(book.modules.insert(0, [(0, 0), (1, 0)].into()))),
    ("B2, a module without version", |book| drop(book.modules.insert(0, [].into()))),
    ("B2, a system's versions", |book| {
        change_spec(book, 3, |s| s.versions.insert(9, [].into()).is_none())
    }),
    ("B2, a system's requirements", |book| {
        change_spec(book, 3, |s| s.versions.insert(3, [40].into()).is_some())
    }),
    ("B3", |book| change_spec(book, 3, |s| s.provides.insert(40))),
    ("B4, itself", |book| change_system(book, |s| s.usable.insert(3))),
    ("B5, no member", |book| {
        change_system(book, |s| s.compositions.insert(3, [].into()).is_some())
    }),
    ("B5, not usable", |book| change_system(book, |s| s.usable.remove(&1))),
    ("B5, a version", |book| {
        change_system(book, |s| s.compositions.insert(3, [(2, 2), (0, 0), (1, 2)].into()).is_some())
    }),
    ("B6", |book| change_spec(book, 1, |s| s.provides.insert(2))),
    ("B7", |book| change_spec(book, 2, |s| s.versions.insert(2, [0].into()).is_some())),
    ("B8", |book| {
        let mut specification = book.specifications[&0].clone();
        specification.provides = [40].into();
        book.specifications.insert(4, specification);
        change_spec(book, 3, |s| s.provides.insert(40));
        change_system(book, |s| s.usable.insert(4));
    }),
    ("B9", |book| {
        change_system(book, |s| s.compositions.insert(3, [(2, 2), (0, 0)].into()).is_some())
    }),
];

fn change_spec(
    book: &mut Book,
    component: Number,
    change: fn(&mut plain::book::Specification) -> bool,
) {
    let specification = book.specifications.get_mut(&component);
    assert!(specification.is_some_and(change));
}

fn change_system(book: &mut Book, change: fn(&mut plain::book::System) -> bool) {
    assert!(book.systems.get_mut(&3).is_some_and(change));
}

/// A call of each command, with a number that is not below its limit.
const CALLS: [Call; 10] = [
    Call::DelSpec(99),
    Call::DelMod(99),
    Call::DelSys(99),
    Call::DelModvar(99, 99),
    Call::DelSysvar(99, 99),
    Call::AddSysvar { component: 99, version: 99, composition: vec![] },
    Call::AddModvar { component: 99, version: 99, requires: 0, implementation: 999 },
    Call::AddSpec { component: 99, provides: 0, versions: vec![], requires: vec![], standard: 99 },
    Call::AddMod { component: 99, versions: vec![], implementations: vec![] },
    Call::AddSys { component: 99, usable: vec![], versions: vec![], compositions: vec![] },
];

/// Every call on a book that is not sound: 25 comes before 1.
#[test]
fn books_from_anywhere() {
    for (word, change) in CHANGES {
        let mut book = k();
        change(&mut book);
        let before = book.clone();
        for call in CALLS {
            assert_eq!(call.perform(&mut book), Err(25), "{word}");
        }
        assert_eq!(book, before);
        assert_eq!(book.supplies(99), Err(25), "{word}");
        assert_eq!(book.needs(99, 99), Err(25), "{word}");
        assert_eq!(book.choice(0, 0), Err(25), "{word}");
        assert_eq!(book.standard(99), Err(25), "{word}");
        assert_eq!(book.undefined(), Err(25), "{word}");
        assert_eq!(book.unused(), Err(25), "{word}");
        assert_eq!(book.whereused(99), Err(25), "{word}");
        assert_eq!(book.parts(99, 99, 0), Err(25), "{word}");
    }
    for call in CALLS {
        assert_eq!(call.perform(&mut k()), Err(1));
    }
}

/// Each of the rules by itself says no where only it is broken.
#[test]
fn rules_one_by_one() {
    for (word, change) in CHANGES {
        let mut book = k();
        change(&mut book);
        let needs = book.all_needs();
        let rules = [
            ("B1", book.b1()),
            ("B2", book.b2()),
            ("B3", book.b3()),
            ("B4", book.b4()),
            ("B5", book.b5()),
            ("B6", book.b6()),
            ("B7", book.b7(&needs)),
            ("B8", book.b8()),
            ("B9", book.b9(&needs)),
        ];
        for (rule, holds) in rules {
            assert!(!(holds && word.starts_with(rule)), "{word}");
        }
    }
}

#[test]
fn slices_for_rows() {
    let book = k();
    assert_eq!(book.choice(HOLD, 2), Ok(vec![(2, 2), (3, 3)]));
    assert_eq!(book.choice(HOLD, 1), Err(22));
    assert_eq!(book.choice(0, 4).map(|rows| rows.len()), Ok(4));
    assert_eq!(book.choice(SPARE, 0), Ok(vec![]));
    let parts = book.parts(3, 3, 4);
    assert_eq!(parts.as_ref().map(|p| p.depth), Ok(2));
    assert_eq!(parts.map(|p| p.rows), Ok(vec![(0, 0), (1, 1), (2, 2), (3, 3)]));
    assert_eq!(book.parts(3, 3, 3), Err(22));
    assert_eq!(book.parts(0, 0, 0), Err(22));
    assert_eq!(book.parts(0, 0, 1).map(|p| (p.rows, p.depth)), Ok((vec![(0, 0)], 1)));
}

#[test]
fn tables_for_text() {
    let text = b"spec a provides f; std v requires g end mod a; v impl \"i\" end";
    let outcome = session(text, usize::MAX);
    let (book, tables) = (outcome.book, outcome.tables);
    let written = b"spec a provides f; std v requires g end\nmod a; v impl \"i\" end\n";
    assert_eq!(written::text(&book, &tables, 62), Ok(written.to_vec()));
    assert_eq!(written::text(&book, &tables, 61), Err(22));
    let refused = |change: fn(&mut plain::session::Tables)| {
        let mut tables = tables.clone();
        change(&mut tables);
        assert_eq!(written::text(&book, &tables, 0), Err(25));
    };
    refused(|tables| drop(tables.components.places.remove(&0)));
    refused(|tables| drop(tables.versions.places.insert(0, b"end".to_vec())));
    refused(|tables| drop(tables.facilities.places.insert(1, b"-g".to_vec())));
    refused(|tables| drop(tables.facilities.places.remove(&1)));
    refused(|tables| drop(tables.implementations.places.insert(0, b"i i".to_vec())));
    refused(|tables| drop(tables.implementations.places.remove(&0)));
    refused(|tables| drop(tables.components.places.insert(9, b"a".to_vec())));
    refused(|tables| drop(tables.versions.places.insert(9, b"v".to_vec())));
    refused(|tables| drop(tables.facilities.places.insert(9, b"f".to_vec())));
    refused(|tables| drop(tables.implementations.places.insert(9, b"i".to_vec())));
}

#[test]
fn calls_as_lines() {
    let lines = "add-spec 0 1 2 5 6 2 2 0 6\nadd-spec 1 1 1 5 1 0 5\n\
        add-sys 1 1 0 1 5 1 1 0 -\nadd-sysvar 1 6 1 0 5\nadd-modvar 0 7 0 9\n\
        add-mod 0 2 5 6 2 255 0\ndel-modvar 0 5\n";
    let expected = "1,0\n2,0\n3,0\n4,0\n5,6\n6,0\n7,18\n\
        spec 0 1 6 2 5 6 2 2 0\nspec 1 1 5 2 5 6 2 0 0\nmod 0 2 5 6 2 255 0\n\
        sys 1 1 0 2 5 6 2 1 0 6 1 0 5\n\
        parts 0 5 1 1 0 5\nparts 0 6 1 1 0 6\nparts 1 5 2 2 0 6 1 5\nparts 1 6 2 2 0 5 1 6\n";
    assert_eq!(calls::run(lines).as_deref(), Ok(expected));
    assert_eq!(calls::run("del-spec 0\ndel-spec\n"), Err(2));
    assert_eq!(calls::run("del-spec 0 0"), Err(1));
}
