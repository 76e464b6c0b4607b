//! The test for 25, the ten commands, the parts list and whole sessions: the proved ones beside those that use std
//! collections, in the same run.

mod books;
mod carried;
mod cases;
#[allow(dead_code)]
mod exports;
mod host;
mod raw;
mod sessions;
mod stack;
mod timing;

use books::VERSIONS;
use carried::Carried;
use cases::Case;
use plain::book::{Book, Pair};
use plain::calls::Call;
use raw::Raw;
use std::hint::black_box;
use timing::beside;

/// As many rows as a parts list can have.
const MOST_ROWS: usize = 256;

fn test_line(name: &str, book: &Book) {
    let raw = Raw::of(book);
    let answers = (host::test(&raw), book.is_sound());
    assert_eq!(answers, (true, true), "{name}: both programs call it a book");
    let mut proved = || host::test(black_box(&raw));
    let mut plain = || black_box(book).is_sound();
    let [ours, theirs] = beside([&mut proved, &mut plain]);
    let used = stack::used_by(|| host::test(&raw));
    println!("| {name} | {ours:.0} | {theirs:.0} | {:.2} | {used} |", theirs / ours);
}

/// The call on a copy of the plain book; whether it is accepted.
fn accepted_on_a_copy(case: &Case) -> bool {
    let mut next = black_box(&case.book).clone();
    let accepted = case.call.perform(&mut next).is_ok();
    black_box(&next);
    accepted
}

fn call_line(case: &Case) {
    let (raw, carried) = (Raw::of(&case.book), Carried::of(&case.call));
    let (word, mut next) = (case.call.word(), Raw::empty());
    let answers = (carried.perform(&raw, &mut next), accepted_on_a_copy(case));
    assert_eq!(answers, (0, true), "{word}: both programs accept it");
    assert!(host::test(&next), "{word}: it hands a book back");
    let used = stack::used_by(|| carried.perform(&raw, &mut next) == 0);
    let mut proved = || carried.perform(black_box(&raw), &mut next) == 0;
    let mut plain = || accepted_on_a_copy(case);
    let mut copied = || black_box(black_box(&case.book).clone()).systems.is_empty();
    let [ours, theirs, copy] = beside([&mut proved, &mut plain, &mut copied]);
    let (us, them, ratio) = (ours / 1000.0, theirs / 1000.0, theirs / ours);
    let (less, ratio_less) = ((theirs - copy) / 1000.0, (theirs - copy) / ours);
    println!(
        "| {word} | {us:.2} | {them:.2} | {ratio:.2} | {less:.2} | {ratio_less:.2} | {used} |"
    );
}

fn call_table(name: &str, cases: &[Case]) {
    println!();
    println!("{name} book");
    println!();
    println!(
        "| command | proved, µs | std, µs | std / proved | std without its copy, µs \
         | the same / proved | stack, bytes |"
    );
    println!("| --- | ---: | ---: | ---: | ---: | ---: | ---: |");
    cases.iter().for_each(call_line);
}

/// A call on the empty Book that is refused: it tests and asks next to nothing, so what is timed is the copying.
fn refused_line() {
    let (raw, mut next, carried) = (Raw::empty(), Raw::empty(), Carried::of(&Call::DelMod(0)));
    let mut refused = || carried.perform(black_box(&raw), &mut next) == 6;
    assert!(refused(), "the empty Book holds no module");
    let [time] = beside([&mut refused]);
    println!();
    println!("DEL-MOD refused on the empty Book: {:.2} µs", time / 1000.0);
}

fn row((component, version): &Pair) -> u16 {
    u16::try_from(component * 64 + version).expect("a row is below 2048")
}

fn parts_line(name: &str, book: &Book, pair: Pair) {
    let (raw, mut out) = (Raw::of(book), [0; MOST_ROWS]);
    let listed = host::parts(&raw, pair, &mut out);
    let list = book.parts(pair.0, pair.1, MOST_ROWS).expect("the plain program gives the list");
    let rows: Vec<u16> = list.rows.iter().map(row).collect();
    assert_eq!((listed.answer, &out[..listed.rows]), (0, &rows[..]), "{name}: the same list");
    assert!(list.depth <= listed.depth, "{name}: the depth is enough");
    let used = stack::used_by(|| host::parts(&raw, pair, &mut out).answer == 0);
    let mut proved = || host::parts(black_box(&raw), pair, &mut out).answer == 0;
    let mut plain = || black_box(black_box(book).parts(pair.0, pair.1, MOST_ROWS)).is_ok();
    let [ours, theirs] = beside([&mut proved, &mut plain]);
    let (us, them, ratio) = (ours / 1000.0, theirs / 1000.0, theirs / ours);
    println!("| {name} | {} | {us:.2} | {them:.2} | {ratio:.2} | {used} |", rows.len());
}

/// Single calls on Books made here.
fn single_calls() {
    println!("bytes of a Book: {}", std::mem::size_of::<Raw>());
    println!();
    println!("| test for 25 | proved, ns | std, ns | std / proved | stack, bytes |");
    println!("| --- | ---: | ---: | ---: | ---: |");
    test_line("empty", &Book::default());
    test_line("teaching", &books::teaching());
    test_line("deep", &books::layered(&[0]));
    test_line("full", &books::layered(&VERSIONS));
    call_table("teaching", &cases::teaching());
    call_table("full", &cases::full());
    refused_line();
    println!();
    println!("| parts list | rows | proved, µs | std, µs | std / proved | stack, bytes |");
    println!("| --- | ---: | ---: | ---: | ---: | ---: |");
    parts_line("teaching", &books::teaching(), (3, 3));
    parts_line("deep", &books::layered(&[0]), (31, 0));
    parts_line("full", &books::layered(&VERSIONS), (31, 7));
    parts_line("mixed", &books::mixed(), (31, 7));
    println!();
}

fn main() {
    if std::env::args().nth(1).as_deref() != Some("sessions") {
        single_calls();
    }
    sessions::table();
}
