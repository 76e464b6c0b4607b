//! `numbers SEED COUNT`: the proved number calls beside the plain ones, on COUNT sequences made from seeds from SEED on, on large books, and
//! on changed Books.

mod asked;
#[allow(dead_code)]
#[path = "../../../bench/src/books.rs"]
mod books;
#[path = "../../../bench/src/carried.rs"]
mod carried;
mod decoded;
#[path = "../../../bench/src/exports.rs"]
mod exports;
mod host;
mod lent;
#[allow(dead_code)]
#[path = "../../compare/src/memory.rs"]
mod memory;
mod met;
mod odd;
#[path = "../../../bench/src/raw.rs"]
mod raw;
mod said;
mod sequence;
mod wild;

use decoded::Decoded;
use host::{Checked, Host};
use met::Met;
use plain::book::Book;
use raw::Raw;
use sequence::Sequence;
use std::process::ExitCode;
use std::sync::atomic::{AtomicUsize, Ordering};

/// What is wrong with each of the sequences at the next places, and what they met.
fn check_some(seed: u64, count: usize, next: &AtomicUsize) -> (Vec<String>, Met) {
    let (mut host, mut met, mut wrong) = (Host::new(), Met::default(), Vec::new());
    loop {
        let place = next.fetch_add(1, Ordering::Relaxed);
        if place >= count {
            return (wrong, met);
        }
        let seed = seed + place as u64;
        let calls = 20 + place % 131;
        let checked = Sequence::new(&mut host, &mut met, seed).run(seed, calls);
        wrong.extend(checked.err().map(|found| format!("seed {seed}, {calls} calls: {found}")));
    }
}

/// The same of so many sequences, shared out among the processors.
fn check(seed: u64, count: usize) -> (Vec<String>, Met) {
    let next = AtomicUsize::new(0);
    let processors = std::thread::available_parallelism().map_or(1, usize::from);
    let (mut wrong, mut met) = (Vec::new(), Met::default());
    std::thread::scope(|scope| {
        let start = |_| scope.spawn(|| check_some(seed, count, &next));
        let running: Vec<_> = (0..processors).map(start).collect();
        for one in running {
            let (found, by_one) = one.join().expect("the checks end");
            wrong.extend(found);
            met.add(by_one);
        }
    });
    (wrong, met)
}

/// A book from anywhere: its Book means it, is a book, and answers as it does.
fn check_book(seed: u64, book: Book, met: &mut Met) -> Checked {
    let raw = Raw::of(&book);
    if Decoded::of(&raw).book != book {
        return Err("its arrays mean another book".to_string());
    }
    let mut host = Host::new();
    host.lend(&raw);
    if !host.test()? {
        return Err("its arrays are no book".to_string());
    }
    let mut sequence = Sequence::new(&mut host, met, seed).from(raw, book);
    sequence.ask(30)?;
    sequence.go_on(10)
}

fn main() -> ExitCode {
    let arguments: Vec<String> = std::env::args().skip(1).collect();
    let numbers: Option<Vec<u64>> = arguments.iter().map(|word| word.parse().ok()).collect();
    let Some([seed, count]) = numbers.as_deref() else {
        eprintln!("usage: numbers SEED COUNT");
        return ExitCode::from(2);
    };
    let (mut wrong, mut met) = check(*seed, *count as usize);
    let mut all = *count as usize;
    let large = [books::teaching(), books::layered(&books::VERSIONS), books::mixed()];
    for (place, book) in large.into_iter().enumerate() {
        all += 1;
        let checked = check_book(*seed, book, &mut met);
        wrong.extend(checked.err().map(|found| format!("large book {place}: {found}")));
    }
    print!("{}", met.table());
    let missing = met.missing();
    all += missing.len().max(1);
    wrong.extend(missing);
    wrong.iter().take(20).for_each(|line| println!("{line}"));
    println!("{} passed, {} failed", all - wrong.len(), wrong.len());
    match wrong.len() {
        0 => ExitCode::SUCCESS,
        _ => ExitCode::FAILURE,
    }
}
