//! `compare PROGRAM STACK SEED COUNT FILE..`: the proved session beside the plain one, on stored texts, on COUNT sessions made from seeds
//! from SEED on, and at the limits of the call. PROGRAM is the program `session`, STACK the bytes of stack that a call may use.

mod check;
mod generated;
mod host;
mod limits;
mod memory;
mod program;
#[path = "../../../bench/src/stack.rs"]
mod stack;

use check::Checked;
use plain::book::Number;
use plain::session::watched;
use std::collections::BTreeSet;
use std::process::ExitCode;

/// How many checks passed, and how many failed.
#[derive(Default)]
struct Count {
    passed: usize,
    failed: usize,
}

/// Questions 1, 2, 14 and 25 get no no from text, and 22 is no row.
fn every_answer(answers: &BTreeSet<Number>) -> Checked {
    let missing =
        (0..=24).filter(|number| ![1, 2, 14, 22].contains(number) && !answers.contains(number));
    match missing.collect::<Vec<_>>().as_slice() {
        [] => Ok(()),
        numbers => Err(format!("none is one of {numbers:?}")),
    }
}

impl Count {
    fn add(&mut self, name: &str, checked: Checked) {
        match checked {
            Ok(()) => self.passed += 1,
            Err(wrong) => {
                self.failed += 1;
                println!("{name}: {wrong}");
            }
        }
    }

    /// Each stored text through the library and the program; together they get every answer that a text can give. The most stack that a
    /// call used on one of them.
    fn stored(&mut self, program: &str, files: &[String]) -> usize {
        let mut checker = check::Checker::new();
        let mut answers = BTreeSet::new();
        let mut most = 0;
        for file in files {
            let text = match std::fs::read(file) {
                Ok(text) => text,
                Err(error) => {
                    self.add(file, Err(error.to_string()));
                    continue;
                }
            };
            self.add(file, checker.check(&text).and_then(|()| program::check(program, &text)));
            watched(&text, usize::MAX, |_, answer| {
                answers.insert(answer);
            });
            let mut slice = vec![0; 1 << 20];
            most = most.max(stack::used_by(|| host::session(&text, &mut slice) >= 0));
        }
        self.add("the answers to stored texts", every_answer(&answers));
        most
    }

    fn generated(&mut self, program: &str, seed: u64, count: usize) {
        let wrong = generated::check(program, seed, count);
        self.passed += count - wrong.len();
        self.failed += wrong.len();
        wrong.iter().take(20).for_each(|line| println!("{line}"));
    }

    fn limits(&mut self) {
        self.add("the longest text", limits::longest_text());
        self.add("a longer text", limits::longer_text());
        self.add("the longest slice", limits::longest_slice());
        self.add("a longer slice", limits::longer_slice());
        self.add("a longer text and slice", limits::both_longer());
    }
}

fn main() -> ExitCode {
    let arguments: Vec<String> = std::env::args().skip(1).collect();
    let [program, stack, seed, sessions, files @ ..] = arguments.as_slice() else {
        eprintln!("usage: compare PROGRAM STACK SEED COUNT FILE..");
        return ExitCode::from(2);
    };
    let (Ok(stack), Ok(seed), Ok(sessions @ 1..)) = (stack.parse(), seed.parse(), sessions.parse())
    else {
        eprintln!("compare: STACK, SEED and COUNT are numbers, COUNT 1 at least");
        return ExitCode::from(2);
    };
    let mut count = Count::default();
    let used: usize = count.stored(program, files);
    println!("{} stored texts; a call wrote on {used} bytes of stack at most", files.len());
    let within = match (1..=stack).contains(&used) {
        true => Ok(()),
        false => Err(format!("{used} bytes, and include/svcd.h says {stack}")),
    };
    count.add("stack", within);
    count.generated(program, seed, sessions);
    println!("{sessions} generated sessions, seeds from {seed} on");
    count.limits();
    println!("{} passed, {} failed", count.passed, count.failed);
    match count.failed {
        0 => ExitCode::SUCCESS,
        _ => ExitCode::FAILURE,
    }
}
