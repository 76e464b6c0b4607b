//! Whole sessions on stored texts: the proved one beside the plain one.

use crate::stack;
use crate::timing::beside;
use plain::session::{session_on_slice, watched};
use std::hint::black_box;

/// As many bytes as the listing of each text fits in.
const ROOM: usize = 1 << 20;

/// The stored texts: a name, and the file from the top of the repository.
const TEXTS: [(&str, &str); 5] = [
    ("teaching", "examples/teaching.txt"),
    ("growing", "tests/vectors/growing-32.txt"),
    ("long", "tests/vectors/long-13.txt"),
    ("small", "bench/texts/small.txt"),
    ("deep", "bench/texts/deep.txt"),
];

extern "C" {
    fn svcd_session(text: *const u8, text_len: usize, out: *mut u8, out_len: usize) -> i32;
}

/// The proved session: the listing's length.
fn proved(text: &[u8], out: &mut [u8]) -> Option<usize> {
    // SAFETY: both parts are lent for the call, and the library touches nothing outside them.
    let answer = unsafe { svcd_session(text.as_ptr(), text.len(), out.as_mut_ptr(), out.len()) };
    usize::try_from(answer).ok()
}

fn stored(file: &str) -> Vec<u8> {
    let path = format!("{}/../{file}", env!("CARGO_MANIFEST_DIR"));
    std::fs::read(&path).unwrap_or_else(|error| panic!("{file}: {error}"))
}

/// How many commands the session of a text has.
fn commands(text: &[u8]) -> u32 {
    let mut count = 0;
    watched(text, usize::MAX, |_, _| count += 1);
    count
}

/// Commands a second, from nanoseconds for the session.
fn a_second(commands: u32, nanoseconds: f64) -> f64 {
    f64::from(commands) * 1e9 / nanoseconds
}

fn line(name: &str, text: &[u8]) {
    let (mut out, mut plain_out) = (vec![0; ROOM], vec![0; ROOM]);
    let answers = (proved(text, &mut out), session_on_slice(text, &mut plain_out).ok());
    assert!(answers.0.is_some() && answers.0 == answers.1, "{name}: both give a listing");
    assert!(out == plain_out, "{name}: the same listing");
    let used = stack::used_by(|| proved(text, &mut out).is_some());
    let mut ours = || proved(black_box(text), &mut out).is_some();
    let mut theirs = || session_on_slice(black_box(text), &mut plain_out).is_ok();
    let [ours, theirs] = beside([&mut ours, &mut theirs]);
    let (count, bytes, ratio) = (commands(text), text.len(), theirs / ours);
    let (us, them) = (a_second(count, ours), a_second(count, theirs));
    println!("| {name} | {bytes} | {count} | {us:.0} | {them:.0} | {ratio:.2} | {used} |");
}

/// A line for each text.
pub fn table() {
    println!(
        "| session | bytes | commands | proved, commands a second | std, commands a second \
         | std / proved | stack, bytes |"
    );
    println!("| --- | ---: | ---: | ---: | ---: | ---: | ---: |");
    TEXTS.iter().for_each(|(name, file)| line(name, &stored(file)));
}
