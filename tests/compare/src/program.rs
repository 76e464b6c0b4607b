//! The program `session`, run on a text.

use crate::check::Checked;
use plain::session::session;
use std::io::Write;
use std::process::{Command, Output, Stdio};

/// "standard input, up to 65,536 bytes, with a slice of that size"
const LIMIT: usize = 65_536;

/// What the program writes, and how it ends. It may stop reading early, so a text that it does not take whole is no error.
fn run(program: &str, text: &[u8]) -> std::io::Result<Output> {
    let mut command = Command::new(program);
    let mut child = command.stdin(Stdio::piped()).stdout(Stdio::piped()).spawn()?;
    let input = child.stdin.take();
    std::thread::scope(|scope| {
        scope.spawn(move || input.map(|mut input| input.write_all(text)));
        child.wait_with_output()
    })
}

/// "where either is too small it prints `0,22`"
pub fn expected(text: &[u8]) -> Vec<u8> {
    let listing = match text.len() <= LIMIT {
        true => session(text, LIMIT).listing,
        false => Err(22),
    };
    listing.unwrap_or_else(|_| b"0,22\n".to_vec())
}

/// The program writes what the plain one does.
pub fn check(program: &str, text: &[u8]) -> Checked {
    let output = run(program, text).map_err(|error| format!("{program}: {error}"))?;
    match (output.status.success(), output.stdout == expected(text)) {
        (true, true) => Ok(()),
        (false, _) => Err(format!("{program}: {}", output.status)),
        (true, false) => Err(format!("{program} writes another listing")),
    }
}
