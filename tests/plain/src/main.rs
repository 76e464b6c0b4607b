//! `plain session [LIMIT]`, `plain calls`, `plain generate KIND SEED [COUNT]`
//! and `plain coverage KIND SEED COUNT`.

use plain::generate::Kind;
use plain::{calls, coverage, generate, session};
use std::io::{Read, Write};
use std::process::ExitCode;

/// "standard input, up to 65,536 bytes, with a slice of that size"
const PROGRAM_LIMIT: usize = 65_536;

const USAGE: &str = "usage: plain session [LIMIT]
       plain calls
       plain generate KIND SEED [COUNT]
       plain coverage KIND SEED COUNT
kinds: growing mixed full damaged long bytes calls";

/// The rows of the program `session`; "where either is too small it prints `0,22`".
fn run_session(limit: usize) -> std::io::Result<Vec<u8>> {
    let mut text = Vec::new();
    let mut input = std::io::stdin().lock().take(PROGRAM_LIMIT as u64 + 1);
    input.read_to_end(&mut text)?;
    let listing = match text.len() <= PROGRAM_LIMIT {
        true => session::session(&text, limit).listing,
        false => Err(22),
    };
    Ok(listing.unwrap_or_else(|_| b"0,22\n".to_vec()))
}

/// The answers of the calls on standard input, and the book then reached.
fn run_calls() -> std::io::Result<Vec<u8>> {
    let lines = std::io::read_to_string(std::io::stdin())?;
    calls::run(&lines).map(String::into_bytes).map_err(|line| {
        let reason = format!("line {line} is no call");
        std::io::Error::new(std::io::ErrorKind::InvalidData, reason)
    })
}

/// What the arguments ask for; none where they are not understood.
fn run(arguments: &[&str]) -> Option<std::io::Result<Vec<u8>>> {
    Some(match arguments {
        ["session"] => run_session(PROGRAM_LIMIT),
        ["session", limit] => run_session(limit.parse().ok()?),
        ["calls"] => run_calls(),
        ["generate", kind, seed] => {
            Ok(generate::generate(Kind::read(kind)?, seed.parse().ok()?, None))
        }
        ["generate", kind, seed, count] => {
            let count = Some(count.parse().ok()?);
            Ok(generate::generate(Kind::read(kind)?, seed.parse().ok()?, count))
        }
        ["coverage", kind, seed, count] => {
            let (seed, count) = (seed.parse().ok()?, count.parse().ok()?);
            Ok(coverage::coverage(Kind::read(kind)?, seed, count).table().into_bytes())
        }
        _ => return None,
    })
}

fn main() -> ExitCode {
    let arguments: Vec<String> = std::env::args().skip(1).collect();
    let arguments: Vec<&str> = arguments.iter().map(String::as_str).collect();
    let Some(output) = run(&arguments) else {
        eprintln!("{USAGE}");
        return ExitCode::from(2);
    };
    match output.and_then(|output| std::io::stdout().write_all(&output)) {
        Ok(()) => ExitCode::SUCCESS,
        Err(error) => {
            eprintln!("plain: {error}");
            ExitCode::FAILURE
        }
    }
}
