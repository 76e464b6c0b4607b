//! Two programs timed in the same run, turn by turn.

use std::hint::black_box;
use std::time::{Duration, Instant};

/// How many rounds each program is timed in, turn by turn.
const ROUNDS: usize = 41;
/// How long a round takes at least.
const ROUND: Duration = Duration::from_millis(4);

/// What is timed.
pub type Timed<'a> = &'a mut dyn FnMut() -> bool;

/// How often the call fits in a round.
fn calls_in_a_round(call: Timed) -> u32 {
    let mut calls = 1;
    while nanoseconds(call, calls) * f64::from(calls) < ROUND.as_nanos() as f64 {
        calls *= 2;
    }
    calls
}

/// Nanoseconds for one call, over so many.
fn nanoseconds(call: Timed, calls: u32) -> f64 {
    let start = Instant::now();
    for _ in 0..calls {
        black_box(call());
    }
    start.elapsed().as_nanos() as f64 / f64::from(calls)
}

/// The least times of the programs in nanoseconds, which take turns. The least time is what a program takes where the
/// machine does nothing else.
pub fn beside<const N: usize>(mut programs: [Timed; N]) -> [f64; N] {
    let calls: Vec<u32> = programs.iter_mut().map(|program| calls_in_a_round(program)).collect();
    let mut least = [f64::INFINITY; N];
    for _ in 0..ROUNDS {
        for (k, program) in programs.iter_mut().enumerate() {
            least[k] = least[k].min(nanoseconds(program, calls[k]));
        }
    }
    least
}
