//! How much of a thread's stack a call writes on.

use std::hint::black_box;
use std::ptr;

const DEPTH: usize = 1024 * 1024;
const MARK: u8 = 0xA5;

/// The lowest address of the marked bytes, which lie below every frame of the caller.
#[inline(never)]
fn mark() -> usize {
    let bytes = black_box([MARK; DEPTH]);
    black_box(&bytes).as_ptr() as usize
}

/// How many of the marked bytes, counted from the lowest, still bear the mark.
#[inline(never)]
fn unwritten(lowest: usize) -> usize {
    let marked = |at: &usize| {
        // SAFETY: the bytes are part of this thread's own stack, which is larger than DEPTH.
        unsafe { ptr::read_volatile((lowest + at) as *const u8) == MARK }
    };
    (0..DEPTH).take_while(marked).count()
}

/// The bytes that a call writes below the frame of its caller, to within the frame of `mark`.
pub fn used_by(call: impl FnOnce() -> bool + Send) -> usize {
    std::thread::scope(|scope| {
        let thread = std::thread::Builder::new().stack_size(4 * DEPTH).spawn_scoped(scope, || {
            let lowest = mark();
            black_box(call());
            DEPTH - unwritten(lowest)
        });
        thread.expect("a thread starts").join().expect("the call returns")
    })
}
