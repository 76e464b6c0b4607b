//! The proved functions of crate `bench_host`, as a host calls them.

use crate::carried::{wide, Carried};
use crate::exports::{version_book_call, version_book_parts, version_book_test};
use crate::raw::Raw;
use plain::book::Pair;

/// The test for 25.
pub fn test(raw: &Raw) -> bool {
    // SAFETY: the library only reads the two arrays, which are lent for the call.
    unsafe { version_book_test(raw.sets.as_ptr(), raw.numbers.as_ptr()) }
}

impl Carried {
    /// The answer of the call on a Book; the Book that it hands back is written into the next one.
    pub fn perform(&self, raw: &Raw, next: &mut Raw) -> u8 {
        // SAFETY: the library reads the lent arrays and slices, writes the two arrays of `next`, and keeps none of
        // them.
        unsafe {
            version_book_call(
                raw.sets.as_ptr(),
                raw.numbers.as_ptr(),
                self.kind,
                self.c,
                self.v,
                self.i,
                self.set,
                self.usable.as_ptr(),
                self.usable.len(),
                self.versions.as_ptr(),
                self.versions.len(),
                self.lengths.as_ptr(),
                self.lengths.len(),
                self.members.as_ptr(),
                self.members.len(),
                self.chosen.as_ptr(),
                self.chosen.len(),
                self.required.as_ptr(),
                self.required.len(),
                next.sets.as_mut_ptr(),
                next.numbers.as_mut_ptr(),
            )
        }
    }
}

/// A parts list as the call writes it.
pub struct Listed {
    pub answer: u8,
    pub rows: usize,
    pub depth: usize,
}

/// The parts list of a pair, its rows written into the slice.
pub fn parts(raw: &Raw, (component, version): Pair, out: &mut [u16]) -> Listed {
    let (mut rows, mut depth) = (0, 0);
    // SAFETY: the library reads the two arrays, writes the slice and the two numbers, and keeps none of them.
    let answer = unsafe {
        let (c, v) = (wide(component), wide(version));
        let (sets, numbers) = (raw.sets.as_ptr(), raw.numbers.as_ptr());
        version_book_parts(sets, numbers, c, v, out.as_mut_ptr(), out.len(), &mut rows, &mut depth)
    };
    Listed { answer, rows, depth }
}
