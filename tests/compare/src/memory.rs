//! Memory of the system's own, with pages on both sides that nobody may touch.

use std::ffi::{c_char, c_int, c_long, c_void};
use std::ptr::null_mut;
use std::slice;

extern "C" {
    fn mmap(
        at: *mut c_void,
        length: usize,
        access: c_int,
        flags: c_int,
        file: c_int,
        offset: c_long,
    ) -> *mut c_void;
    fn mprotect(at: *mut c_void, length: usize, access: c_int) -> c_int;
    fn munmap(at: *mut c_void, length: usize) -> c_int;
    fn memfd_create(name: *const c_char, flags: u32) -> c_int;
    fn ftruncate(file: c_int, length: c_long) -> c_int;
    fn close(file: c_int) -> c_int;
}

const PAGE: usize = 4096;
const NO_ACCESS: c_int = 0;
const READ: c_int = 1;
const READ_WRITE: c_int = 3;
const SHARED: c_int = 1;
/// Private, with no file behind it, and with no memory until a page is touched.
const LAZY: c_int = 0x2 | 0x20 | 0x4000;
const FIXED: c_int = 0x10;

/// So many bytes; the pages before and after them are closed.
pub struct Fenced {
    start: *mut u8,
    length: usize,
}

impl Fenced {
    /// Room for so many bytes, all of them zero. A page has memory only once it is touched.
    pub fn new(bytes: usize) -> Self {
        let length = bytes.next_multiple_of(PAGE);
        // SAFETY: a new mapping at a place that the system chooses; its inner pages are then opened.
        unsafe {
            let outer = mmap(null_mut(), length + 2 * PAGE, NO_ACCESS, LAZY, -1, 0);
            assert!(outer as isize != -1, "the system maps {length} bytes");
            let start = outer.byte_add(PAGE);
            assert_eq!(mprotect(start, length, READ_WRITE), 0, "the pages open");
            Fenced { start: start.cast(), length }
        }
    }

    /// Room for so many bytes over a file in memory of `window` bytes, again and again, so that it takes no more memory than that.
    pub fn repeated(bytes: usize, window: usize) -> Self {
        let room = Fenced::new(bytes.next_multiple_of(window));
        // SAFETY: each mapping takes the place of pages of the one above, which nothing has used yet.
        unsafe {
            let file = memfd_create(c"window".as_ptr(), 0);
            assert!(file >= 0, "the system makes a file in memory");
            assert_eq!(ftruncate(file, window as c_long), 0, "the file has its length");
            for from in (0..room.length).step_by(window) {
                let at = room.start.add(from).cast();
                let mapped = mmap(at, window, READ_WRITE, SHARED | FIXED, file, 0);
                assert_eq!(mapped, at, "the system maps the file again");
            }
            close(file);
        }
        room
    }

    /// The last bytes: what follows them is closed.
    pub fn last(&mut self, bytes: usize) -> &mut [u8] {
        assert!(bytes <= self.length);
        // SAFETY: the bytes are open, and borrowed as the room is.
        unsafe { slice::from_raw_parts_mut(self.start.add(self.length - bytes), bytes) }
    }

    /// The same bytes closed to writing while the call lasts.
    pub fn read_only<T>(&mut self, bytes: usize, call: impl FnOnce(&[u8]) -> T) -> T {
        assert!(bytes <= self.length);
        // SAFETY: the bytes stay open to reading; nobody else has them.
        unsafe {
            assert_eq!(mprotect(self.start.cast(), self.length, READ), 0, "the pages close");
            let from = self.start.add(self.length - bytes);
            let result = call(slice::from_raw_parts(from, bytes));
            assert_eq!(mprotect(self.start.cast(), self.length, READ_WRITE), 0, "they open");
            result
        }
    }
}

impl Drop for Fenced {
    fn drop(&mut self) {
        // SAFETY: the mapping is this one's own, and is gone with it.
        unsafe {
            munmap(self.start.sub(PAGE).cast(), self.length + 2 * PAGE);
        }
    }
}
