//! What is lent to a call: numbers at the end of memory whose next page is closed.

use crate::memory::Fenced;
use std::marker::PhantomData;
use std::slice;

/// How many numbers stand on both sides of what a call may write.
const GUARD: usize = 16;

/// The number that stands at a place before the call; no two neighbours are equal, and none is 0.
fn mark<T: From<u8>>(place: usize) -> T {
    T::from((place % 251) as u8 + 1)
}

/// So many marks, from the first one behind the guard on: what a lent slice holds before the call.
pub fn marks<T: From<u8>>(length: usize) -> Vec<T> {
    (GUARD..GUARD + length).map(mark).collect()
}

/// Room for numbers, the last of which are lent.
pub struct Lent<T> {
    room: Fenced,
    length: usize,
    numbers: PhantomData<T>,
}

impl<T: Copy + PartialEq + From<u8>> Lent<T> {
    /// Room for so many numbers between guards.
    pub fn new(most: usize) -> Self {
        let bytes = (most + 2 * GUARD) * size_of::<T>();
        Lent { room: Fenced::new(bytes), length: 0, numbers: PhantomData }
    }

    /// The last numbers of the room.
    fn last(&mut self) -> &mut [T] {
        let bytes = self.room.last(self.length * size_of::<T>());
        // SAFETY: the bytes end at a page, so they are aligned; every pattern of them is a number of an integer type.
        unsafe { slice::from_raw_parts_mut(bytes.as_mut_ptr().cast(), self.length) }
    }

    /// Lends numbers to read.
    pub fn lend_to_read(&mut self, numbers: &[T]) -> *const T {
        self.length = numbers.len();
        self.last().copy_from_slice(numbers);
        self.last().as_ptr()
    }

    /// The numbers lent are still these.
    pub fn holds(&mut self, numbers: &[T]) -> bool {
        self.last() == numbers
    }

    /// Lends room for so many numbers to write, which holds marks, between guards.
    pub fn lend_to_write(&mut self, length: usize) -> *mut T {
        self.length = length + 2 * GUARD;
        self.last().iter_mut().enumerate().for_each(|(place, number)| *number = mark(place));
        self.last()[GUARD..].as_mut_ptr()
    }

    /// What stands there after the call, where both guards are as they were.
    pub fn written(&mut self) -> Option<&[T]> {
        let behind = self.length - GUARD;
        let numbers = &*self.last();
        let mut guards = (0..GUARD).chain(behind..numbers.len());
        guards.all(|place| numbers[place] == mark(place)).then(|| &numbers[GUARD..behind])
    }
}
