//! "a text or slice beyond 2,147,483,647 bytes gives that and the zeros too"

use crate::check::Checked;
use crate::host;
use crate::memory::Fenced;

const MOST: usize = 2_147_483_647;
/// What of a large slice takes memory.
const WINDOW: usize = 1 << 26;
const MARK: u8 = 0xa5;

fn same<T: PartialEq + std::fmt::Debug>(found: T, expected: T) -> Checked {
    match found == expected {
        true => Ok(()),
        false => Err(format!("{found:?} stands for {expected:?}")),
    }
}

/// A text of so many NUL bytes, with a short slice: the answer and the slice afterwards. Its first byte is no command's.
fn long_text(bytes: usize) -> (i32, [u8; 8]) {
    let mut text = Fenced::new(bytes);
    let mut slice = [MARK; 8];
    let answer = text.read_only(bytes, |text| host::session(text, &mut slice));
    (answer, slice)
}

/// The longest text is read: its first command is not of the language.
pub fn longest_text() -> Checked {
    same(long_text(MOST), (5, *b"1,23\n\xa5\xa5\xa5"))
}

/// One byte more is not read, nor is a length that 32 bits would cut short.
pub fn longer_text() -> Checked {
    same(long_text(MOST + 1), (-22, [0; 8]))?;
    same(long_text((1 << 32) + 5), (-22, [0; 8]))
}

/// Whether every byte is the mark.
fn all_are(mark: u8, bytes: &[u8]) -> bool {
    bytes.chunks(1 << 12).all(|part| part.iter().fold(0, |seen, byte| seen | (byte ^ mark)) == 0)
}

/// The longest slice takes a listing, and is touched nowhere else. Marks in all of its bytes would take two gigabytes of memory, so two
/// slices are looked at whole. One has zeros, which take no memory while they are only read; what is written there is seen unless it is
/// a 0. The other lies over a window of marks again and again, and there a 0 is seen too, wherever it is written.
pub fn longest_slice() -> Checked {
    let mut zeros = Fenced::new(MOST);
    let mut marks = Fenced::repeated(MOST, WINDOW);
    let (zeros, marks) = (zeros.last(MOST), marks.last(MOST));
    marks[..WINDOW].fill(MARK);
    for (slice, mark, looked_at) in [(zeros, 0, MOST), (marks, MARK, WINDOW)] {
        same(host::session(b"undefined", slice), 4)?;
        same(&slice[..4], b"1,0\n")?;
        if !all_are(mark, &slice[4..looked_at]) {
            return Err(format!("a byte behind the listing is no longer {mark}"));
        }
    }
    Ok(())
}

/// A slice one byte longer, whose bytes lie over a window again and again: the answer, and whether the window is zeros afterwards.
fn longer_slice_for(text: &[u8]) -> (i32, bool) {
    let mut room = Fenced::repeated(MOST + 1, WINDOW);
    let slice = room.last(MOST + 1);
    slice[..WINDOW].fill(MARK);
    let answer = host::session(text, slice);
    (answer, all_are(0, &slice[..WINDOW]))
}

/// It is refused, though the listing has four bytes.
pub fn longer_slice() -> Checked {
    same(longer_slice_for(b"undefined"), (-22, true))
}

/// So it is where the text is longer too.
pub fn both_longer() -> Checked {
    let mut text = Fenced::new(MOST + 1);
    same(text.read_only(MOST + 1, longer_slice_for), (-22, true))
}
