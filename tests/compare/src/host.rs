//! The proved session, as include/svcd.h declares it.

extern "C" {
    fn svcd_session(text: *const u8, text_len: usize, out: *mut u8, out_len: usize) -> i32;
}

/// The session on a text and a lent slice: the listing's length, or minus 22.
pub fn session(text: &[u8], slice: &mut [u8]) -> i32 {
    // SAFETY: both parts are lent for the call, and the library touches nothing outside them. The checks here look for just that.
    unsafe { svcd_session(text.as_ptr(), text.len(), slice.as_mut_ptr(), slice.len()) }
}
