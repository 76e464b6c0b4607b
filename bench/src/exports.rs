//! What crate `bench_host` exports.

extern "C" {
    pub fn version_book_test(sets: *const u64, numbers: *const u8) -> bool;
    pub fn version_book_call(
        sets: *const u64,
        numbers: *const u8,
        kind: usize,
        c: usize,
        v: usize,
        i: usize,
        set: u64,
        usable: *const usize,
        usable_count: usize,
        versions: *const usize,
        versions_count: usize,
        lengths: *const usize,
        lengths_count: usize,
        members: *const usize,
        members_count: usize,
        chosen: *const usize,
        chosen_count: usize,
        required: *const u64,
        required_count: usize,
        next_sets: *mut u64,
        next_numbers: *mut u8,
    ) -> u8;
    pub fn version_book_query(
        sets: *const u64,
        numbers: *const u8,
        kind: usize,
        c: usize,
        v: usize,
        found: *mut u64,
    ) -> u8;
    pub fn version_book_choice(
        sets: *const u64,
        numbers: *const u8,
        wanted: u64,
        out: *mut u16,
        out_count: usize,
        rows: *mut usize,
    ) -> u8;
    pub fn version_book_parts(
        sets: *const u64,
        numbers: *const u8,
        c: usize,
        v: usize,
        out: *mut u16,
        out_count: usize,
        rows: *mut usize,
        depth: *mut usize,
    ) -> u8;
}
