// The declarations of atlas.h, which says what each function does, for programs in Rust that link include/libatlas.a.

extern "C" {
    pub fn atlas_check(
        sheet: *const u8,
        sheet_bytes: usize,
        distances: *mut u8,
        distances_bytes: usize,
    ) -> u32;
    pub fn atlas_question(
        sheet: *const u8,
        sheet_bytes: usize,
        q: u32,
        k: u32,
        direction: u32,
        answer: *mut u8,
        answer_bytes: usize,
        working: *mut u8,
        working_bytes: usize,
        counts: *mut u8,
        counts_bytes: usize,
    ) -> u32;
}
