//! The exports of the static library, declared as docs/ABI.md has them, beside
//! the independent implementation: return values, answer rows and lent rows.

mod boards;
mod budgets;
mod called;
mod compared;
mod declared;
mod editions;
mod ends;
mod gaps;
mod hundreds;
mod lent;
mod rows;
mod seeded;
mod sheets;

#[link(name = "examination", kind = "static")]
extern "C" {
    fn examination_read(file: *const u8, file_len: usize, answer: *mut [u32; 4]) -> u32;
    fn examination_rate(
        file: *const u8,
        file_len: usize,
        sheet: *const u8,
        sheet_len: usize,
        answer: *mut [u32; 2],
    ) -> u32;
    fn examination_weighted(
        file: *const u8,
        file_len: usize,
        sheet: *const u8,
        sheet_len: usize,
        answer: *mut [u32; 2],
    ) -> u32;
    fn examination_classes(
        file: *const u8,
        file_len: usize,
        class_row: *mut u8,
        class_len: usize,
        weight_row: *mut u16,
        weight_len: usize,
        answer: *mut [u32; 1],
    ) -> u32;
    fn examination_search(
        file: *const u8,
        file_len: usize,
        start_row: *mut i32,
        start_len: usize,
        budget: u32,
        answer: *mut [u32; 3],
    ) -> u32;
    fn examination_wanted(
        file: *const u8,
        file_len: usize,
        start_row: *mut i32,
        start_len: usize,
        wanted: u16,
        budget: u32,
        answer: *mut [u32; 1],
    ) -> u32;
    fn examination_better(
        file: *const u8,
        file_len: usize,
        first: *const u8,
        first_len: usize,
        second: *const u8,
        second_len: usize,
    ) -> u32;
    fn examination_mark(
        file: *const u8,
        file_len: usize,
        sheet: *const u8,
        sheet_len: usize,
        budget: u32,
        answer: *mut [u32; 6],
    ) -> u32;
    fn examination_hundred(
        file: *const u8,
        file_len: usize,
        sheet: *const u8,
        sheet_len: usize,
        budget: u32,
        answer: *mut [u32; 6],
        hundred: *mut [u32; 2],
    ) -> u32;
    fn examination_by_key(
        file: *const u8,
        file_len: usize,
        sheet: *const u8,
        sheet_len: usize,
        key: *const u8,
        key_len: usize,
        hundred: *mut [u32; 2],
    ) -> u32;
    fn examination_archive(file: *const u8, file_len: usize, row: *mut u8, row_len: usize) -> u32;
    fn examination_board(
        file: *const u8,
        file_len: usize,
        sheet: *const u8,
        sheet_len: usize,
        stop: u32,
        first: i32,
        length: u32,
        time_row: *mut i64,
        time_len: usize,
        line_row: *mut u8,
        line_len: usize,
        answer: *mut [u32; 1],
    ) -> u32;
    fn examination_gaps(
        file: *const u8,
        file_len: usize,
        sheet: *const u8,
        sheet_len: usize,
        gap_row: *mut [u16; 64],
        answer: *mut [u32; 2],
    ) -> u32;
}
