//! The engine's exports as docs/ABI.md declares them, and beside each that is
//! called a function over slices. This is the only module of the crate with raw
//! pointers: `deny(unsafe_code)` holds for all others.
//!
//! Why the calls are sound: a slice's pointer is valid for its length and never
//! null, also for an empty slice; a `&mut` row overlaps nothing else that is
//! handed over; the engine keeps no state and no pointer.

#![allow(unsafe_code)]

// All are declared, and `examination_mark` isn't called: `examination_hundred`
// answers all that it does.
#[allow(dead_code)]
#[link(name = "examination", kind = "static")]
extern "C" {
    fn examination_read(file: *const u8, file_len: usize, answer: *mut [u32; 4]) -> u32;
    fn examination_rate(
        file: *const u8,
        file_len: usize,
        sheet: *const u8,
        sheet_len: usize,
        answer: *mut [u32; 2],
    ) -> u32;
    fn examination_weighted(
        file: *const u8,
        file_len: usize,
        sheet: *const u8,
        sheet_len: usize,
        answer: *mut [u32; 2],
    ) -> u32;
    fn examination_classes(
        file: *const u8,
        file_len: usize,
        class_row: *mut u8,
        class_len: usize,
        weight_row: *mut u16,
        weight_len: usize,
        answer: *mut [u32; 1],
    ) -> u32;
    fn examination_search(
        file: *const u8,
        file_len: usize,
        start_row: *mut i32,
        start_len: usize,
        budget: u32,
        answer: *mut [u32; 3],
    ) -> u32;
    fn examination_wanted(
        file: *const u8,
        file_len: usize,
        start_row: *mut i32,
        start_len: usize,
        wanted: u16,
        budget: u32,
        answer: *mut [u32; 1],
    ) -> u32;
    fn examination_better(
        file: *const u8,
        file_len: usize,
        first: *const u8,
        first_len: usize,
        second: *const u8,
        second_len: usize,
    ) -> u32;
    fn examination_mark(
        file: *const u8,
        file_len: usize,
        sheet: *const u8,
        sheet_len: usize,
        budget: u32,
        answer: *mut [u32; 6],
    ) -> u32;
    fn examination_hundred(
        file: *const u8,
        file_len: usize,
        sheet: *const u8,
        sheet_len: usize,
        budget: u32,
        answer: *mut [u32; 6],
        hundred: *mut [u32; 2],
    ) -> u32;
    fn examination_by_key(
        file: *const u8,
        file_len: usize,
        sheet: *const u8,
        sheet_len: usize,
        key: *const u8,
        key_len: usize,
        hundred: *mut [u32; 2],
    ) -> u32;
    fn examination_archive(file: *const u8, file_len: usize, row: *mut u8, row_len: usize) -> u32;
    fn examination_board(
        file: *const u8,
        file_len: usize,
        sheet: *const u8,
        sheet_len: usize,
        stop: u32,
        first: i32,
        length: u32,
        time_row: *mut i64,
        time_len: usize,
        line_row: *mut u8,
        line_len: usize,
        answer: *mut [u32; 1],
    ) -> u32;
    fn examination_gaps(
        file: *const u8,
        file_len: usize,
        sheet: *const u8,
        sheet_len: usize,
        gap_row: *mut [u16; 64],
        answer: *mut [u32; 2],
    ) -> u32;
}

pub fn read(file: &[u8], answer: &mut [u32; 4]) -> u32 {
    // SAFETY: see above.
    unsafe { examination_read(file.as_ptr(), file.len(), answer) }
}

pub fn rate(file: &[u8], sheet: &[u8], answer: &mut [u32; 2]) -> u32 {
    // SAFETY: see above.
    unsafe {
        examination_rate(
            file.as_ptr(),
            file.len(),
            sheet.as_ptr(),
            sheet.len(),
            answer,
        )
    }
}

pub fn weighted(file: &[u8], sheet: &[u8], answer: &mut [u32; 2]) -> u32 {
    // SAFETY: see above.
    unsafe {
        examination_weighted(
            file.as_ptr(),
            file.len(),
            sheet.as_ptr(),
            sheet.len(),
            answer,
        )
    }
}

pub fn classes(
    file: &[u8],
    class_row: &mut [u8],
    weight_row: &mut [u16],
    answer: &mut [u32; 1],
) -> u32 {
    // SAFETY: see above.
    unsafe {
        examination_classes(
            file.as_ptr(),
            file.len(),
            class_row.as_mut_ptr(),
            class_row.len(),
            weight_row.as_mut_ptr(),
            weight_row.len(),
            answer,
        )
    }
}

pub fn search(file: &[u8], start_row: &mut [i32], budget: u32, answer: &mut [u32; 3]) -> u32 {
    // SAFETY: see above.
    unsafe {
        examination_search(
            file.as_ptr(),
            file.len(),
            start_row.as_mut_ptr(),
            start_row.len(),
            budget,
            answer,
        )
    }
}

pub fn wanted(
    file: &[u8],
    start_row: &mut [i32],
    wanted: u16,
    budget: u32,
    answer: &mut [u32; 1],
) -> u32 {
    // SAFETY: see above.
    unsafe {
        examination_wanted(
            file.as_ptr(),
            file.len(),
            start_row.as_mut_ptr(),
            start_row.len(),
            wanted,
            budget,
            answer,
        )
    }
}

pub fn better(file: &[u8], first: &[u8], second: &[u8]) -> u32 {
    // SAFETY: see above.
    unsafe {
        examination_better(
            file.as_ptr(),
            file.len(),
            first.as_ptr(),
            first.len(),
            second.as_ptr(),
            second.len(),
        )
    }
}

pub fn hundred(
    file: &[u8],
    sheet: &[u8],
    budget: u32,
    answer: &mut [u32; 6],
    hundred: &mut [u32; 2],
) -> u32 {
    // SAFETY: see above.
    unsafe {
        examination_hundred(
            file.as_ptr(),
            file.len(),
            sheet.as_ptr(),
            sheet.len(),
            budget,
            answer,
            hundred,
        )
    }
}

pub fn by_key(file: &[u8], sheet: &[u8], key: &[u8], hundred: &mut [u32; 2]) -> u32 {
    // SAFETY: see above.
    unsafe {
        examination_by_key(
            file.as_ptr(),
            file.len(),
            sheet.as_ptr(),
            sheet.len(),
            key.as_ptr(),
            key.len(),
            hundred,
        )
    }
}

pub fn archive(file: &[u8], row: &mut [u8]) -> u32 {
    // SAFETY: see above.
    unsafe { examination_archive(file.as_ptr(), file.len(), row.as_mut_ptr(), row.len()) }
}

pub fn board(
    file: &[u8],
    sheet: &[u8],
    (stop, first, length): (u32, i32, u32),
    time_row: &mut [i64],
    line_row: &mut [u8],
    answer: &mut [u32; 1],
) -> u32 {
    // SAFETY: see above.
    unsafe {
        examination_board(
            file.as_ptr(),
            file.len(),
            sheet.as_ptr(),
            sheet.len(),
            stop,
            first,
            length,
            time_row.as_mut_ptr(),
            time_row.len(),
            line_row.as_mut_ptr(),
            line_row.len(),
            answer,
        )
    }
}

pub fn gaps(file: &[u8], sheet: &[u8], gap_row: &mut [u16; 64], answer: &mut [u32; 2]) -> u32 {
    // SAFETY: see above.
    unsafe {
        examination_gaps(
            file.as_ptr(),
            file.len(),
            sheet.as_ptr(),
            sheet.len(),
            gap_row,
            answer,
        )
    }
}
