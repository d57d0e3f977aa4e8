//! The three exports that mark, the board and the gaps, over slices and over rows that the
//! caller has.

use crate::{
    examination_board, examination_by_key, examination_gaps, examination_hundred, examination_mark,
};
use papers::sections::board::Window;

/// A row of so many places; it is valid for them.
pub type Row<const PLACES: usize> = *mut [u32; PLACES];

pub fn mark(file: &[u8], sheet: &[u8], budget: u32, answer: Row<6>) -> u32 {
    let (file, file_len) = (file.as_ptr(), file.len());
    let (sheet, sheet_len) = (sheet.as_ptr(), sheet.len());
    unsafe { examination_mark(file, file_len, sheet, sheet_len, budget, answer) }
}

pub fn hundred(file: &[u8], sheet: &[u8], budget: u32, (answer, hundred): (Row<6>, Row<2>)) -> u32 {
    let (file, file_len) = (file.as_ptr(), file.len());
    let (sheet, sheet_len) = (sheet.as_ptr(), sheet.len());
    unsafe { examination_hundred(file, file_len, sheet, sheet_len, budget, answer, hundred) }
}

pub fn by_key(file: &[u8], sheet: &[u8], key: &[u8], hundred: Row<2>) -> u32 {
    let (file, file_len) = (file.as_ptr(), file.len());
    let (sheet, sheet_len) = (sheet.as_ptr(), sheet.len());
    let (key, key_len) = (key.as_ptr(), key.len());
    unsafe { examination_by_key(file, file_len, sheet, sheet_len, key, key_len, hundred) }
}

/// The row of gaps is valid for 64 places.
pub fn gaps(file: &[u8], sheet: &[u8], gap_row: *mut [u16; 64], answer: Row<2>) -> u32 {
    let (file, file_len) = (file.as_ptr(), file.len());
    let (sheet, sheet_len) = (sheet.as_ptr(), sheet.len());
    unsafe { examination_gaps(file, file_len, sheet, sheet_len, gap_row, answer) }
}

pub fn board(
    file: &[u8],
    sheet: &[u8],
    window: Window,
    (time_row, line_row): (&mut [i64], &mut [u8]),
    answer: Row<1>,
) -> u32 {
    unsafe {
        examination_board(
            file.as_ptr(),
            file.len(),
            sheet.as_ptr(),
            sheet.len(),
            window.stop,
            window.first,
            window.length,
            time_row.as_mut_ptr(),
            time_row.len(),
            line_row.as_mut_ptr(),
            line_row.len(),
            answer,
        )
    }
}
