//! `examination_mark` itself: the wrapper asks `examination_hundred` for a mark, which
//! answers all that this one does.

#[link(name = "examination", kind = "static")]
extern "C" {
    fn examination_mark(
        file: *const u8,
        file_len: usize,
        sheet: *const u8,
        sheet_len: usize,
        budget: u32,
        answer: *mut [u32; 6],
    ) -> u32;
}

/// What the row holds before a call.
pub const BEFORE: [u32; 6] = [7; 6];

/// What it returns, and what it leaves in the row.
pub fn mark(file: &[u8], sheet: &[u8], budget: u32) -> (u32, [u32; 6]) {
    let mut answer = BEFORE;
    let returned = unsafe {
        examination_mark(
            file.as_ptr(),
            file.len(),
            sheet.as_ptr(),
            sheet.len(),
            budget,
            &mut answer,
        )
    };
    (returned, answer)
}
