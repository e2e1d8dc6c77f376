// The proved library as C sees it; the comments stand in include/sumbelgo.h.
#[repr(C)]
#[derive(Clone, Copy, Debug, PartialEq)]
pub struct Answer {
    pub count: usize,
    pub refusal: u8,
}

unsafe extern "C" {
    fn sumbelgo_open(
        rows: usize,
        columns: usize,
        drawing: *const i32,
        drawing_len: usize,
        amounts: *mut i32,
        amounts_len: usize,
        codes: *mut u8,
        codes_len: usize,
    ) -> u8;
    fn sumbelgo_finish(
        rows: usize,
        columns: usize,
        least: i32,
        drawing: *const i32,
        drawing_len: usize,
        amounts: *mut i32,
        amounts_len: usize,
        codes: *mut u8,
        codes_len: usize,
    ) -> Answer;
    fn sumbelgo_fix(
        rows: usize,
        columns: usize,
        least: i32,
        drawing: *const i32,
        drawing_len: usize,
        amounts: *mut i32,
        amounts_len: usize,
        codes: *mut u8,
        codes_len: usize,
        row: usize,
        column: usize,
    ) -> Answer;
    fn sumbelgo_halt(
        rows: usize,
        columns: usize,
        least: i32,
        drawing: *const i32,
        drawing_len: usize,
        amounts: *const i32,
        amounts_len: usize,
        codes: *const u8,
        codes_len: usize,
        out: *mut u8,
        out_len: usize,
    ) -> Answer;
    fn sumbelgo_resume(
        rows: usize,
        columns: usize,
        least: i32,
        drawing: *const i32,
        drawing_len: usize,
        amounts: *mut i32,
        amounts_len: usize,
        codes: *mut u8,
        codes_len: usize,
        saved: *const u8,
        saved_len: usize,
    ) -> Answer;
    fn sumbelgo_pack(rows: usize, columns: usize, codes: *const u8, codes_len: usize, out: *mut u8, out_len: usize) -> Answer;
    fn sumbelgo_read(input: *const u8, input_len: usize, band: *mut u8, band_len: usize) -> Reading;
}

// What a file told.
#[repr(C)]
pub struct Reading {
    pub rows: usize,
    pub columns: usize,
    pub end: usize,
    pub offset: usize,
    pub refusal: u8,
}

// The record of a job.
pub fn halt(rows: usize, columns: usize, least: i32, drawing: &[i32], amounts: &[i32], codes: &[u8], out: &mut [u8]) -> Answer {
    // SAFETY: the slices come with their lengths, and Rust keeps them apart.
    unsafe {
        sumbelgo_halt(
            rows,
            columns,
            least,
            drawing.as_ptr(),
            drawing.len(),
            amounts.as_ptr(),
            amounts.len(),
            codes.as_ptr(),
            codes.len(),
            out.as_mut_ptr(),
            out.len(),
        )
    }
}

// The job of a record.
pub fn resume(rows: usize, columns: usize, least: i32, drawing: &[i32], amounts: &mut [i32], codes: &mut [u8], saved: &[u8]) -> Answer {
    // SAFETY: as above.
    unsafe {
        sumbelgo_resume(
            rows,
            columns,
            least,
            drawing.as_ptr(),
            drawing.len(),
            amounts.as_mut_ptr(),
            amounts.len(),
            codes.as_mut_ptr(),
            codes.len(),
            saved.as_ptr(),
            saved.len(),
        )
    }
}

// A draft as a raw PBM.
pub fn pack(rows: usize, columns: usize, codes: &[u8], out: &mut [u8]) -> Answer {
    // SAFETY: as above.
    unsafe { sumbelgo_pack(rows, columns, codes.as_ptr(), codes.len(), out.as_mut_ptr(), out.len()) }
}

// The samples of a plain PGM.
pub fn read(input: &[u8], band: &mut [u8]) -> Reading {
    // SAFETY: as above.
    unsafe { sumbelgo_read(input.as_ptr(), input.len(), band.as_mut_ptr(), band.len()) }
}

// Every square open, and the drawing in the amounts.
pub fn open(rows: usize, columns: usize, drawing: &[i32], amounts: &mut [i32], codes: &mut [u8]) -> u8 {
    // SAFETY: the slices come with their lengths, and Rust keeps them apart.
    unsafe {
        sumbelgo_open(
            rows,
            columns,
            drawing.as_ptr(),
            drawing.len(),
            amounts.as_mut_ptr(),
            amounts.len(),
            codes.as_mut_ptr(),
            codes.len(),
        )
    }
}

// Every open square, rank by rank.
pub fn finish(rows: usize, columns: usize, least: i32, drawing: &[i32], amounts: &mut [i32], codes: &mut [u8]) -> Answer {
    // SAFETY: as above.
    unsafe {
        sumbelgo_finish(
            rows,
            columns,
            least,
            drawing.as_ptr(),
            drawing.len(),
            amounts.as_mut_ptr(),
            amounts.len(),
            codes.as_mut_ptr(),
            codes.len(),
        )
    }
}

// One square.
#[inline(always)]
pub fn fix(
    rows: usize,
    columns: usize,
    least: i32,
    drawing: &[i32],
    amounts: &mut [i32],
    codes: &mut [u8],
    row: usize,
    column: usize,
) -> Answer {
    // SAFETY: as above.
    unsafe {
        sumbelgo_fix(
            rows,
            columns,
            least,
            drawing.as_ptr(),
            drawing.len(),
            amounts.as_mut_ptr(),
            amounts.len(),
            codes.as_mut_ptr(),
            codes.len(),
            row,
            column,
        )
    }
}
