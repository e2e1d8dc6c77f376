// The proved library as C sees it; the comments stand in include/sumbelgo.h.
use crate::rules::{Answer, Draft, Reading};

#[repr(C)]
struct Told {
    count: usize,
    refusal: u8,
}

#[repr(C)]
struct Totals {
    drawing: i32,
    outputs: i32,
    losses: i32,
    amounts: i32,
    refusal: u8,
}

#[repr(C)]
struct ReadTold {
    rows: usize,
    columns: usize,
    end: usize,
    offset: usize,
    refusal: u8,
}

#[rustfmt::skip]
unsafe extern "C" {
    fn sumbelgo_open(rows: usize, columns: usize, drawing: *const i32, n: usize, amounts: *mut i32, n: usize, codes: *mut u8, n: usize) -> u8;
    fn sumbelgo_fix(rows: usize, columns: usize, least: i32, drawing: *const i32, n: usize, amounts: *mut i32, n: usize, codes: *mut u8, n: usize, row: usize, column: usize) -> Told;
    fn sumbelgo_follow(rows: usize, columns: usize, least: i32, drawing: *const i32, n: usize, amounts: *mut i32, n: usize, codes: *mut u8, n: usize, places: *const usize, n: usize) -> Told;
    fn sumbelgo_finish(rows: usize, columns: usize, least: i32, drawing: *const i32, n: usize, amounts: *mut i32, n: usize, codes: *mut u8, n: usize) -> Told;
    fn sumbelgo_halt(rows: usize, columns: usize, least: i32, drawing: *const i32, n: usize, amounts: *const i32, n: usize, codes: *const u8, n: usize, out: *mut u8, n: usize) -> Told;
    fn sumbelgo_resume(rows: usize, columns: usize, least: i32, drawing: *const i32, n: usize, amounts: *mut i32, n: usize, codes: *mut u8, n: usize, saved: *const u8, n: usize) -> Told;
    fn sumbelgo_tally(rows: usize, columns: usize, least: i32, drawing: *const i32, n: usize, amounts: *const i32, n: usize, codes: *const u8, n: usize) -> Totals;
    fn sumbelgo_losses(rows: usize, columns: usize, least: i32, drawing: *const i32, n: usize, amounts: *const i32, n: usize, codes: *const u8, n: usize, places: *mut usize, n: usize, errors: *mut i32, n: usize) -> Told;
    fn sumbelgo_pack(rows: usize, columns: usize, codes: *const u8, n: usize, out: *mut u8, n: usize) -> Told;
    fn sumbelgo_read(input: *const u8, n: usize, band: *mut u8, n: usize) -> ReadTold;
}

fn pair(told: Told) -> Answer {
    (told.count, told.refusal)
}

// SAFETY, for all of them: each slice comes with its length, and Rust keeps those that are written apart from all others.

pub fn open(d: &Draft, drawing: &[i32], amounts: &mut [i32], codes: &mut [u8]) -> u8 {
    let (a, c) = (amounts.len(), codes.len());
    unsafe { sumbelgo_open(d.rows, d.columns, drawing.as_ptr(), drawing.len(), amounts.as_mut_ptr(), a, codes.as_mut_ptr(), c) }
}

pub fn fix(d: &Draft, drawing: &[i32], amounts: &mut [i32], codes: &mut [u8], row: usize, column: usize) -> Answer {
    let (a, c) = (amounts.len(), codes.len());
    pair(unsafe {
        sumbelgo_fix(d.rows, d.columns, d.least, drawing.as_ptr(), drawing.len(), amounts.as_mut_ptr(), a, codes.as_mut_ptr(), c, row, column)
    })
}

pub fn follow(d: &Draft, drawing: &[i32], amounts: &mut [i32], codes: &mut [u8], places: &[usize]) -> Answer {
    let (a, c) = (amounts.len(), codes.len());
    pair(unsafe {
        let (p, n) = (places.as_ptr(), places.len());
        sumbelgo_follow(d.rows, d.columns, d.least, drawing.as_ptr(), drawing.len(), amounts.as_mut_ptr(), a, codes.as_mut_ptr(), c, p, n)
    })
}

pub fn finish(d: &Draft, drawing: &[i32], amounts: &mut [i32], codes: &mut [u8]) -> Answer {
    let (a, c) = (amounts.len(), codes.len());
    pair(unsafe { sumbelgo_finish(d.rows, d.columns, d.least, drawing.as_ptr(), drawing.len(), amounts.as_mut_ptr(), a, codes.as_mut_ptr(), c) })
}

pub fn halt(d: &Draft, drawing: &[i32], amounts: &[i32], codes: &[u8], out: &mut [u8]) -> Answer {
    let n = out.len();
    pair(unsafe {
        let (a, c) = (amounts.as_ptr(), codes.as_ptr());
        sumbelgo_halt(d.rows, d.columns, d.least, drawing.as_ptr(), drawing.len(), a, amounts.len(), c, codes.len(), out.as_mut_ptr(), n)
    })
}

pub fn resume(d: &Draft, drawing: &[i32], amounts: &mut [i32], codes: &mut [u8], saved: &[u8]) -> Answer {
    let (a, c) = (amounts.len(), codes.len());
    pair(unsafe {
        let (s, n) = (saved.as_ptr(), saved.len());
        sumbelgo_resume(d.rows, d.columns, d.least, drawing.as_ptr(), drawing.len(), amounts.as_mut_ptr(), a, codes.as_mut_ptr(), c, s, n)
    })
}

pub fn tally(d: &Draft, drawing: &[i32], amounts: &[i32], codes: &[u8]) -> ([i32; 4], u8) {
    let told = unsafe {
        let (a, c) = (amounts.as_ptr(), codes.as_ptr());
        sumbelgo_tally(d.rows, d.columns, d.least, drawing.as_ptr(), drawing.len(), a, amounts.len(), c, codes.len())
    };
    ([told.drawing, told.outputs, told.losses, told.amounts], told.refusal)
}

pub fn losses(d: &Draft, drawing: &[i32], amounts: &[i32], codes: &[u8], places: &mut [usize], errors: &mut [i32]) -> Answer {
    let (p, e) = (places.len(), errors.len());
    pair(unsafe {
        let (a, c) = (amounts.as_ptr(), codes.as_ptr());
        let (at, of) = (places.as_mut_ptr(), errors.as_mut_ptr());
        sumbelgo_losses(d.rows, d.columns, d.least, drawing.as_ptr(), drawing.len(), a, amounts.len(), c, codes.len(), at, p, of, e)
    })
}

pub fn pack(rows: usize, columns: usize, codes: &[u8], out: &mut [u8]) -> Answer {
    let n = out.len();
    pair(unsafe { sumbelgo_pack(rows, columns, codes.as_ptr(), codes.len(), out.as_mut_ptr(), n) })
}

pub fn read(input: &[u8], band: &mut [u8]) -> Reading {
    let n = band.len();
    let told = unsafe { sumbelgo_read(input.as_ptr(), input.len(), band.as_mut_ptr(), n) };
    (told.rows, told.columns, told.end, told.offset, told.refusal)
}
