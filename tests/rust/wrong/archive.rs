//! The model in the archive's place, with the archive's two symbols: with one line made wrong it shows that the tests see the fault.

#[path = "../src/model/mod.rs"]
#[allow(dead_code)]
mod model;

use model::{lattice, levels, machine, reader};

/// # Safety
/// As the header says: both buffers are live and do not overlap.
#[no_mangle]
pub unsafe extern "C" fn shortlist_lattice(stream: *const u8, stream_len: usize, marks: *mut u8, marks_len: usize, budget: u32) -> i32 {
    answer(by_lattice(lent(stream, stream_len), lent_mut(marks, marks_len), budget))
}

/// # Safety
/// As the header says: both buffers are live and do not overlap.
#[no_mangle]
pub unsafe extern "C" fn shortlist_window(stream: *const u8, stream_len: usize, marks: *mut u8, marks_len: usize, w: u32) -> i32 {
    answer(by_window(lent(stream, stream_len), lent_mut(marks, marks_len), w))
}

unsafe fn lent<'a>(from: *const u8, length: usize) -> &'a [u8] {
    if length == 0 {
        &[]
    } else {
        std::slice::from_raw_parts(from, length)
    }
}

unsafe fn lent_mut<'a>(from: *mut u8, length: usize) -> &'a mut [u8] {
    if length == 0 {
        &mut []
    } else {
        std::slice::from_raw_parts_mut(from, length)
    }
}

fn answer(result: Result<i32, i32>) -> i32 {
    result.unwrap_or_else(|number| -number)
}

fn by_lattice(stream: &[u8], marks: &mut [u8], budget: u32) -> Result<i32, i32> {
    let input = reader::read(stream).map_err(|refusal| refusal.number)?;
    let rows = input.runs.len();
    if marks.len() < rows {
        return Err(10);
    }
    if levels::any_outside(&input) {
        return Err(8);
    }
    let (tops, log) = (levels::tops(&input), levels::of_log(&input));
    lattice::nodes(&tops).ok_or(9)?;
    let bytes = lattice::bytes(&tops, &log);
    if budget < lattice::crossings(&tops, &bytes) {
        return Err(11);
    }
    let best: Vec<u8> = log.iter().map(|row| u8::from(bytes[lattice::node(&tops, row)] == 1)).collect();
    Ok(write(&best, marks))
}

fn by_window(stream: &[u8], marks: &mut [u8], w: u32) -> Result<i32, i32> {
    let input = reader::read(stream).map_err(|refusal| refusal.number)?;
    let rows = input.runs.len();
    if marks.len() < rows || !(1..=1_024).contains(&w) {
        return Err(10);
    }
    if levels::any_outside(&input) {
        return Err(8);
    }
    let log = levels::of_log(&input);
    let best = machine::marks(rows, &machine::run(&log, w as usize).result);
    Ok(write(&best, marks))
}

fn write(best: &[u8], marks: &mut [u8]) -> i32 {
    marks[..best.len()].copy_from_slice(best);
    best.iter().map(|mark| i32::from(*mark)).sum()
}
