//! The careful Rust peer: the calls of shortlist.h, with the same results on every input. No allocation, no dependency.
//!
//! `CHECKED` chooses how lists are indexed: with bounds checks, or without. Everything else is the same code.

mod access;
mod lattice;
mod levels;
mod read;
mod window;

pub const COLUMNS: usize = 8;
pub const MAX_ROWS: usize = 1_024;
pub const MAX_NAMES: usize = 64;
pub const MAX_NODES: usize = 32_768;

fn result<T>(answer: Result<T, i32>, count: impl Fn(T) -> u32) -> i32 {
    answer.map_or_else(|number| -number, |value| count(value) as i32)
}

/// The lattice engine within a budget of crossings.
#[inline(never)]
pub fn lattice<const CHECKED: bool>(stream: &[u8], marks: &mut [u8], budget: u32) -> i32 {
    result(lattice::run::<CHECKED>(stream, marks, budget), |best| best)
}

/// The window engine with a window of w entries.
#[inline(never)]
pub fn window<const CHECKED: bool>(stream: &[u8], marks: &mut [u8], w: u32) -> i32 {
    result(window::run::<CHECKED>(stream, marks, w), |counts| counts.released)
}

/// The machine's count for a stream that the window engine accepts, for the check before timing.
pub fn window_compares<const CHECKED: bool>(stream: &[u8], w: u32) -> Result<u32, i32> {
    window::run::<CHECKED>(stream, &mut [0; MAX_ROWS], w).map(|counts| counts.compares)
}
