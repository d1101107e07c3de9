//! Reading: checks 2 to 7 record by record, then 1.

use crate::access::{get, part};
use crate::{COLUMNS, MAX_NAMES, MAX_ROWS};

const LOWEST: u8 = 1;
const HIGHEST: u8 = 2;
const BETWEEN: u8 = 4;
const LAYERED: u8 = 5;
const NAMED: u8 = 6;
const RUN: u8 = 7;
pub const RUN_BYTES: usize = 33;
const RECORD_BYTES: [usize; 8] = [0, 14, 14, 18, 22, 4, 6, RUN_BYTES];

/// A LAYERED wish; its names are those from `first` up to `end`.
#[derive(Clone, Copy, Default)]
pub struct Layers {
    pub column: usize,
    pub others: u8,
    top: u8,
    pub first: usize,
    pub end: usize,
}

/// Wishes by column, not by place: rows are compared the same in any order of levels, and eight columns fill a vector register.
/// A column without a wish takes every value and has level 0. All distances are how far a value lies outside low..up: for LOWEST both
/// are lo, for HIGHEST hi, for AROUND z.
pub struct Input<'a> {
    pub lo: [i32; COLUMNS],
    pub hi: [i32; COLUMNS],
    pub low: [f64; COLUMNS],
    pub up: [f64; COLUMNS],
    pub step: [f64; COLUMNS],
    pub per_step: [f64; COLUMNS],
    pub wishes: usize,
    taken: u32,
    /// By place, as the greatest levels.
    pub column: [usize; COLUMNS],
    pub top: [u32; COLUMNS],
    pub layered: usize,
    pub layers: [Layers; COLUMNS],
    names: usize,
    pub name: [i32; MAX_NAMES],
    pub layer: [u8; MAX_NAMES],
    /// The run records, which stay where they are.
    pub runs: &'a [u8],
    pub rows: usize,
}

impl Input<'_> {
    fn new() -> Self {
        Input {
            lo: [i32::MIN; COLUMNS],
            hi: [i32::MAX; COLUMNS],
            low: [f64::from(i32::MIN); COLUMNS],
            up: [f64::from(i32::MAX); COLUMNS],
            step: [1.0; COLUMNS],
            per_step: [1.0; COLUMNS],
            wishes: 0,
            taken: 0,
            column: [0; COLUMNS],
            top: [0; COLUMNS],
            layered: 0,
            layers: [Layers::default(); COLUMNS],
            names: 0,
            name: [0; MAX_NAMES],
            layer: [0; MAX_NAMES],
            runs: &[],
            rows: 0,
        }
    }

    fn place_wish(&mut self, column: usize, top: u32) {
        self.column[self.wishes] = column;
        self.top[self.wishes] = top;
        self.wishes += 1;
    }
}

/// The whole stream, or the number that it is refused by.
pub fn read<const CHECKED: bool>(stream: &[u8]) -> Result<Input<'_>, i32> {
    let mut input = Input::new();
    let mut at = 0;
    let mut before = 0;
    while at < stream.len() && get::<CHECKED, _>(stream, at) != RUN {
        read_record(&stream[at..], before, &mut input)?;
        before = stream[at];
        at += RECORD_BYTES[usize::from(before)];
    }
    if stream.is_empty() {
        return Err(1);
    }
    input.runs = &stream[at..];
    input.rows = count_runs::<CHECKED>(input.runs, input.wishes)?;
    Ok(input)
}

/// Only runs can follow on a run, so one byte in 33 is looked at.
fn count_runs<const CHECKED: bool>(runs: &[u8], wishes: usize) -> Result<usize, i32> {
    if wishes == 0 && !runs.is_empty() {
        return Err(3);
    }
    let mut rows = 0;
    let mut at = 0;
    while at < runs.len() {
        match get::<CHECKED, _>(runs, at) {
            RUN => {}
            1..=6 => return Err(3),
            _ => return Err(2),
        }
        if runs.len() - at < RUN_BYTES {
            return Err(4);
        }
        if rows == MAX_ROWS {
            return Err(7);
        }
        rows += 1;
        at += RUN_BYTES;
    }
    Ok(rows)
}

/// One wish or name; `before` is the kind of the record before it.
fn read_record(record: &[u8], before: u8, input: &mut Input) -> Result<(), i32> {
    let kind = record[0];
    if kind == 0 || kind > RUN {
        return Err(2);
    }
    if kind == NAMED && before != LAYERED && before != NAMED {
        return Err(3);
    }
    if record.len() < RECORD_BYTES[usize::from(kind)] {
        return Err(4);
    }
    if kind == NAMED {
        return read_name(record, input);
    }
    let column = usize::from(record[1]);
    if column >= COLUMNS || input.taken >> column & 1 == 1 {
        return Err(5);
    }
    input.taken |= 1 << column;
    if kind == LAYERED {
        read_layered(record, column, input)
    } else {
        read_numeric(record, column, input)
    }
}

fn signed(record: &[u8], at: usize) -> i32 {
    i32::from_le_bytes(*part::<true, _, 4>(record, at))
}

fn read_name(record: &[u8], input: &mut Input) -> Result<(), i32> {
    let layers = &mut input.layers[input.layered - 1];
    if record[5] > layers.top {
        return Err(6);
    }
    if input.names == MAX_NAMES {
        return Err(7);
    }
    input.name[input.names] = signed(record, 1);
    input.layer[input.names] = record[5];
    input.names += 1;
    layers.end = input.names;
    Ok(())
}

fn read_layered(record: &[u8], column: usize, input: &mut Input) -> Result<(), i32> {
    let (top, others) = (record[2], record[3]);
    if !(1..=15).contains(&top) || others > top {
        return Err(6);
    }
    input.layers[input.layered] = Layers { column, others, top, first: input.names, end: input.names };
    input.layered += 1;
    input.place_wish(column, u32::from(top));
    Ok(())
}

fn read_numeric(record: &[u8], column: usize, input: &mut Input) -> Result<(), i32> {
    let (lo, hi, step) = (signed(record, 2), signed(record, 6), signed(record, 10) as u32);
    let low = match record[0] {
        LOWEST => lo,
        HIGHEST => hi,
        _ => signed(record, 14),
    };
    let up = if record[0] == BETWEEN { signed(record, 18) } else { low };
    if step == 0 || lo > hi || low < lo || up < low || hi < up {
        return Err(6);
    }
    let top = lo.abs_diff(low).max(hi.abs_diff(up)).div_ceil(step);
    if top > 65_535 {
        return Err(7);
    }
    input.lo[column] = lo;
    input.hi[column] = hi;
    input.low[column] = f64::from(low);
    input.up[column] = f64::from(up);
    input.step[column] = f64::from(step);
    input.per_step[column] = 1.0 / f64::from(step);
    input.place_wish(column, top);
    Ok(())
}
