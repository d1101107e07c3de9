//! Random streams that read: 1 to 8 wishes of all forms, M from 0 to 65,535, 0 to 64 names, 0 to 1,024 runs, mostly small.

use crate::model::reader::{LAYERED, SIDED};
use crate::random::Random;
use crate::records::{around, between, highest, layered, lowest, named, numeric, run, sided, Record};

const LEAST: i64 = i32::MIN as i64;
const MOST: i64 = i32::MAX as i64;

/// The kinds that the wishes of a list are drawn from.
type Kinds = &'static [u8];
const FIVE_FORMS: Kinds = &[1, 2, 3, 4, LAYERED];
/// With lists of kind 08 alone, one in eight, it makes a fourth of all wishes.
const SIX_FORMS: Kinds = &[1, 2, 3, 4, LAYERED, LAYERED, SIDED];

/// A wish: its records, and values that runs may have in its column.
struct Wished {
    column: u8,
    records: Vec<Record>,
    lo: i64,
    hi: i64,
    /// Values at and next to the places where the level changes: ties are frequent.
    pool: Vec<i32>,
}

#[derive(Clone)]
pub struct Generated {
    pub wishes: Vec<Record>,
    pub runs: Vec<[i32; 8]>,
}

impl Generated {
    pub fn records(&self) -> Vec<Record> {
        self.wishes.iter().cloned().chain(self.runs.iter().map(run)).collect()
    }

    pub fn stream(&self) -> Vec<u8> {
        self.records().concat()
    }
}

/// Any stream that reads; about one in twelve has a value outside lo..hi.
pub fn stream(random: &mut Random) -> Generated {
    let rows = row_count(random);
    stream_of(random, rows)
}

pub fn stream_of(random: &mut Random, rows: usize) -> Generated {
    let kinds = if random.one_in(8) { &[SIDED] } else { SIX_FORMS };
    stream_from(random, kinds, rows)
}

/// Any stream that reads and has no wish of kind 08: the bench's peers do not know it.
pub fn stream_of_five_forms(random: &mut Random) -> Generated {
    let rows = row_count(random);
    stream_from(random, FIVE_FORMS, rows)
}

fn stream_from(random: &mut Random, kinds: Kinds, rows: usize) -> Generated {
    let wished = wish_list(random, kinds);
    let mut runs = log(random, &wished, rows);
    if random.one_in(12) {
        put_outside(random, &wished, &mut runs);
    }
    Generated { wishes: wished.into_iter().flat_map(|wish| wish.records).collect(), runs }
}

fn row_count(random: &mut Random) -> usize {
    let most = random.pick(&[3, 10, 10, 25, 25, 25, 60, 60]);
    if random.one_in(100) {
        return random.pick(&[100, 200, 400, 700, 1_023, 1_024]);
    }
    random.between(0, most) as usize
}

fn wish_list(random: &mut Random, kinds: Kinds) -> Vec<Wished> {
    let mut columns: Vec<u8> = (0..8).collect();
    random.shuffle(&mut columns);
    columns.truncate(random.pick(&[1, 2, 2, 2, 3, 3, 4, 5, 6, 7, 8]));
    let drawn: Vec<u8> = columns.iter().map(|_| random.pick(kinds)).collect();
    let pairs = drawn.iter().filter(|kind| **kind == SIDED).count();
    let most = greatest_level(random, columns.len() + pairs);
    let mut names_left = 64;
    columns.into_iter().zip(drawn).map(|(column, kind)| wish(random, kind, column, most, &mut names_left)).collect()
}

/// Four streams of five get a lattice of about 2^bits nodes at most, the others any M.
fn greatest_level(random: &mut Random, parts: usize) -> i64 {
    if random.one_in(5) {
        return random.pick(&[12, 200, 5_000, 65_535]);
    }
    let most_bits = if random.one_in(8) { 15 } else { 10 };
    let bits = random.between(1, most_bits) as f64;
    ((bits / parts as f64).exp2() as i64 - 1).max(1)
}

fn wish(random: &mut Random, kind: u8, column: u8, most: i64, names_left: &mut i64) -> Wished {
    if kind == LAYERED {
        layered_wish(random, column, most, names_left)
    } else {
        numeric_wish(random, kind, column, most)
    }
}

/// lo..hi is as wide as a level of at most `most` allows, often just so, and often at an end of what 32 bits hold.
fn numeric_wish(random: &mut Random, kind: u8, column: u8, most: i64) -> Wished {
    let top = if random.one_in(3) { most } else { random.between(0, most) };
    let step = random.pick(&[1, 1, 2, 3, 5, 50, 100, 1_000, 65_537, 1 << 31, u32::MAX]);
    let step = step.min(u32::MAX / (top.max(1) as u32));
    let width = (top * i64::from(step) - random.below(u64::from(step)) as i64).max(0);
    let lo = match random.below(4) {
        0 => LEAST,
        1 => MOST - width,
        _ => random.between(-1_000, 1_000).min(MOST - width).max(LEAST),
    };
    let hi = lo + width;
    let (low, up) = target(random, lo, hi);
    let at = |v: i64| v as i32;
    let (record, low, up) = match kind {
        1 => (lowest(column, at(lo), at(hi), step), lo, lo),
        2 => (highest(column, at(lo), at(hi), step), hi, hi),
        3 => (around(column, at(lo), at(hi), step, at(low)), low, low),
        4 => (between(column, at(lo), at(hi), step, at(low), at(up)), low, up),
        _ => (sided(column, at(lo), at(hi), step, at(low), at(up)), low, up),
    };
    let pool = near_steps(random, lo, hi, i64::from(step), low, up);
    Wished { column, records: vec![record], lo, hi, pool }
}

fn target(random: &mut Random, lo: i64, hi: i64) -> (i64, i64) {
    let place = |random: &mut Random| match random.below(5) {
        0 => lo,
        1 => hi,
        _ => random.between(lo, hi),
    };
    let (a, b) = (place(random), place(random));
    (a.min(b), a.max(b))
}

/// Up to eight values where a level begins or ends, one before or one after.
fn near_steps(random: &mut Random, lo: i64, hi: i64, step: i64, low: i64, up: i64) -> Vec<i32> {
    let steps = (hi - lo) / step + 1;
    let value = |random: &mut Random| {
        let away = random.between(0, steps.min(6)) * step + random.between(-1, 1);
        let v = if random.one_in(2) { low - away } else { up + away };
        v.max(lo).min(hi) as i32
    };
    let count = random.between(2, 8);
    (0..count).map(|_| value(random)).collect()
}

fn layered_wish(random: &mut Random, column: u8, most: i64, names_left: &mut i64) -> Wished {
    let top = random.between(1, most.clamp(1, 15));
    let others = random.between(0, top);
    let most_names = if random.one_in(20) { 64 } else { 6 };
    let names = random.between(0, most_names).min(*names_left);
    *names_left -= names;
    let mut records = vec![layered(column, top as u8, others as u8)];
    let mut pool: Vec<i32> = vec![-7, 1_000_000];
    for _ in 0..names {
        let value = if random.one_in(8) { random.bits() as i32 } else { random.between(-3, 30) as i32 };
        records.push(named(value, random.between(0, top) as u8));
        pool.push(value);
    }
    Wished { column, records, lo: LEAST, hi: MOST, pool }
}

/// Rows with many ties: some repeat an earlier row, some differ from one in a single wish.
fn log(random: &mut Random, wished: &[Wished], rows: usize) -> Vec<[i32; 8]> {
    let mut runs: Vec<[i32; 8]> = vec![];
    for _ in 0..rows {
        let fresh = runs.is_empty() || !random.one_in(3);
        let mut run = if fresh { fresh_run(random, wished) } else { random.pick(&runs) };
        if !fresh && random.one_in(2) {
            let wish = &wished[random.below(wished.len() as u64) as usize];
            run[usize::from(wish.column)] = value(random, wish);
        }
        runs.push(run);
    }
    runs
}

fn fresh_run(random: &mut Random, wished: &[Wished]) -> [i32; 8] {
    let mut run: [i32; 8] = std::array::from_fn(|_| if random.one_in(2) { random.bits() as i32 } else { 1 });
    for wish in wished {
        run[usize::from(wish.column)] = value(random, wish);
    }
    run
}

fn value(random: &mut Random, wish: &Wished) -> i32 {
    if random.one_in(4) {
        random.between(wish.lo, wish.hi) as i32
    } else {
        random.pick(&wish.pool)
    }
}

/// One value just outside lo..hi, where 32 bits have room for one.
fn put_outside(random: &mut Random, wished: &[Wished], runs: &mut [[i32; 8]]) {
    if runs.is_empty() {
        return;
    }
    let wish = &wished[random.below(wished.len() as u64) as usize];
    let value = if random.one_in(2) { wish.lo - 1 } else { wish.hi + 1 };
    if let Ok(value) = i32::try_from(value) {
        let row = random.below(runs.len() as u64) as usize;
        runs[row][usize::from(wish.column)] = value;
    }
}

/// Mostly best rows: on two wishes one falls as the other rises. Every window below `rows` overflows.
pub fn mostly_best(random: &mut Random, rows: usize) -> Generated {
    let wishes = vec![lowest(1, 0, 170, 1), highest(2, 0, 170, 1)];
    let mut runs: Vec<[i32; 8]> = vec![];
    for _ in 0..rows {
        let place = random.between(0, 170) as i32;
        let worse = if random.one_in(5) { random.between(0, 3) as i32 } else { 0 };
        runs.push([1, (place + worse).min(170), place, 0, 0, 0, 0, 0]);
    }
    Generated { wishes, runs }
}

/// The same with sixteen level parts, under eight wishes of kind 08: one run of five lies further out than another.
pub fn mostly_best_of_pairs(random: &mut Random, rows: usize) -> Generated {
    let wishes = (0..8).map(|column| sided(column, 80, 120, 1, 100, 100)).collect();
    let mut runs: Vec<[i32; 8]> = vec![];
    for _ in 0..rows {
        let mut run = equal_sum(random);
        if !runs.is_empty() && random.one_in(5) {
            run = random.pick(&runs);
            let value = &mut run[random.below(8) as usize];
            *value = (*value + (*value - 100).signum()).clamp(80, 120);
        }
        runs.push(run);
    }
    random.shuffle(&mut runs);
    Generated { wishes, runs }
}

/// Levels whose sum is 40, each above or below 100 by chance: no such run betters another.
fn equal_sum(random: &mut Random) -> [i32; 8] {
    let mut run = [0; 8];
    for two in run.chunks_mut(2) {
        two[0] = random.between(0, 10) as i32;
        two[1] = 10 - two[0];
    }
    run.map(|level| if random.one_in(2) { 100 + level } else { 100 - level })
}

/// The longest stream that reads: 34,334 bytes.
pub fn longest() -> Vec<u8> {
    let wishes: Vec<u8> = (0..7).flat_map(|column| between(column, -9, 9, 1, 0, 0)).collect();
    let names: Vec<u8> = (0..64).flat_map(|value| named(value, 0)).collect();
    let runs: Vec<u8> = (0..1_024).flat_map(|row| run(&[row % 3, 1, 2, 3, 4, 5, 6, 7])).collect();
    let longest = [wishes, layered(7, 1, 1), names, runs].concat();
    assert_eq!(longest.len(), 34_334);
    longest
}

/// Streams that go on after the longest one, and others as long, with their refusal numbers. 65,536 is where an input buffer may end.
pub fn too_long() -> Vec<(Vec<u8>, i32)> {
    let longest = longest();
    let after = |rest: &[u8]| [&longest, rest].concat();
    let a_run = run(&[0; 8]);
    let mut streams = vec![(after(&a_run), 7), (after(&a_run[..32]), 4), (after(&[7]), 4), (after(&[1]), 3), (after(&[8]), 3), (after(&[9]), 2)];
    for length in [65_535, 65_536, 65_537, 70_000, 300_000] {
        let rest = length - longest.len();
        streams.push((after(&vec![7; rest]), 7));
        streams.push((after(&vec![0; rest]), 2));
        streams.push((vec![0; length], 2));
        streams.push((vec![7; length], 3));
    }
    streams
}

/// A record of any kind with any figures, more often sound than not.
pub fn any_record(random: &mut Random) -> Record {
    let column = random.below(10) as u8;
    let figure = |random: &mut Random| random.pick(&[0, 1, -1, 5, 100, i32::MIN, i32::MAX]);
    match random.below(9) {
        0 => {
            let figures = [figure(random), figure(random), figure(random), figure(random), figure(random)];
            let (kind, count) = random.pick(&[(1, 3), (2, 3), (3, 4), (4, 5), (SIDED, 5)]);
            numeric(kind, column, &figures[..count])
        }
        1 => lowest(column, 0, random.pick(&[3, 255, 65_535]), 1),
        2 => around(column, -2, 2, 1, 0),
        3 => between(column, 0, 9, 2, 3, 4),
        4 => layered(column, random.below(18) as u8, random.below(4) as u8),
        5 => named(figure(random), random.below(6) as u8),
        6 => run(&std::array::from_fn(|_| random.between(0, 3) as i32)),
        7 => sided(column, -2, 9, 2, 1, 2),
        _ => vec![random.bits() as u8],
    }
}
