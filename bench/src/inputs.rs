//! The streams that are timed. Each comes from the same seed, so every run of the bench has the same bytes.

use flat_calls::calls::Call;
use flat_calls::random::{Random, SEED};
use flat_calls::records::{around, between, highest, layered, lowest, named, run, sided, Record};

pub struct Case {
    pub name: String,
    pub call: Call,
    pub stream: Vec<u8>,
}

/// A budget that suffices for every log.
pub const BUDGET: u32 = 262_144;
const STEP: i32 = 7;
const ROWS: usize = 1_024;
const FEW: usize = 32;

/// The least value of a column. Hours are above zero: a pump that pumped.
fn least(column: usize) -> i32 {
    if column == 0 {
        1
    } else {
        -1_000
    }
}

/// So many wishes of kind 08, then LOWEST and HIGHEST in turn, with these greatest levels.
fn wishes(pairs: usize, tops: &[i32]) -> Vec<Record> {
    let wish = |(column, top): (u8, &i32)| {
        let (lo, far) = (least(usize::from(column)), top * STEP);
        match column {
            _ if usize::from(column) < pairs => sided(column, lo, lo + 2 * far, STEP as u32, lo + far, lo + far),
            _ if column % 2 == 0 => lowest(column, lo, lo + far, STEP as u32),
            _ => highest(column, lo, lo + far, STEP as u32),
        }
    };
    (0..).zip(tops).map(wish).collect()
}

/// A run with these levels, under kind 08 a negative one below: any value that has the level can come.
fn with_levels(random: &mut Random, pairs: usize, tops: &[i32], levels: &[i32]) -> Record {
    let mut values = [0; 8];
    for (column, (top, level)) in tops.iter().zip(levels).enumerate() {
        let short = if *level == 0 { 0 } else { random.below(STEP as u64) as i32 };
        let distance = level.abs() * STEP - short;
        let (lo, far) = (least(column), top * STEP);
        values[column] = match column {
            _ if column < pairs => lo + far + level.signum() * distance,
            _ if column % 2 == 0 => lo + distance,
            _ => lo + far - distance,
        };
    }
    run(&values)
}

fn stream(random: &mut Random, tops: &[i32], rows: impl IntoIterator<Item = Vec<i32>>) -> Vec<u8> {
    stream_with_pairs(random, 0, tops, rows)
}

fn stream_with_pairs(random: &mut Random, pairs: usize, tops: &[i32], rows: impl IntoIterator<Item = Vec<i32>>) -> Vec<u8> {
    let mut records = wishes(pairs, tops);
    records.extend(rows.into_iter().map(|levels| with_levels(random, pairs, tops, &levels)));
    records.concat()
}

fn uniform(random: &mut Random, tops: &[i32]) -> Vec<i32> {
    tops.iter().map(|top| random.between(0, i64::from(*top)) as i32).collect()
}

/// Rows whose levels have the same sum never better each other.
fn anticorrelated(random: &mut Random, tops: &[i32]) -> Vec<i32> {
    let sum: i32 = tops.iter().sum::<i32>() / 2;
    let mut levels = uniform(random, tops);
    while levels.iter().sum::<i32>() != sum {
        let more = if levels.iter().sum::<i32>() < sum { 1 } else { -1 };
        let column = random.below(tops.len() as u64) as usize;
        levels[column] = (levels[column] + more).clamp(0, tops[column]);
    }
    levels
}

/// Near the top node, so that few nodes are reached.
fn near_top(random: &mut Random, tops: &[i32]) -> Vec<i32> {
    tops.iter().map(|top| top - random.below(2) as i32).collect()
}

/// Every sixteenth row becomes one level worse than the row before it, which may stand before or after it.
fn worsen_some(random: &mut Random, tops: &[i32], rows: &mut [Vec<i32>]) {
    for r in (15..rows.len()).step_by(16) {
        rows[r] = rows[r - 1].clone();
        let column = random.below(tops.len() as u64) as usize;
        let further = if rows[r][column] < 0 { -1 } else { 1 };
        rows[r][column] = (rows[r][column] + further).clamp(-tops[column], tops[column]);
        if random.one_in(2) {
            rows.swap(r, r - 1);
        }
    }
}

/// The first levels of each row lie above or below by chance: a negative one is below.
fn put_on_sides(pairs: usize, rows: &mut [Vec<i32>]) {
    let random = &mut Random::new(SEED + 1);
    for level in rows.iter_mut().flat_map(|row| &mut row[..pairs]) {
        *level = if random.one_in(2) { *level } else { -*level };
    }
}

fn rows_of(n: usize, random: &mut Random, tops: &[i32], row: fn(&mut Random, &[i32]) -> Vec<i32>) -> Vec<Vec<i32>> {
    (0..n).map(|_| row(random, tops)).collect()
}

fn windows() -> Vec<Case> {
    let mut cases = vec![];
    let kinds: [(&str, i32, fn(&mut Random, &[i32]) -> Vec<i32>); 3] =
        [("uniform 0..99", 99, uniform), ("few levels 0..7", 7, uniform), ("anticorrelated", 99, anticorrelated)];
    for (kind, top, row) in kinds {
        let random = &mut Random::new(SEED);
        let tops = [top; 8];
        let mut rows = rows_of(ROWS, random, &tops, row);
        if kind == "anticorrelated" {
            worsen_some(random, &tops, &mut rows);
        }
        let stream = stream(random, &tops, rows);
        for w in [1, 64, 1_024] {
            cases.push(Case { name: format!("window {w}, {kind}"), call: Call::Window { w }, stream: stream.clone() });
        }
    }
    cases
}

pub const WIDEST: u32 = 1_024;

fn equal_sums(pairs: usize) -> Vec<Vec<i32>> {
    let mut rows = rows_of(ROWS, &mut Random::new(SEED), &[99; 8], anticorrelated);
    put_on_sides(pairs, &mut rows);
    rows
}

/// No run betters another: the most compares that there can be. So many of the eight wishes are of kind 08.
pub fn all_best(pairs: usize) -> Vec<u8> {
    stream_with_pairs(&mut Random::new(SEED), pairs, &[99; 8], equal_sums(pairs))
}

/// The same runs, but for the first, which betters all others: one compare each.
pub fn one_best(pairs: usize) -> Vec<u8> {
    let mut rows = equal_sums(pairs);
    rows[0] = vec![0; 8];
    stream_with_pairs(&mut Random::new(SEED), pairs, &[99; 8], rows)
}

/// At most 32,768 nodes each.
const LATTICES: [(&str, &[i32]); 6] = [
    ("128 x 256", &[127, 255]),
    ("181 x 181", &[180; 2]),
    ("30^3", &[29; 3]),
    ("8^5", &[7; 5]),
    ("2 x 4^7", &[1, 3, 3, 3, 3, 3, 3, 3]),
    ("4^7 x 2", &[3, 3, 3, 3, 3, 3, 3, 1]),
];

fn lattices() -> Vec<Case> {
    let mut cases = vec![];
    for (name, tops) in LATTICES {
        let random = &mut Random::new(SEED);
        let mut all = rows_of(ROWS, random, tops, uniform);
        all[ROWS / 2] = vec![0; tops.len()];
        let hardly = rows_of(ROWS, random, tops, near_top);
        let few = rows_of(FEW, random, tops, uniform);
        for (reached, rows) in [("all reached", all), ("hardly reached", hardly), ("rows 32", few)] {
            let stream = stream(random, tops, rows);
            cases.push(Case { name: format!("lattice {name}, {reached}"), call: LATTICE, stream });
        }
    }
    cases
}

/// Five wishes with levels 0 to 7, so that both engines take the stream.
pub fn by_rows(rows: usize) -> Vec<u8> {
    let random = &mut Random::new(SEED);
    let tops = [7; 5];
    let rows = rows_of(rows, random, &tops, uniform);
    stream(random, &tops, rows)
}

pub const WINDOW: Call = Call::Window { w: 64 };
pub const LATTICE: Call = Call::Lattice { budget: BUDGET };

fn scaling() -> Vec<Case> {
    let mut cases = vec![];
    for (engine, call, counts) in [("window 64", WINDOW, vec![1, FEW, ROWS]), ("lattice 8^5", LATTICE, vec![1, ROWS])] {
        for rows in counts {
            cases.push(Case { name: format!("{engine}, rows {rows}"), call, stream: by_rows(rows) });
        }
    }
    cases
}

/// A wish of each form, and all the names that a list can have.
fn five_forms() -> Vec<u8> {
    let random = &mut Random::new(SEED);
    let mut records = vec![lowest(0, 1, 71, 10), highest(1, 0, 70, 10), around(2, 0, 70, 5, 35), between(3, 0, 70, 4, 28, 42)];
    records.push(layered(4, 7, 7));
    records.extend((0..64).map(|value| named(value, (value % 8) as u8)));
    for _ in 0..ROWS {
        let mut values = [0; 8];
        values.iter_mut().for_each(|value| *value = random.between(0, 70) as i32);
        values[0] += 1;
        records.push(run(&values));
    }
    records.concat()
}

/// Wishes of kind 08, which no peer knows. With eight of them the levels are those of the anticorrelated window input, so that as many
/// compares are made over twice the parts.
fn pair_windows() -> Vec<Case> {
    let mut cases = vec![];
    for wishes in [4, 8] {
        let random = &mut Random::new(SEED);
        let tops = vec![99; wishes];
        let mut rows = rows_of(ROWS, random, &tops, anticorrelated);
        put_on_sides(wishes, &mut rows);
        worsen_some(random, &tops, &mut rows);
        let stream = stream_with_pairs(random, wishes, &tops, rows);
        cases.push(Case { name: format!("window 64, kind 08, {} parts", 2 * wishes), call: WINDOW, stream });
    }
    cases
}

/// Two wishes of kind 08 and one other make the lattice of five wishes.
fn pair_lattice() -> Case {
    let random = &mut Random::new(SEED);
    let tops = [7; 3];
    let mut rows = rows_of(ROWS, random, &tops, uniform);
    rows[ROWS / 2] = vec![0; 3];
    put_on_sides(2, &mut rows);
    Case { name: "lattice 8^5, kind 08, all reached".into(), call: LATTICE, stream: stream_with_pairs(random, 2, &tops, rows) }
}

/// All inputs, or with ONLY in the environment those that have its text in their name.
pub fn all() -> Vec<Case> {
    let only = std::env::var("ONLY").unwrap_or_default();
    let mut cases = windows();
    cases.extend(lattices());
    cases.extend(scaling());
    for (engine, call) in [("window 64", WINDOW), ("lattice", LATTICE)] {
        cases.push(Case { name: format!("{engine}, five forms"), call, stream: five_forms() });
    }
    cases.extend(pair_windows());
    cases.push(pair_lattice());
    cases.retain(|case| case.name.contains(&only));
    cases
}
