//! Streams put together record by record, so that records can be swapped, left out and doubled.

pub type Record = Vec<u8>;

pub fn stream(records: &[Record]) -> Vec<u8> {
    records.concat()
}

/// A record of a kind with a column and numbers of four bytes: LOWEST, HIGHEST, AROUND, BETWEEN, kind 08. A step above 2^31 is given as its
/// bits.
pub fn numeric(kind: u8, column: u8, figures: &[i32]) -> Record {
    let mut record = vec![kind, column];
    figures.iter().for_each(|figure| record.extend(figure.to_le_bytes()));
    record
}

pub fn lowest(column: u8, lo: i32, hi: i32, step: u32) -> Record {
    numeric(1, column, &[lo, hi, step as i32])
}

pub fn highest(column: u8, lo: i32, hi: i32, step: u32) -> Record {
    numeric(2, column, &[lo, hi, step as i32])
}

pub fn around(column: u8, lo: i32, hi: i32, step: u32, z: i32) -> Record {
    numeric(3, column, &[lo, hi, step as i32, z])
}

pub fn between(column: u8, lo: i32, hi: i32, step: u32, low: i32, up: i32) -> Record {
    numeric(4, column, &[lo, hi, step as i32, low, up])
}

/// Kind 08: BETWEEN's body.
pub fn sided(column: u8, lo: i32, hi: i32, step: u32, low: i32, up: i32) -> Record {
    numeric(8, column, &[lo, hi, step as i32, low, up])
}

pub fn layered(column: u8, top: u8, others: u8) -> Record {
    vec![5, column, top, others]
}

pub fn named(value: i32, layer: u8) -> Record {
    let mut record = vec![6];
    record.extend(value.to_le_bytes());
    record.push(layer);
    record
}

pub fn run(values: &[i32; 8]) -> Record {
    let mut record = vec![7];
    values.iter().for_each(|value| record.extend(value.to_le_bytes()));
    record
}

/// A run of one hour whose columns from 1 on are given, the rest 0.
pub fn row(values: &[i32]) -> Record {
    let mut run_values = [0; 8];
    run_values[0] = 1;
    run_values[1..=values.len()].copy_from_slice(values);
    run(&run_values)
}

/// The Harbour log of document 01.
pub fn harbour() -> Vec<Record> {
    harbour_with(around(2, 1_000, 1_600, 50, 1_250))
}

/// The same with kind 08 in place of AROUND.
pub fn harbour_sided() -> Vec<Record> {
    harbour_with(sided(2, 1_000, 1_600, 50, 1_250, 1_250))
}

fn harbour_with(density: Record) -> Vec<Record> {
    let mut records = vec![highest(1, 0, 1_000, 100), density];
    for (hours, cubic_metres, density) in [(800, 900, 1_300), (650, 1_000, 1_400), (700, 850, 1_250), (720, 880, 1_210), (810, 900, 1_270)] {
        records.push(run(&[hours, cubic_metres, density, 0, 0, 0, 0, 0]));
    }
    records
}

/// LOWEST wishes on columns 1, 2, .. with the given M, lo 0 and step 1: a row's values are its levels.
pub fn by_levels(tops: &[u32], rows: &[&[i32]]) -> Vec<Record> {
    let mut records: Vec<Record> = (1..).zip(tops).map(|(column, top)| lowest(column, 0, *top as i32, 1)).collect();
    records.extend(rows.iter().map(|levels| row(levels)));
    records
}
