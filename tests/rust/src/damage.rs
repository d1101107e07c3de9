//! Streams that went wrong on the way: bytes flipped, cut, doubled; records swapped, repeated, left out, put in.

use crate::generate::any_record;
use crate::model::reader::{LAYERED, NAMED, RUN};
use crate::random::Random;
use crate::records::{named, stream, Record};

/// One to three faults in the records, then perhaps one in the bytes.
pub fn damage(random: &mut Random, mut records: Vec<Record>) -> Vec<u8> {
    for _ in 0..random.below(3) {
        in_records(random, &mut records);
    }
    let mut bytes = stream(&records);
    if random.one_in(2) {
        in_bytes(random, &mut bytes);
    }
    bytes
}

/// Wishes stand at the head: half of the faults fall there.
fn place(random: &mut Random, length: usize) -> usize {
    let near = if random.one_in(2) { length.min(8) } else { length };
    random.below(near.max(1) as u64) as usize
}

fn in_records(random: &mut Random, records: &mut Vec<Record>) {
    let at = place(random, records.len());
    match random.below(8) {
        0 => records.insert(at.min(records.len()), any_record(random)),
        1 => many_names(random, records),
        _ if records.is_empty() => {}
        2 => {
            let other = place(random, records.len());
            records.swap(at, other);
        }
        3 => drop(records.remove(at)),
        4 => {
            let other = place(random, records.len());
            records.insert(other, records[at].clone());
        }
        5 => records[at] = any_record(random),
        6 => awkward_figure(random, &mut records[at]),
        _ => awkward_byte(random, &mut records[at]),
    }
}

/// Names after the first LAYERED, about as many as a list may hold.
fn many_names(random: &mut Random, records: &mut Vec<Record>) {
    let Some(at) = records.iter().position(|record| record[0] == LAYERED) else { return };
    for value in 0..random.between(55, 70) as i32 {
        records.insert(at + 1, named(value, random.pick(&[0, 0, 0, 0, 0, 0, 0, 0, 0, 0, 0, 0, 0, 0, 0, 1])));
    }
}

/// One of a record's numbers of four bytes becomes 0, the least, the greatest or nearly so.
fn awkward_figure(random: &mut Random, record: &mut Record) {
    // In a wish the column comes first.
    let first = if [NAMED, RUN].contains(&record[0]) { 1 } else { 2 };
    let figures = (record.len() - first.min(record.len())) / 4;
    if figures == 0 {
        return;
    }
    let at = first + 4 * random.below(figures as u64) as usize;
    let figure = random.pick(&[0, 1, -1, 2, 65_536, i32::MIN, i32::MIN + 1, i32::MAX]);
    record[at..at + 4].copy_from_slice(&i32::to_le_bytes(figure));
}

fn awkward_byte(random: &mut Random, record: &mut Record) {
    let at = random.below(record.len().min(4) as u64) as usize;
    record[at] = random.pick(&[0, 1, 2, 3, 4, 5, 6, 7, 8, 9, 15, 16, 255]);
}

fn in_bytes(random: &mut Random, bytes: &mut Vec<u8>) {
    let at = random.below(bytes.len() as u64 + 1) as usize;
    match random.below(7) {
        0 => bytes.truncate(at),
        1 => bytes.extend_from_within(..),
        2 => bytes.insert(at, random.bits() as u8),
        3 => bytes.push(random.below(10) as u8),
        4 if at < bytes.len() => drop(bytes.remove(at)),
        5 if random.one_in(10) => bytes.clear(),
        _ => flip(random, bytes),
    }
}

fn flip(random: &mut Random, bytes: &mut [u8]) {
    if bytes.is_empty() {
        return;
    }
    for _ in 0..random.between(1, 3) {
        let at = place(random, bytes.len());
        bytes[at] ^= 1 << random.below(8);
    }
}
