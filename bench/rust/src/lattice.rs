//! The lattice engine, walked by blocks of nodes that have their first levels in common.

use crate::access::{get, part, part_mut, put};
use crate::levels::{of_row, LevelRow, PLAIN};
use crate::read::{read, Input};
use crate::{COLUMNS, MAX_NODES, MAX_ROWS};

const WORD: usize = 8;
const VECTOR: usize = 16;
const ONES: u64 = 0x0101_0101_0101_0101;
/// The last word of a block may reach past the nodes.
const ROOM: usize = MAX_NODES + WORD;

/// Wishes whose greatest level is 0 have no edges and are left out. The last wish comes first here.
struct Lattice {
    digits: usize,
    top: [u32; COLUMNS],
    weight: [u32; COLUMNS],
    column_weight: [i16; COLUMNS],
    nodes: usize,
}

/// 9 where there are too many nodes.
fn weigh(input: &Input) -> Result<Lattice, i32> {
    let mut lattice = Lattice { digits: 0, top: [0; COLUMNS], weight: [0; COLUMNS], column_weight: [0; COLUMNS], nodes: 0 };
    let mut nodes = 1;
    for i in (0..input.wishes).rev().filter(|i| input.top[*i] > 0) {
        lattice.top[lattice.digits] = input.top[i];
        lattice.weight[lattice.digits] = nodes;
        lattice.digits += 1;
        // A wish with a level above 0 has at least two, so half the nodes.
        lattice.column_weight[input.column[i]] = nodes as i16;
        nodes *= input.top[i] + 1;
        if nodes as usize > MAX_NODES {
            return Err(9);
        }
    }
    lattice.nodes = nodes as usize;
    Ok(lattice)
}

impl Lattice {
    #[inline(always)]
    fn node(&self, levels: &LevelRow) -> u16 {
        let mut sum = 0;
        for c in 0..COLUMNS {
            sum += i32::from(levels[c]) * i32::from(self.column_weight[c]);
        }
        sum as u16
    }

    /// Walks a block: nodes that have the levels of all but the first `digits` wishes here in common. A smaller block is left by the edges
    /// of its wish once all edges into it and within it are crossed. Gives the reached nodes and adds to the crossings.
    fn walk_block<const CHECKED: bool>(&self, digits: usize, nodes: &mut [u8; ROOM], block: usize, made: &mut u32) -> u32 {
        let top = get::<CHECKED, _>(&self.top, digits - 1);
        let length = get::<CHECKED, _>(&self.weight, digits - 1) as usize;
        if length == 1 {
            let reached = cross_row::<CHECKED>(nodes, block, top as usize + 1);
            *made += reached - u32::from(reached > 0);
            return reached;
        }
        if digits == 2 && length <= WORD {
            return walk_short_rows::<CHECKED>(nodes, block, top as usize + 1, length, made);
        }
        let mut reached_nodes = 0;
        for level in 0..=top {
            let block = block + level as usize * length;
            if is_empty::<CHECKED>(nodes, block, length) {
                continue;
            }
            let reached = self.walk_block::<CHECKED>(digits - 1, nodes, block, made);
            reached_nodes += reached;
            if level < top {
                cross_block::<CHECKED>(nodes, block, length);
                *made += reached;
            }
        }
        reached_nodes
    }

    /// 11 where the budget is below the crossings.
    fn walk<const CHECKED: bool>(&self, nodes: &mut [u8; ROOM], budget: u32) -> Result<(), i32> {
        let mut made = 0;
        if self.digits > 0 {
            self.walk_block::<CHECKED>(self.digits, nodes, 0, &mut made);
        }
        if made > budget {
            Err(11)
        } else {
            Ok(())
        }
    }
}

/// The bytes of a word that belong to what is left of a block.
#[inline(always)]
fn mask(left: usize) -> u64 {
    if left < WORD {
        (1 << (8 * left)) - 1
    } else {
        u64::MAX
    }
}

/// A 1 in each byte that is not 0, for bytes below 4.
#[inline(always)]
fn reached_in(bytes: u64) -> u64 {
    (bytes | bytes >> 1) & ONES
}

/// Crosses the edges of the last wish in a row of nodes, which differ in that wish's level alone: once a node is reached the rest of its row
/// is. Gives the reached nodes.
#[inline(always)]
fn cross_row<const CHECKED: bool>(nodes: &mut [u8; ROOM], row: usize, length: usize) -> u32 {
    let mut reached_nodes = 0;
    let mut before = 0;
    for at in (0..length).step_by(WORD) {
        let mask = mask(length - at);
        let bytes = load::<CHECKED>(nodes, row + at);
        if bytes & mask | before == 0 {
            continue;
        }
        // Sums of the bytes up to each are at most 8: 127 more shows which are not 0.
        let sums = reached_in(bytes & mask).wrapping_mul(ONES);
        let reached = (sums + 127 * ONES) >> 7 & ONES | before * ONES;
        store::<CHECKED>(nodes, row + at, bytes | ((reached << 8 | before) & mask) << 1);
        reached_nodes += ((reached & mask).wrapping_mul(ONES) >> 56) as u32;
        before = 1;
    }
    reached_nodes
}

/// Walks a block of rows that have a word each: the edges of its last two wishes. Gives the reached nodes and adds to the crossings.
#[inline(always)]
fn walk_short_rows<const CHECKED: bool>(nodes: &mut [u8; ROOM], block: usize, rows: usize, length: usize, made: &mut u32) -> u32 {
    let mask = mask(length);
    let mut entered = 0;
    let (mut reached_nodes, mut along, mut last) = (0, 0, 0);
    for r in 0..rows {
        let bytes = load::<CHECKED>(nodes, block + r * length) | entered;
        let sums = reached_in(bytes & mask).wrapping_mul(ONES);
        let reached = (sums + 127 * ONES) >> 7 & ONES & mask;
        store::<CHECKED>(nodes, block + r * length, bytes | (reached << 8 & mask) << 1);
        entered = reached << 1;
        last = (reached.wrapping_mul(ONES) >> 56) as u32;
        reached_nodes += last;
        along += last - u32::from(last > 0);
    }
    *made += along + reached_nodes - last;
    reached_nodes
}

/// Crosses the edges from each reached node of a block to the block after it.
#[inline(always)]
fn cross_block<const CHECKED: bool>(nodes: &mut [u8; ROOM], block: usize, length: usize) {
    let mut at = 0;
    while at + VECTOR <= length {
        let from = *part::<CHECKED, _, VECTOR>(nodes, block + at);
        let to = part_mut::<CHECKED, _, VECTOR>(nodes, block + length + at);
        for i in 0..VECTOR {
            to[i] |= if from[i] != 0 { 2 } else { 0 };
        }
        at += VECTOR;
    }
    while at < length {
        let reached = reached_in(load::<CHECKED>(nodes, block + at) & mask(length - at));
        let there = load::<CHECKED>(nodes, block + length + at);
        store::<CHECKED>(nodes, block + length + at, there | reached << 1);
        at += WORD;
    }
}

#[inline(always)]
fn is_empty<const CHECKED: bool>(nodes: &[u8; ROOM], block: usize, length: usize) -> bool {
    (0..length).step_by(WORD).all(|at| load::<CHECKED>(nodes, block + at) & mask(length - at) == 0)
}

#[inline(always)]
fn load<const CHECKED: bool>(nodes: &[u8; ROOM], at: usize) -> u64 {
    u64::from_le_bytes(*part::<CHECKED, _, WORD>(nodes, at))
}

#[inline(always)]
fn store<const CHECKED: bool>(nodes: &mut [u8; ROOM], at: usize, word: u64) {
    *part_mut::<CHECKED, _, WORD>(nodes, at) = word.to_le_bytes();
}

/// The node of each row, or 8.
fn fill_numbers<const CHECKED: bool>(input: &Input, lattice: &Lattice, numbers: &mut [u16]) -> Result<(), i32> {
    let mut any_outside = false;
    for (r, number) in numbers.iter_mut().enumerate() {
        let (levels, outside) = of_row::<CHECKED>(input, r, PLAIN);
        *number = lattice.node(&levels);
        any_outside |= outside;
    }
    if any_outside {
        Err(8)
    } else {
        Ok(())
    }
}

fn all_inside<const CHECKED: bool>(input: &Input) -> bool {
    (0..input.rows).all(|r| !of_row::<CHECKED>(input, r, PLAIN).1)
}

pub fn run<const CHECKED: bool>(stream: &[u8], marks: &mut [u8], budget: u32) -> Result<u32, i32> {
    let input = read::<CHECKED>(stream)?;
    if marks.len() < input.rows {
        return Err(10);
    }
    // 8 comes before 9.
    let lattice = weigh(&input).map_err(|number| if all_inside::<CHECKED>(&input) { number } else { 8 })?;
    let mut numbers = [0; MAX_ROWS];
    let numbers = &mut numbers[..input.rows];
    fill_numbers::<CHECKED>(&input, &lattice, numbers)?;
    let mut nodes = [0; ROOM];
    for number in numbers.iter() {
        put::<CHECKED, _>(&mut nodes, usize::from(*number), 1);
    }
    lattice.walk::<CHECKED>(&mut nodes, budget)?;
    let mut best = 0;
    for (mark, number) in marks.iter_mut().zip(numbers) {
        *mark = u8::from(get::<CHECKED, _>(&nodes, usize::from(*number)) == 1);
        best += u32::from(*mark);
    }
    Ok(best)
}
