//! Level rows: eight numbers of 16 bits, one for each column.

use crate::access::{get, part};
use crate::read::{Input, Layers, RUN_BYTES};
use crate::COLUMNS;

pub type LevelRow = [i16; COLUMNS];

/// SSE2, which belongs to every x86-64, packs and compares signed numbers: the window takes its levels moved down by 32,768;
/// the lattice has no level above 32,767.
pub const PLAIN: i16 = 0;
pub const MOVED: i16 = i16::MIN;

/// Adding and taking away 2^52 rounds a smaller number to a whole one.
const TWO_52: f64 = 4_503_599_627_370_496.0;

/// The distance divided by step, rounded up. Exact: values, distances (33 bits) and steps are exact in f64, and a level is at most
/// 65,535, so the quotient is off by less than 2^-35, while a quotient that is not whole lies at least 2^-32 from whole numbers. So
/// `whole` is the quotient rounded up or down, and whole * step, below 2^53, tells which.
#[inline(always)]
fn level(v: i32, low: f64, up: f64, step: f64, per_step: f64) -> u64 {
    let v = f64::from(v);
    let (below, above) = (low - v, v - up);
    let far = if below > above { below } else { above };
    let far = if far > 0.0 { far } else { 0.0 };
    let whole = far * per_step + TWO_52 - TWO_52;
    let more = if whole * step < far { 1.0 } else { 0.0 };
    (whole + more + TWO_52).to_bits()
}

/// The layer of the first name with the value: walking down, the first is met last, and no branch hangs on the values.
fn layer<const CHECKED: bool>(input: &Input, layers: &Layers, v: i32) -> u8 {
    let mut layer = layers.others;
    for i in (layers.first..layers.end).rev() {
        layer = if get::<CHECKED, _>(&input.name, i) == v { get::<CHECKED, _>(&input.layer, i) } else { layer };
    }
    layer
}

/// The levels of row r, and whether a value lies outside lo..hi of its wish: then the levels mean nothing.
#[inline(always)]
pub fn of_row<const CHECKED: bool>(input: &Input, r: usize, moved: i16) -> (LevelRow, bool) {
    let run: &[u8; 32] = part::<CHECKED, _, 32>(input.runs, r * RUN_BYTES + 1);
    let mut values = [0; COLUMNS];
    for c in 0..COLUMNS {
        values[c] = i32::from_le_bytes([run[4 * c], run[4 * c + 1], run[4 * c + 2], run[4 * c + 3]]);
    }
    let mut outside = false;
    for c in 0..COLUMNS {
        outside |= (values[c] < input.lo[c]) | (values[c] > input.hi[c]);
    }
    let mut levels = [0; COLUMNS];
    for c in 0..COLUMNS {
        levels[c] = (level(values[c], input.low[c], input.up[c], input.step[c], input.per_step[c]) as i16) ^ moved;
    }
    for layers in &input.layers[..input.layered] {
        let v = get::<CHECKED, _>(&values, layers.column);
        levels[layers.column] = i16::from(layer::<CHECKED>(input, layers, v)) ^ moved;
    }
    (levels, outside)
}
