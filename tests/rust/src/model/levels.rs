//! "Levels", and the level parts of order 2.

use super::reader::{Form, Input, Range, Wish};

/// "v − lo (LOWEST), hi − v (HIGHEST), |v − z| (AROUND), or how far v lies outside low..up (BETWEEN)" and kind 08; only for v inside lo..hi.
fn distance(form: &Form, v: i32) -> i64 {
    let v = i64::from(v);
    match *form {
        Form::Lowest(range) => v - i64::from(range.lo),
        Form::Highest(range) => i64::from(range.hi) - v,
        Form::Around { z, .. } => (v - i64::from(z)).abs(),
        Form::Between { low, up, .. } | Form::Sided { low, up, .. } => (i64::from(low) - v).max(v - i64::from(up)).max(0),
        Form::Layered { .. } => 0,
    }
}

/// "The level is distance divided by step, rounded up."
fn rounded_up(distance: i64, step: u32) -> u32 {
    let step = i64::from(step);
    let whole = distance / step;
    let level = if distance % step == 0 { whole } else { whole + 1 };
    u32::try_from(level).expect("a distance of two 32-bit numbers")
}

/// lo, hi and step of a form that has them.
pub fn range(form: &Form) -> Option<Range> {
    match *form {
        Form::Lowest(range) | Form::Highest(range) => Some(range),
        Form::Around { range, .. } | Form::Between { range, .. } | Form::Sided { range, .. } => Some(range),
        Form::Layered { .. } => None,
    }
}

/// "M, a wish's greatest level, is the greatest over lo..hi, or the top layer": distances only grow towards lo and towards hi.
pub fn greatest(form: &Form) -> u32 {
    match (form, range(form)) {
        (_, Some(r)) => rounded_up(distance(form, r.lo), r.step).max(rounded_up(distance(form, r.hi), r.step)),
        (Form::Layered { top, .. }, _) => u32::from(*top),
        _ => unreachable!("every other form has a range"),
    }
}

/// "value outside lo..hi of its wish"
pub fn outside(form: &Form, v: i32) -> bool {
    range(form).is_some_and(|range| v < range.lo || range.hi < v)
}

/// The level of a value under the wish at a place of the list.
pub fn level(input: &Input, place: usize, v: i32) -> u32 {
    let form = &input.wishes[place].form;
    match (form, range(form)) {
        (_, Some(range)) => rounded_up(distance(form, v), range.step),
        (Form::Layered { others, .. }, _) => u32::from(layer(input, place, v).unwrap_or(*others)),
        _ => unreachable!("every other form has a range"),
    }
}

/// "the layer of the first NAMED with that value"
fn layer(input: &Input, place: usize, v: i32) -> Option<u8> {
    let first = input.named.iter().find(|named| named.wish == place && named.value == v)?;
    Some(first.layer)
}

/// What counts of a value: its level, or under kind 08 a pair. "A value inside gets the pair of levels (0, 0), one above at level L gets
/// (L, L − 1), one below (L − 1, L)".
pub fn parts(input: &Input, place: usize, v: i32) -> Vec<u32> {
    let level = level(input, place, v);
    let Form::Sided { low, up, .. } = input.wishes[place].form else { return vec![level] };
    if v < low {
        vec![level - 1, level]
    } else if up < v {
        vec![level, level - 1]
    } else {
        vec![0, 0]
    }
}

/// The level parts of a run, "first part before second".
pub fn of_run(input: &Input, run: &[i32; 8]) -> Vec<u32> {
    let column = |place: usize| run[usize::from(input.wishes[place].column)];
    (0..input.wishes.len()).flat_map(|place| parts(input, place, column(place))).collect()
}

pub fn of_log(input: &Input) -> Vec<Vec<u32>> {
    input.runs.iter().map(|run| of_run(input, run)).collect()
}

/// The M of each level part: "Each part of the pair runs 0 to M".
pub fn tops(input: &Input) -> Vec<u32> {
    input.wishes.iter().flat_map(tops_of).collect()
}

fn tops_of(wish: &Wish) -> Vec<u32> {
    let top = greatest(&wish.form);
    match wish.form {
        Form::Sided { .. } => vec![top, top],
        _ => vec![top],
    }
}

/// Number 8 is due: some run has a value outside lo..hi of a wish.
pub fn any_outside(input: &Input) -> bool {
    let bad = |run: &[i32; 8]| input.wishes.iter().any(|wish| outside(&wish.form, run[usize::from(wish.column)]));
    input.runs.iter().any(bad)
}
