//! Which rows no row betters: the nested loop. Rows are lists of level parts.

/// "Row a betters row b when no level of a is above b's and one is below."
pub fn betters(a: &[u32], b: &[u32]) -> bool {
    let mut below = false;
    for (of_a, of_b) in a.iter().zip(b) {
        if of_a > of_b {
            return false;
        }
        below |= of_a < of_b;
    }
    below
}

/// "A mark is one byte per row, 1 for shortlisted, 0 not."
pub fn marks(rows: &[Vec<u32>]) -> Vec<u8> {
    rows.iter().map(|row| u8::from(!rows.iter().any(|other| betters(other, row)))).collect()
}
