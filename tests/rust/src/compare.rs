//! One call of the archive against the model.

use crate::calls::{call, old_marks, Call};
use crate::model::flat::{facts, Facts};
use crate::spread::Spread;

pub const WINDOWS: [u32; 9] = [0, 1, 2, 3, 64, 1_023, 1_024, 1_025, u32::MAX];

/// A stream with what the model says about it.
pub struct Case<'a> {
    pub stream: &'a [u8],
    pub facts: Result<Facts, i32>,
}

impl<'a> Case<'a> {
    pub fn new(stream: &'a [u8], spread: &mut Spread) -> Self {
        spread.stream();
        Case { stream, facts: facts(stream) }
    }

    pub fn rows(&self) -> usize {
        self.facts.as_ref().map_or(0, |facts| facts.rows)
    }

    pub fn crossings(&self) -> u32 {
        self.facts.as_ref().map_or(0, |facts| facts.crossings.unwrap_or(0))
    }

    fn expected(&self, the_call: Call, marks_len: usize) -> i32 {
        match (&self.facts, the_call) {
            (Err(number), _) => -number,
            (Ok(facts), Call::Lattice { budget }) => facts.lattice(marks_len, budget),
            (Ok(facts), Call::Window { w }) => facts.window(marks_len, w),
        }
    }

    /// "Nothing lent changes on a refusal"; else marks, and "bytes past the rows .. are unchanged".
    fn expected_marks(&self, result: i32, marks_len: usize) -> Vec<u8> {
        let mut marks = old_marks(marks_len);
        if let (Ok(facts), true) = (&self.facts, result >= 0) {
            marks[..facts.rows].copy_from_slice(&facts.marks);
        }
        marks
    }

    /// The result and every byte have to be the model's.
    pub fn check(&self, the_call: Call, marks_len: usize, spread: &mut Spread) {
        let expected = self.expected(the_call, marks_len);
        let left = call(the_call, self.stream, marks_len);
        assert_eq!(left.result, expected, "{}", self.tell(the_call, marks_len));
        let marks = self.expected_marks(expected, marks_len);
        assert!(left.marks == marks, "marks {:?}, not {marks:?}: {}", left.marks, self.tell(the_call, marks_len));
        match the_call {
            Call::Lattice { .. } => spread.lattice(left.result),
            Call::Window { .. } => spread.window(left.result),
        }
    }

    /// Marks written, rows of this call: the model's machine has to release what the nested loop marks.
    pub fn check_machine(&self, w: u32) {
        if let (Ok(facts), true) = (&self.facts, (1..=1_024).contains(&w)) {
            if !facts.outside {
                assert!(facts.machine_marks(w) == facts.marks, "the model's machine: {}", self.tell(Call::Window { w }, facts.rows));
            }
        }
    }

    /// All that is needed to try the case again by hand.
    fn tell(&self, the_call: Call, marks_len: usize) -> String {
        let hex: String = self.stream.iter().take(4_000).map(|byte| format!("{byte:02X} ")).collect();
        format!("{the_call:?}, {marks_len} mark bytes, stream of {}: {hex}", self.stream.len())
    }
}
