//! The two flat calls and the two programs, as documents 01 and 02 have them answer. Counts come back as they are, refusals as minus the number.

use super::{best, lattice, levels, machine, reader, sheet};
use std::fmt::Write;

/// What the calls' answers hang on, worked out once for a stream that reads.
pub struct Facts {
    pub rows: usize,
    /// Number 8 is due; the levels are not asked for then.
    pub outside: bool,
    /// The level parts of each row.
    pub parts: Vec<Vec<u32>>,
    /// From the nested loop.
    pub marks: Vec<u8>,
    pub best: i32,
    /// None where the lattice has more than 32,768 nodes.
    pub crossings: Option<u32>,
    pub input: reader::Input,
}

/// The refusal number of reading, or the facts.
pub fn facts(stream: &[u8]) -> Result<Facts, i32> {
    let input = reader::read(stream).map_err(|refusal| refusal.number)?;
    let outside = levels::any_outside(&input);
    let parts = if outside { vec![] } else { levels::of_log(&input) };
    let marks = best::marks(&parts);
    let best = marks.iter().map(|mark| i32::from(*mark)).sum();
    let tops = levels::tops(&input);
    let crossings = lattice::nodes(&tops).map(|_| lattice::crossings(&tops, &lattice::bytes(&tops, &parts)));
    Ok(Facts { rows: input.runs.len(), outside, parts, marks, best, crossings, input })
}

impl Facts {
    /// "log, marks, w and work list 10; 8; then for the lattice engine 9, node bytes 10, 11"
    pub fn lattice(&self, marks_len: usize, budget: u32) -> i32 {
        match self.crossings {
            _ if marks_len < self.rows => -10,
            _ if self.outside => -8,
            None => -9,
            Some(crossings) if budget < crossings => -11,
            Some(_) => self.best,
        }
    }

    pub fn window(&self, marks_len: usize, w: u32) -> i32 {
        if marks_len < self.rows || !(1..=1_024).contains(&w) {
            -10
        } else if self.outside {
            -8
        } else {
            self.best
        }
    }

    /// The machine's result, as marks. It has to be the nested loop's; the trials see to that.
    pub fn machine_marks(&self, w: u32) -> Vec<u8> {
        machine::marks(self.rows, &machine::run(&self.parts, w as usize).result)
    }
}

/// The facts of a log that the programs answer: by the lattice engine with budget 262,144, or where that gives 9 by the window engine with
/// w 64. Else the refusal number.
fn answered(stream: &[u8]) -> Result<Facts, i32> {
    let facts = facts(stream)?;
    let result = match facts.lattice(facts.rows, 262_144) {
        -9 => facts.window(facts.rows, 64),
        result => result,
    };
    if result < 0 {
        return Err(-result);
    }
    Ok(facts)
}

fn refused(number: i32) -> String {
    format!("refused {number}\n")
}

/// What `shortlist` prints.
pub fn program(stream: &[u8]) -> String {
    answered(stream).map_or_else(refused, |facts| lines(&facts))
}

fn lines(facts: &Facts) -> String {
    let mut text = format!("runs {} best {}\n", facts.rows, facts.best);
    for row in (0..facts.rows).filter(|row| facts.marks[*row] == 1) {
        let run = &facts.input.runs[row];
        writeln!(text, "{row} {} {}", run[0], run[1]).expect("text");
    }
    text
}

/// What `sheet` prints.
pub fn sheet(stream: &[u8]) -> String {
    answered(stream).map_or_else(refused, |facts| sheet::of_log(&facts.input.runs, &facts.marks))
}
