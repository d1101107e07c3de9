//! "Window machine", sentence by sentence.

use super::best::betters;

#[derive(Debug, Default, PartialEq, Eq)]
pub struct Outcome {
    /// Row numbers in the order of their release.
    pub result: Vec<usize>,
    pub compares: u64,
    pub passes: u64,
}

/// A row with its stamp; a row that was never set aside has none.
#[derive(Clone, Copy)]
struct Stamped {
    row: usize,
    stamp: Option<u64>,
}

/// "State: a window of up to w entries, a waiting list, a result, a clock from 0."
struct Machine<'a> {
    rows: &'a [Vec<u32>],
    w: usize,
    window: Vec<Stamped>,
    waiting: Vec<Stamped>,
    clock: u64,
    outcome: Outcome,
}

/// "Pass one reads all rows in order; a later pass reads what the pass before set aside, in that order."
pub fn run(rows: &[Vec<u32>], w: usize) -> Outcome {
    let mut machine = Machine { rows, w, window: vec![], waiting: vec![], clock: 0, outcome: Outcome::default() };
    let mut to_read: Vec<Stamped> = (0..rows.len()).map(|row| Stamped { row, stamp: None }).collect();
    loop {
        machine.outcome.passes += 1;
        for read in &to_read {
            machine.read(*read);
        }
        to_read = std::mem::take(&mut machine.waiting);
        // "A pass that sets nothing aside releases the window and ends."
        if to_read.is_empty() {
            machine.release(u64::MAX);
            return machine.outcome;
        }
    }
}

impl Machine<'_> {
    fn read(&mut self, r: Stamped) {
        // "if r has a stamp, first release to the result every entry whose stamp is smaller"
        if let Some(stamp) = r.stamp {
            self.release(stamp);
        }
        self.clock += 1;
        if self.bettered(r.row) {
            return;
        }
        // "Otherwise remove the entries that r betters."
        let rows = self.rows;
        self.window.retain(|entry| !betters(&rows[r.row], &rows[entry.row]));
        // "If fewer than w remain, enter r with the clock as stamp; else set r aside with that stamp."
        let stamped = Stamped { row: r.row, stamp: Some(self.clock) };
        let place = if self.window.len() < self.w { &mut self.window } else { &mut self.waiting };
        place.push(stamped);
    }

    /// Entries enter with ever later stamps, so the window is in order of stamps.
    fn release(&mut self, stamp: u64) {
        while self.window.first().is_some_and(|entry| entry.stamp < Some(stamp)) {
            let entry = self.window.remove(0);
            self.outcome.result.push(entry.row);
        }
    }

    /// "Compare r with the entries, smallest stamp first, each compare counted, until one betters r"
    fn bettered(&mut self, row: usize) -> bool {
        for entry in &self.window {
            self.outcome.compares += 1;
            if betters(&self.rows[entry.row], &self.rows[row]) {
                return true;
            }
        }
        false
    }
}

/// The marks that a result stands for.
pub fn marks(rows: usize, result: &[usize]) -> Vec<u8> {
    let mut marks = vec![0; rows];
    for row in result {
        marks[*row] = 1;
    }
    marks
}
