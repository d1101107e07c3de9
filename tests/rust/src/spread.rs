//! How many calls ended with which number, so that a reader sees that each was tried.

use crate::model::reader::{Form, Input};
use crate::model::{lattice, levels};
use std::fmt;

#[derive(Default)]
pub struct Spread {
    streams: u64,
    /// Place 0: accepted.
    lattice: [u64; 14],
    window: [u64; 14],
}

impl Spread {
    pub fn stream(&mut self) {
        self.streams += 1;
    }

    pub fn lattice(&mut self, result: i32) {
        self.lattice[number(result)] += 1;
    }

    pub fn window(&mut self, result: i32) {
        self.window[number(result)] += 1;
    }

    /// Prints the counts, and fails if one of these numbers (0: accepted) never came.
    pub fn expect(&self, what: &str, lattice: &[usize], window: &[usize]) {
        println!("{what}: {self}");
        lattice.iter().for_each(|number| assert!(self.lattice[*number] > 0, "{what}: lattice never ended with {number}"));
        window.iter().for_each(|number| assert!(self.window[*number] > 0, "{what}: window never ended with {number}"));
    }
}

fn number(result: i32) -> usize {
    result.min(0).unsigned_abs() as usize
}

impl fmt::Display for Spread {
    fn fmt(&self, out: &mut fmt::Formatter) -> fmt::Result {
        let calls: u64 = self.lattice.iter().chain(&self.window).sum();
        write!(out, "{} streams, {calls} calls", self.streams)?;
        for (call, counts) in [("lattice", &self.lattice), ("window", &self.window)] {
            write!(out, "; {call} accepted {}", counts[0])?;
            for (number, count) in counts.iter().enumerate().skip(1).filter(|(_, count)| **count > 0) {
                write!(out, ", -{number} {count}")?;
            }
        }
        Ok(())
    }
}

/// Least and greatest of what the streams held.
#[derive(Debug)]
pub struct Extent {
    pub wishes: (usize, usize),
    pub names: (usize, usize),
    pub runs: (usize, usize),
    pub top: (usize, usize),
    /// Level parts.
    pub parts: (usize, usize),
    /// How many had more parts than there can be wishes, and a lattice.
    pub wide_lattices: u64,
    /// LOWEST, HIGHEST, AROUND, BETWEEN, LAYERED, kind 08: how many of each.
    pub forms: [u64; 6],
}

impl Default for Extent {
    fn default() -> Self {
        let none = (usize::MAX, 0);
        Extent { wishes: none, names: none, runs: none, top: none, parts: none, wide_lattices: 0, forms: [0; 6] }
    }
}

impl Extent {
    pub fn add(&mut self, input: &Input) {
        widen(&mut self.wishes, input.wishes.len());
        widen(&mut self.names, input.named.len());
        widen(&mut self.runs, input.runs.len());
        let tops = levels::tops(input);
        widen(&mut self.parts, tops.len());
        self.wide_lattices += u64::from(tops.len() > 8 && lattice::nodes(&tops).is_some());
        for wish in &input.wishes {
            widen(&mut self.top, levels::greatest(&wish.form) as usize);
            self.forms[form(&wish.form)] += 1;
        }
    }
}

fn widen(extent: &mut (usize, usize), value: usize) {
    *extent = (extent.0.min(value), extent.1.max(value));
}

fn form(form: &Form) -> usize {
    match form {
        Form::Lowest(_) => 0,
        Form::Highest(_) => 1,
        Form::Around { .. } => 2,
        Form::Between { .. } => 3,
        Form::Layered { .. } => 4,
        Form::Sided { .. } => 5,
    }
}
