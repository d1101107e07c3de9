//! Peers that run in a process of their own: they get the level table of an input as a file, and are asked to sort it so many times.
//! A question is a line `FILE CALLS`, the answer a line `BEST NANOSECONDS`: the best rows, and the time of all calls.

use crate::inputs::Case;
use crate::peers::comes_to_kind_08;
use flat_calls::model::flat;
use std::fs;
use std::io::{BufRead, BufReader, Write};
use std::path::Path;
use std::process::{Child, ChildStdin, ChildStdout, Command, Stdio};

pub struct Outside {
    pub name: String,
    child: Child,
    ask: ChildStdin,
    answers: BufReader<ChildStdout>,
}

/// Each as NAME=COMMAND; the words of the command have no spaces.
pub fn start_all(others: &[&str]) -> Vec<Outside> {
    others.iter().map(|other| start(other)).collect()
}

fn start(other: &str) -> Outside {
    let (name, command) = other.split_once('=').expect("NAME=COMMAND");
    let mut words = command.split(' ');
    let mut command = Command::new(words.next().expect("a command"));
    let mut child = command.args(words).stdin(Stdio::piped()).stdout(Stdio::piped()).spawn().expect("bench/run tried it");
    let (ask, answers) = (child.stdin.take().expect("piped"), child.stdout.take().expect("piped"));
    Outside { name: name.into(), child, ask, answers: BufReader::new(answers) }
}

/// One line for each row.
fn write_levels(levels: &[Vec<u32>], file: &Path) {
    let line = |row: &Vec<u32>| row.iter().map(u32::to_string).collect::<Vec<_>>().join(" ") + "\n";
    fs::write(file, levels.iter().map(line).collect::<String>()).expect("a file of levels");
}

impl Outside {
    fn question(&mut self, file: &Path, calls: u32) -> (i32, f64) {
        writeln!(self.ask, "{} {calls}", file.display()).and_then(|()| self.ask.flush()).expect("it runs");
        let mut line = String::new();
        self.answers.read_line(&mut line).expect("it answers");
        let (best, time) = line.trim().split_once(' ').unwrap_or_else(|| panic!("{}: no answer", self.name));
        (best.parse().expect("a count"), time.parse().expect("a time"))
    }

    /// Its best rows have to be as many as ours before it is timed. One row is not asked about: pagmo refuses it. Inputs with kind 08 are
    /// for ours alone.
    pub fn timer<'a>(&'a mut self, case: &Case, out: &Path) -> Option<Box<dyn FnMut(u32) -> f64 + 'a>> {
        let facts = flat::facts(&case.stream).expect("timed streams read");
        if facts.rows < 2 || comes_to_kind_08(&case.stream) {
            return None;
        }
        let file = out.join("levels").join(format!("{}.txt", case.name.replace(' ', "-")));
        write_levels(&facts.parts, &file);
        let (best, _) = self.question(&file, 1);
        assert!(best == facts.best, "{}: {best} best rows on {}, ours are {}", self.name, case.name, facts.best);
        Some(Box::new(move |calls| self.question(&file, calls).1 / f64::from(calls)))
    }
}

impl Drop for Outside {
    fn drop(&mut self) {
        // It ends by itself once nothing more is asked; no one waits for it.
        let _ = self.child.kill();
        let _ = self.child.wait();
    }
}
