//! A program of the product, run with a stream as its input: all that it prints has to be the model's text.

use std::collections::BTreeMap;
use std::io::Write;
use std::path::PathBuf;
use std::process::{ChildStdin, Command, Output, Stdio};
use std::thread::{sleep, spawn};
use std::time::Duration;

pub struct Program {
    pub name: &'static str,
    /// What the model says that it prints.
    pub expected: fn(&[u8]) -> String,
}

/// How the pipes go: input comes in pieces with a pause after each, and output is first read after a while.
#[derive(Clone, Copy)]
pub struct Pace {
    pub piece: usize,
    pub pause: Duration,
    pub unread: Duration,
}

pub const AT_ONCE: Pace = Pace { piece: usize::MAX, pause: Duration::ZERO, unread: Duration::ZERO };

impl Program {
    /// SHORTLIST_PROGRAM or SHEET_PROGRAM names another program: tests/rust/wrong tries some with a fault.
    fn path(&self) -> PathBuf {
        let built = PathBuf::from(env!("CARGO_MANIFEST_DIR")).join("../../target/bin").join(self.name);
        let path = std::env::var(format!("{}_PROGRAM", self.name.to_uppercase())).map_or(built, PathBuf::from);
        assert!(path.is_file(), "the program {} is missing: run `make program sheet_program` first", path.display());
        path
    }

    fn run(&self, input: &[u8], pace: Pace) -> Output {
        let mut command = Command::new(self.path());
        let command = command.stdin(Stdio::piped()).stdout(Stdio::piped()).stderr(Stdio::piped());
        let mut child = command.spawn().expect("the program starts");
        let pipe = child.stdin.take().expect("a pipe");
        let input = input.to_vec();
        let writer = spawn(move || write(pipe, &input, pace));
        sleep(pace.unread);
        let output = child.wait_with_output().expect("the program ends");
        writer.join().expect("the writer ends");
        output
    }

    /// The text that was printed, after a look at all of it.
    pub fn check_at(&self, input: &[u8], pace: Pace) -> String {
        let output = self.run(input, pace);
        let text = String::from_utf8(output.stdout).expect("plain text");
        let expected = (self.expected)(input);
        let hex: String = input.iter().take(2_000).map(|byte| format!("{byte:02X} ")).collect();
        assert!(text == expected, "{}, input of {}: {hex}", difference(&text, &expected), input.len());
        assert_eq!(output.status.code(), Some(0), "exit status for input of {}: {hex}", input.len());
        assert!(output.stderr.is_empty(), "nothing goes to standard error");
        text
    }

    pub fn check(&self, input: &[u8]) -> String {
        self.check_at(input, AT_ONCE)
    }
}

/// The program may end before it has read all of its input.
fn write(mut pipe: ChildStdin, input: &[u8], pace: Pace) {
    for part in input.chunks(pace.piece) {
        if pipe.write_all(part).is_err() {
            return;
        }
        sleep(pace.pause);
    }
}

/// The first line in which two texts differ; a text may be long.
fn difference(text: &str, expected: &str) -> String {
    let (mut printed, mut due) = (text.split_inclusive('\n'), expected.split_inclusive('\n'));
    for line in 1.. {
        match (printed.next(), due.next()) {
            (None, None) => break,
            (a, b) if a != b => return format!("line {line} is {a:?}, not {b:?}"),
            _ => {}
        }
    }
    "the same".to_string()
}

/// How often a program gave each kind of answer: `log`, or `refused N`.
#[derive(Default)]
pub struct Answers(BTreeMap<String, u32>);

/// What can come of a stream.
pub const ALL_ANSWERS: [&str; 9] = ["log", "refused 1", "refused 2", "refused 3", "refused 4", "refused 5", "refused 6", "refused 7", "refused 8"];

impl Answers {
    pub fn add(&mut self, text: &str) {
        let first = text.lines().next().expect("a line");
        let kind = if first.starts_with("refused ") { first } else { "log" };
        *self.0.entry(kind.to_string()).or_default() += 1;
    }

    /// Prints the counts, and fails if one of these kinds never came.
    pub fn expect(&self, what: &str, kinds: &[&str]) {
        println!("{what}: {:?}", self.0);
        kinds.iter().for_each(|kind| assert!(self.0.contains_key(*kind), "{what}: {kind} never came"));
    }
}
