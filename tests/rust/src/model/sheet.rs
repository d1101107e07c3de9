//! "Shortlist on the shift sheet" (document 02, order 1): a sheet of spaces, on which a pen sets every text from its end towards the left.

/// "each of 101 characters and a line feed"
const LINE: usize = 102;

/// "the next 50 shortlisted runs"
const RUNS: usize = 50;

const HEADINGS: [&str; 9] = ["ROW", "HOURS", "CUBIC M", "DENSITY", "FUEL", "SUCTION", "DISCHARGE", "DEPTH", "SOIL"];

/// "Row number takes 4 places, hours 13 .., the other seven columns 12 each": where each of the nine ends.
const ENDS: [usize; 9] = [4, 17, 29, 41, 53, 65, 77, 89, 101];

/// The sheet of a log with these marks.
pub fn of_log(runs: &[[i32; 8]], marks: &[u8]) -> String {
    let listed: Vec<usize> = (0..runs.len()).filter(|row| marks[*row] == 1).collect();
    // "An empty shortlist still gives one page."
    let pages = listed.len().div_ceil(RUNS).max(1);
    let mut sheet = Sheet::blank(listed.len() + 2 * pages);
    for page in 0..pages {
        sheet.heading(first_line(page));
        let foot = first_line(page + 1).min(sheet.lines()) - 1;
        sheet.foot(foot, page + 1, pages);
    }
    for (i, row) in listed.iter().enumerate() {
        let line = first_line(i / RUNS) + 1 + i % RUNS;
        sheet.run(line, *row, &runs[*row]);
    }
    String::from_utf8(sheet.0).expect("plain text")
}

/// Every page before the last is full.
fn first_line(page: usize) -> usize {
    page * (RUNS + 2)
}

struct Sheet(Vec<u8>);

impl Sheet {
    fn blank(lines: usize) -> Self {
        let mut bytes = vec![b' '; LINE * lines];
        bytes.chunks_mut(LINE).for_each(|line| line[LINE - 1] = b'\n');
        Sheet(bytes)
    }

    fn lines(&self) -> usize {
        self.0.len() / LINE
    }

    /// A pen behind place `end` of a line: what it writes ends there.
    fn pen(&mut self, line: usize, end: usize) -> Pen<'_> {
        Pen { left: &mut self.0[LINE * line..][..end] }
    }

    fn heading(&mut self, line: usize) {
        for (end, heading) in ENDS.iter().zip(HEADINGS) {
            self.pen(line, *end).text(heading);
        }
    }

    fn run(&mut self, line: usize, row: usize, run: &[i32; 8]) {
        self.pen(line, ENDS[0]).figure(row);
        self.pen(line, ENDS[1]).hours(run[0]);
        for (end, value) in ENDS[2..].iter().zip(&run[1..]) {
            self.pen(line, *end).value(*value);
        }
    }

    /// "The foot is `PAGE 1 OF 1`, to the right, with the true figures."
    fn foot(&mut self, line: usize, page: usize, pages: usize) {
        let mut pen = self.pen(line, LINE - 1);
        pen.figure(pages);
        pen.text(" OF ");
        pen.figure(page);
        pen.text("PAGE ");
    }
}

/// What is left of a line before it.
struct Pen<'a> {
    left: &'a mut [u8],
}

impl Pen<'_> {
    fn put(&mut self, byte: u8) {
        let (place, left) = std::mem::take(&mut self.left).split_last_mut().expect("room to the left");
        *place = byte;
        self.left = left;
    }

    fn text(&mut self, text: &str) {
        text.bytes().rev().for_each(|byte| self.put(byte));
    }

    /// The last digit of a figure.
    fn digit(&mut self, figure: usize) {
        self.put(b"0123456789"[figure % 10]);
    }

    fn figure(&mut self, figure: usize) {
        self.digit(figure);
        if figure > 9 {
            self.figure(figure / 10);
        }
    }

    fn value(&mut self, value: i32) {
        self.figure(size(value));
        if value < 0 {
            self.put(b'-');
        }
    }

    /// "hours 13 with two decimals (−5 is `-0.05`)"
    fn hours(&mut self, hundredths: i32) {
        let size = size(hundredths);
        self.digit(size);
        self.digit(size / 10);
        self.put(b'.');
        self.figure(size / 100);
        if hundredths < 0 {
            self.put(b'-');
        }
    }
}

/// How far a value is from 0; for -2,147,483,648 this is more than 32 signed bits hold.
fn size(value: i32) -> usize {
    value.unsigned_abs() as usize
}
