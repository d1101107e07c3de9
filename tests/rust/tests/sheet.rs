//! The program `sheet`: what it prints, byte for byte against the model's text. Every sheet is also read back, cell by cell, and has to
//! hold the shortlisted runs.

use flat_calls::damage::damage;
use flat_calls::generate::{longest, mostly_best, mostly_best_of_pairs, stream, stream_of, too_long};
use flat_calls::model::flat::{facts, sheet as expected};
use flat_calls::programs::{Answers, Pace, Program, ALL_ANSWERS, AT_ONCE};
use flat_calls::random::{Random, SEED};
use flat_calls::records::*;
use std::time::Duration;

const SHEET: Program = Program { name: "sheet", expected };

const HEADING: &str = " ROW        HOURS     CUBIC M     DENSITY        FUEL     SUCTION   DISCHARGE       DEPTH        SOIL\n";

type Run = [i32; 8];

fn check_at(input: &[u8], pace: Pace) -> String {
    let text = SHEET.check_at(input, pace);
    if !text.starts_with("refused ") {
        read_back(&text, &shortlisted(input));
    }
    text
}

fn check(input: &[u8]) -> String {
    check_at(input, AT_ONCE)
}

/// Row numbers and values of the shortlisted runs.
fn shortlisted(input: &[u8]) -> Vec<(usize, Run)> {
    let facts = facts(input).expect("it reads");
    let rows = (0..facts.rows).filter(|row| facts.marks[*row] == 1);
    rows.map(|row| (row, facts.input.runs[row])).collect()
}

/// Lines of 101 characters, full pages before the last, headings and feet, and these runs in the lines between.
fn read_back(text: &str, runs: &[(usize, Run)]) {
    let pages = runs.len().div_ceil(50).max(1);
    assert_eq!(text.len(), 102 * (runs.len() + 2 * pages), "the length for {} runs", runs.len());
    let lines: Vec<&str> = text.split_inclusive('\n').collect();
    lines.iter().for_each(|line| assert!(is_line(line), "a line of the sheet: {line:?}"));
    let mut found = vec![];
    for (page, lines) in (1..).zip(lines.chunks(52)) {
        assert_eq!(lines[0], HEADING, "page {page}");
        let (foot, listed) = lines[1..].split_last().expect("a foot");
        assert_eq!(foot.trim(), format!("PAGE {page} OF {pages}"));
        found.extend(listed.iter().map(|line| run_of(line)));
    }
    assert_eq!(found, runs);
}

fn is_line(line: &str) -> bool {
    let printable = |byte: &u8| (b' '..=b'~').contains(byte);
    line.len() == 102 && line.ends_with('\n') && line.as_bytes()[..101].iter().all(printable) && !line.ends_with(" \n")
}

/// The text of the cell that ends at a place of its line.
fn cell(line: &str, end: usize, width: usize) -> &str {
    line[end - width..end].trim_start()
}

fn run_of(line: &str) -> (usize, Run) {
    let row = cell(line, 4, 4).parse().expect("a row number");
    let value = |column: usize| match column {
        0 => hundredths(cell(line, 17, 13)),
        _ => cell(line, 17 + 12 * column, 12).parse().expect("a value"),
    };
    (row, std::array::from_fn(value))
}

fn hundredths(hours: &str) -> i32 {
    let (whole, decimals) = hours.split_once('.').expect("a point");
    assert_eq!(decimals.len(), 2, "{hours}");
    format!("{whole}{decimals}").parse().expect("hours")
}

/// A log of which every run is shortlisted, whatever its values: the one wish has one layer for all of them.
fn all_listed(runs: &[Run]) -> Vec<u8> {
    [layered(7, 1, 1), runs.iter().flat_map(run).collect()].concat()
}

fn any_run(random: &mut Random) -> Run {
    std::array::from_fn(|_| random.bits() as i32 >> random.below(32))
}

fn any_runs(random: &mut Random, rows: usize) -> Vec<Run> {
    (0..rows).map(|_| any_run(random)).collect()
}

/// A log of which so many runs are shortlisted, anywhere among others.
fn some_listed(random: &mut Random, listed: usize, others: usize) -> Vec<u8> {
    let mut cubic_metres = [vec![1; listed], vec![0; others]].concat();
    random.shuffle(&mut cubic_metres);
    let mut log = highest(1, 0, 1, 1);
    for value in cubic_metres {
        let mut values = any_run(random);
        values[1] = value;
        log.extend(run(&values));
    }
    log
}

#[test]
fn sheet_of_the_harbour_log() {
    let text = check(&harbour().concat());
    let rows = "   0         8.00         900        1300           0           0           0           0           0
   1         6.50        1000        1400           0           0           0           0           0
   2         7.00         850        1250           0           0           0           0           0
   4         8.10         900        1270           0           0           0           0           0
                                                                                          PAGE 1 OF 1
";
    assert_eq!(text, format!("{HEADING}{rows}"));
    assert_eq!(text.len(), 612);
    assert_eq!(check(&harbour_sided().concat()), text, "kind 08 in place of AROUND lists the same runs");
}

/// "An empty shortlist still gives one page."
#[test]
fn sheet_without_runs() {
    let many_nodes = [lowest(1, 0, 60_000, 1), lowest(2, 0, 60_000, 1)].concat();
    for wishes in [layered(7, 1, 1), between(0, -9, 9, 1, 0, 0), harbour()[..2].concat(), harbour_sided()[..2].concat(), many_nodes] {
        let text = check(&wishes);
        assert_eq!(text, format!("{HEADING}{:90}PAGE 1 OF 1\n", ""));
        assert_eq!(text.len(), 204);
    }
    assert_eq!(check(&[]), "refused 1\n");
}

/// Runs, pages and bytes.
const BREAKS: [(usize, usize, usize); 13] = [
    (1, 1, 306),
    (2, 1, 408),
    (49, 1, 5_202),
    (50, 1, 5_304),
    (51, 2, 5_610),
    (99, 2, 10_506),
    (100, 2, 10_608),
    (101, 3, 10_914),
    (500, 10, 53_040),
    (501, 11, 53_346),
    (1_000, 20, 106_080),
    (1_023, 21, 108_630),
    (1_024, 21, 108_732),
];

#[test]
fn sheets_at_page_breaks() {
    println!("seed {SEED}");
    let mut random = Random::new(SEED + 10);
    for (rows, pages, bytes) in BREAKS {
        for runs in [vec![[0; 8]; rows], vec![[810, 900, 1_270, 1, 2, 3, 4, 5]; rows], any_runs(&mut random, rows)] {
            let text = check(&all_listed(&runs));
            assert_eq!(text.len(), bytes, "{rows} runs");
            assert!(text.ends_with(&format!(" PAGE {pages} OF {pages}\n")), "{rows} runs");
        }
    }
}

/// Pages go by shortlisted runs, and these keep the row numbers of the log.
#[test]
fn sheets_with_rows_left_out() {
    println!("seed {SEED}");
    let mut random = Random::new(SEED + 11);
    for (listed, _, bytes) in BREAKS {
        for others in [1, 10, 50, 200, 1_024 - listed] {
            let others = others.min(1_024 - listed);
            let text = check(&some_listed(&mut random, listed, others));
            assert_eq!(text.len(), bytes, "{listed} runs and {others} others");
        }
    }
    let every_other: Vec<u8> = (0..1_024).flat_map(|row| run(&[row, row % 2, 0, 0, 0, 0, 0, 0])).collect();
    let text = check(&[lowest(1, 0, 1, 1), every_other].concat());
    assert_eq!(cell(text.lines().nth(50).expect("the last of page 1"), 4, 4), "98");
    assert_eq!(cell(text.lines().nth(53).expect("the first of page 2"), 4, 4), "100");
}

const HOURS: [(i32, &str); 24] = [
    (0, "0.00"),
    (1, "0.01"),
    (-1, "-0.01"),
    (-5, "-0.05"),
    (9, "0.09"),
    (-9, "-0.09"),
    (10, "0.10"),
    (-10, "-0.10"),
    (99, "0.99"),
    (-99, "-0.99"),
    (100, "1.00"),
    (-100, "-1.00"),
    (101, "1.01"),
    (-101, "-1.01"),
    (999, "9.99"),
    (1_000, "10.00"),
    (-1_000, "-10.00"),
    (-1_005, "-10.05"),
    (99_999, "999.99"),
    (-123_450, "-1234.50"),
    (i32::MAX - 47, "21474836.00"),
    (i32::MAX, "21474836.47"),
    (-i32::MAX, "-21474836.47"),
    (i32::MIN, "-21474836.48"),
];

#[test]
fn hours_with_two_decimals() {
    let runs = HOURS.map(|(hours, _)| [hours, 0, 0, 0, 0, 0, 0, 0]);
    let text = check(&all_listed(&runs));
    for (line, (_, hours)) in text.lines().skip(1).zip(HOURS) {
        assert_eq!(cell(line, 17, 13), hours);
    }
    for (hours, _) in HOURS {
        check(&[lowest(0, i32::MIN, i32::MAX, u32::MAX), run(&[hours; 8])].concat());
    }
}

/// Each column alone, then all of them, at figures with many digits and at the ends of 32 bits.
#[test]
fn columns_at_their_ends() {
    let figures = [i32::MIN, i32::MAX, i32::MIN + 1, -1, 1, 9, 10, -10, 999_999_999, 1_000_000_000, -1_000_000_000];
    let mut runs = vec![];
    for figure in figures {
        runs.extend((0..8).map(|column: usize| std::array::from_fn(|place| if place == column { figure } else { 0 })));
        runs.push([figure; 8]);
    }
    check(&all_listed(&runs));
    let text = check(&all_listed(&[[i32::MIN; 8], [i32::MAX; 8], [1, 2, 3, 4, 5, 6, 7, 8]]));
    let rows = "   0 -21474836.48 -2147483648 -2147483648 -2147483648 -2147483648 -2147483648 -2147483648 -2147483648
   1  21474836.47  2147483647  2147483647  2147483647  2147483647  2147483647  2147483647  2147483647
   2         0.01           2           3           4           5           6           7           8
";
    assert!(text[102..].starts_with(rows), "{text}");
    let longest = check(&all_listed(&vec![[i32::MIN; 8]; 1_024]));
    assert!(longest.contains("\n1023 -21474836.48 -2147483648 "));
}

#[test]
fn sheets_of_random_input() {
    println!("seed {SEED}");
    let mut random = Random::new(SEED + 12);
    let mut answers = Answers::default();
    for _ in 0..200 {
        answers.add(&check(&stream(&mut random).stream()));
    }
    for _ in 0..30 {
        let rows = random.between(51, 400) as usize;
        answers.add(&check(&mostly_best(&mut random, rows).stream()));
    }
    answers.expect("sheets of random input", &["log", "refused 8"]);
}

#[test]
fn sheets_of_damaged_input() {
    println!("seed {SEED}");
    let mut random = Random::new(SEED + 13);
    let mut answers = Answers::default();
    for _ in 0..400 {
        let records = stream_of(&mut random, 3).records();
        answers.add(&check(&damage(&mut random, records)));
    }
    answers.add(&check(&[]));
    answers.expect("sheets of damaged input", &ALL_ANSWERS);
}

/// Every prefix of the Harbour log, and of a log of two pages those that end at the last records.
#[test]
fn sheets_of_cut_input() {
    let bytes = harbour().concat();
    let mut answers = Answers::default();
    (0..bytes.len()).for_each(|length| answers.add(&check(&bytes[..length])));
    let bytes = all_listed(&[[-5; 8]; 51]);
    (bytes.len() - 67..=bytes.len()).for_each(|length| answers.add(&check(&bytes[..length])));
    answers.expect("sheets of cut input", &["log", "refused 1", "refused 4"]);
}

/// Where the lattice has too many nodes the window engine marks the runs.
#[test]
fn sheets_without_a_lattice() {
    println!("seed {SEED}");
    let mut random = Random::new(SEED + 14);
    for rows in [1, 49, 50, 51, 63, 64, 65, 200, 1_024] {
        let mut generated = mostly_best(&mut random, rows);
        generated.wishes.push(lowest(3, 0, 60_000, 1));
        assert!(check(&generated.stream()).starts_with(HEADING), "{rows} runs");
        assert!(check(&mostly_best_of_pairs(&mut random, rows).stream()).starts_with(HEADING), "{rows} runs, sixteen level parts");
    }
    assert_eq!(check(&[lowest(1, 0, 60_000, 1), row(&[60_001])].concat()), "refused 8\n");
}

#[test]
fn sheets_of_long_input() {
    assert!(check(&longest()).starts_with(HEADING));
    for (bytes, number) in too_long() {
        assert_eq!(check(&bytes), format!("refused {number}\n"), "{} bytes", bytes.len());
    }
}

/// The longest sheet is longer than what a pipe holds.
#[test]
fn sheets_through_slow_pipes() {
    println!("seed {SEED}");
    let mut random = Random::new(SEED + 15);
    let pace = |piece: usize, pause: u64, unread: u64| Pace { piece, pause: Duration::from_millis(pause), unread: Duration::from_millis(unread) };
    for pace in [pace(1, 1, 0), pace(33, 20, 0), pace(196, 50, 200)] {
        check_at(&harbour().concat(), pace);
    }
    let many = all_listed(&any_runs(&mut random, 1_024));
    for pace in [pace(1_000, 2, 0), pace(77, 0, 0), pace(usize::MAX, 0, 300), pace(4_096, 2, 300)] {
        assert_eq!(check_at(&many, pace).len(), 108_732);
    }
}
