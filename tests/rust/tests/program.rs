//! The program `shortlist`: what it prints for a few hundred streams, byte for byte against the model's text.

use flat_calls::damage::damage;
use flat_calls::generate::{longest, mostly_best, mostly_best_of_pairs, stream, stream_of, too_long};
use flat_calls::model::flat::program as expected;
use flat_calls::programs::{Answers, Pace, Program, ALL_ANSWERS, AT_ONCE};
use flat_calls::random::{Random, SEED};
use flat_calls::records::*;
use std::time::Duration;

const SHORTLIST: Program = Program { name: "shortlist", expected };

fn check(input: &[u8]) -> String {
    SHORTLIST.check(input)
}

fn check_in_pieces(input: &[u8], piece: usize, pause: Duration) {
    SHORTLIST.check_at(input, Pace { piece, pause, ..AT_ONCE });
}

#[test]
fn the_harbour_log() {
    let text = check(&harbour().concat());
    assert_eq!(text, "runs 5 best 4\n0 800 900\n1 650 1000\n2 700 850\n4 810 900\n");
}

/// Document 02, order 2: a run 50 under the target and one 50 over it, of which the second brought less.
#[test]
fn too_thin_is_not_too_thick() {
    assert_eq!(check(&harbour_sided().concat()), "runs 5 best 4\n0 800 900\n1 650 1000\n2 700 850\n4 810 900\n");
    let runs = [row(&[900, 1_200]), row(&[800, 1_300])].concat();
    assert_eq!(check(&[harbour()[..2].concat(), runs.clone()].concat()), "runs 2 best 1\n0 1 900\n");
    assert_eq!(check(&[harbour_sided()[..2].concat(), runs].concat()), "runs 2 best 2\n0 1 900\n1 1 800\n");
}

#[test]
fn random_input() {
    println!("seed {SEED}");
    let mut random = Random::new(SEED);
    let mut answers = Answers::default();
    for _ in 0..250 {
        answers.add(&check(&stream(&mut random).stream()));
    }
    answers.expect("random input", &["log", "refused 8"]);
}

#[test]
fn damaged_input() {
    println!("seed {SEED}");
    let mut random = Random::new(SEED + 1);
    let mut answers = Answers::default();
    for _ in 0..400 {
        let records = stream_of(&mut random, 3).records();
        answers.add(&check(&damage(&mut random, records)));
    }
    answers.add(&check(&[]));
    answers.expect("damaged input", &ALL_ANSWERS);
}

/// "or the window engine with w 64 where refusal 9 would come": no lattice, more best rows than the window holds.
#[test]
fn too_many_nodes() {
    let mut random = Random::new(SEED + 2);
    for rows in [0, 1, 63, 64, 65, 200, 1_024] {
        let mut generated = mostly_best(&mut random, rows);
        generated.wishes.push(lowest(3, 0, 60_000, 1));
        let text = check(&generated.stream());
        assert!(text.starts_with(&format!("runs {rows} best ")), "{text}");
    }
    let outside = [lowest(1, 0, 60_000, 1), row(&[60_001])].concat();
    assert_eq!(check(&outside), "refused 8\n");
    // Kind 08 with M 181 has 33,124 nodes, with M 180 few enough.
    for top in [180, 181] {
        let bytes = [sided(1, -top, top, 1, 0, 0), row(&[-top]), row(&[top]), row(&[-top])].concat();
        assert_eq!(check(&bytes), format!("runs 3 best 3\n0 1 -{top}\n1 1 {top}\n2 1 -{top}\n"));
    }
    for rows in [63, 64, 65, 1_024] {
        let text = check(&mostly_best_of_pairs(&mut random, rows).stream());
        assert!(text.starts_with(&format!("runs {rows} best ")), "{text}");
    }
}

#[test]
fn numbers_as_they_are() {
    let ends = [lowest(3, 0, 1, 1), run(&[i32::MIN, i32::MAX, 0, 0, 0, 0, 0, 0]), run(&[-1, 0, 0, 0, 0, 0, 0, 0])].concat();
    assert_eq!(check(&ends), "runs 2 best 2\n0 -2147483648 2147483647\n1 -1 0\n");
}

#[test]
fn long_input() {
    assert!(check(&longest()).starts_with("runs 1024 best "));
    for (bytes, number) in too_long() {
        assert_eq!(check(&bytes), format!("refused {number}\n"), "{} bytes", bytes.len());
    }
}

#[test]
fn a_slow_pipe() {
    let bytes = harbour().concat();
    for (piece, pause) in [(1, 1), (7, 5), (33, 20), (196, 50)] {
        check_in_pieces(&bytes, piece, Duration::from_millis(pause));
    }
    let mut random = Random::new(SEED + 3);
    let many = mostly_best(&mut random, 1_024).stream();
    check_in_pieces(&many, 1_000, Duration::from_millis(2));
    check_in_pieces(&many, 4_096, Duration::from_millis(2));
    check_in_pieces(&many, 77, Duration::ZERO);
}
