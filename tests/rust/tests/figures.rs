//! The model against figures that were not computed by it: documents 000 and 003, document 01's marked cases, orders 1 and 2 of document 02.

use flat_calls::model::flat::{facts, program};
use flat_calls::model::reader::{read, Form, Input, Refusal};
use flat_calls::model::{best, lattice, levels, machine, sheet};
use flat_calls::random::Random;
use flat_calls::records::*;
use std::collections::BTreeSet;

fn input(records: &[Record]) -> Input {
    read(&stream(records)).expect("it reads")
}

fn levels_under(records: &[Record], values: &[i32]) -> Vec<u32> {
    let input = input(records);
    values.iter().map(|value| levels::level(&input, 0, *value)).collect()
}

fn tops(records: &[Record]) -> Vec<u32> {
    levels::tops(&input(records))
}

fn marks(records: &[Record]) -> Vec<u8> {
    facts(&stream(records)).expect("it reads").marks
}

/// Level lists as a table.
fn table(rows: &[&[u32]]) -> Vec<Vec<u32>> {
    rows.iter().map(|row| row.to_vec()).collect()
}

/// Row numbers from 1 that are marked.
fn ids(marks: &[u8]) -> Vec<usize> {
    (1..).zip(marks).filter(|(_, mark)| **mark == 1).map(|(id, _)| id).collect()
}

const RED: i32 = 1;
const BLUE: i32 = 2;
const PURPLE: i32 = 3;
const BLACK: i32 = 4;
const BROWN: i32 = 5;
const YELLOW: i32 = 6;
const SILVER: i32 = 7;

/// 000 Example 9: red and blue liked, purple disliked.
fn colours(column: u8) -> Vec<Record> {
    vec![layered(column, 2, 1), named(RED, 0), named(BLUE, 0), named(PURPLE, 2)]
}

fn price() -> Record {
    between(1, 45, 95, 5, 60, 80)
}

#[test]
fn levels_of_around_and_between() {
    let p1 = [around(0, 45, 75, 5, 50)];
    assert_eq!(levels_under(&p1, &[45, 50, 55, 70, 75]), [1, 0, 1, 4, 5]);
    assert_eq!(levels_under(&p1, &[51, 56]), [1, 2]);
    assert_eq!(levels_under(&p1, &[50, 70, 75, 55, 45, 45]), [0, 4, 5, 1, 1, 1]);
    assert_eq!(levels_under(&p1, &[45, 48, 50]), [1, 1, 0]);
    assert_eq!(tops(&p1), [5]);
    assert_eq!(levels_under(&[between(0, 50, 95, 5, 60, 80)], &[59, 60, 80, 81, 95]), [1, 0, 0, 1, 3]);
    assert_eq!(levels_under(&[price()], &[50, 70, 75, 55, 45, 45]), [2, 0, 0, 1, 3, 3]);
    assert_eq!(levels_under(&[price()], &[56, 81, 70, 46, 45, 95, 84, 88]), [1, 1, 0, 3, 3, 3, 1, 2]);
    assert_eq!(tops(&[price()]), [3]);
    assert_eq!(tops(&[between(0, 45, 80, 5, 60, 80)]), [3]);
    assert_eq!(levels_under(&[between(0, 0, 10_000, 500, 6_000, 8_000)], &[5_899, 5_900]), [1, 1]);
    assert_eq!(levels_under(&[around(0, 4_000, 20_000, 1_000, 4_000)], &[5_000, 10_000, 15_000, 20_000]), [1, 6, 11, 16]);
    assert_eq!(levels_under(&[around(0, 4, 20, 1, 4)], &[5, 10, 15, 20]), [1, 6, 11, 16]);
    assert_eq!(levels_under(&harbour()[1..2], &[1_000, 1_001, 1_250, 1_299, 1_300, 1_301, 1_600]), [5, 5, 0, 1, 1, 2, 7]);
}

#[test]
fn greatest_levels() {
    let of = |d, e| tops(&[around(0, 2_000, 20_000, d, 2_000), around(1, 80_000, 150_000, e, 100_000)]);
    assert_eq!(of(1, 1), [18_000, 50_000]);
    assert_eq!(of(50, 100), [360, 500]);
    assert_eq!(of(100, 1_000), [180, 50]);
    assert_eq!(lattice::nodes(&of(100, 1_000)), Some(9_231));
    assert_eq!(of(200, 10_000), [90, 5]);
    assert_eq!(lattice::nodes(&of(200, 10_000)), Some(546));
    let p4 = [lowest(0, i32::MIN, i32::MAX, 65_537)];
    assert_eq!((tops(&p4), levels_under(&p4, &[0])), (vec![65_535], vec![32_768]));
    assert_eq!(read(&lowest(0, i32::MIN, i32::MAX, 65_536)), Err(Refusal { number: 7, place: 0 }));
}

/// "the greatest over lo..hi": no value of the range has a greater one, and one has it.
#[test]
fn greatest_levels_by_trying_every_value() {
    let mut random = Random::new(1);
    for _ in 0..300 {
        let (lo, step) = (random.between(-60, 60) as i32, random.between(1, 9) as u32);
        let hi = lo + random.between(0, 60) as i32;
        let (a, b) = (random.between(lo.into(), hi.into()) as i32, random.between(lo.into(), hi.into()) as i32);
        let (low, up) = (a.min(b), a.max(b));
        let forms = [lowest(0, lo, hi, step), highest(0, lo, hi, step), around(0, lo, hi, step, a), between(0, lo, hi, step, low, up)];
        for form in forms {
            let values: Vec<i32> = (lo..=hi).collect();
            let all = levels_under(std::slice::from_ref(&form), &values);
            assert_eq!(tops(&[form]), [*all.iter().max().unwrap()]);
        }
        assert_eq!(tops(&[sided(0, lo, hi, step, low, up)]), [tops(&[between(0, lo, hi, step, low, up)])[0]; 2]);
    }
}

#[test]
fn levels_of_layers() {
    let letter = |c: char| c as i32;
    let mut clarity = vec![layered(0, 5, 4)];
    for (layer, names) in ["DEF", "GHIJ", "KLM", "NOPQR"].iter().enumerate() {
        clarity.extend(names.chars().map(|name| named(letter(name), layer as u8)));
    }
    clarity.push(named(letter('+'), 5));
    assert_eq!(levels_under(&clarity, &"DGKNSZ+".chars().map(letter).collect::<Vec<i32>>()), [0, 1, 2, 3, 4, 4, 5]);
    assert_eq!(tops(&clarity), [5]);
    assert_eq!(levels_under(&colours(0), &[RED, BLACK, BROWN, YELLOW, RED, PURPLE]), [0, 1, 1, 1, 0, 2]);
    assert_eq!(levels_under(&colours(0), &[PURPLE, PURPLE, PURPLE, PURPLE, SILVER, RED, BLUE, BLACK]), [2, 2, 2, 2, 1, 0, 0, 1]);
    let p6 = [layered(0, 2, 1), named(7, 0), named(3, 2), named(7, 2)];
    assert_eq!(levels_under(&p6, &[7, 3, 9]), [0, 2, 1]);
    assert_eq!(tops(&[layered(0, 15, 0)]), [15]);
}

/// A price wish on column 1, colours on column 2.
fn cars(cars: &[(i32, i32)]) -> Vec<Record> {
    let mut records = vec![price()];
    records.extend(colours(2));
    records.extend(cars.iter().map(|(price, colour)| row(&[*price, *colour])));
    records
}

const RENTAL: [(i32, i32); 6] = [(50, RED), (70, BLACK), (75, BROWN), (55, YELLOW), (45, RED), (45, PURPLE)];
const SAMPLE: [(i32, i32); 8] = [(56, PURPLE), (81, PURPLE), (70, PURPLE), (46, PURPLE), (45, SILVER), (95, RED), (84, BLUE), (88, BLACK)];

#[test]
fn best_matches_of_the_papers() {
    let mut first: Vec<Record> = vec![lowest(1, 0, 20_000, 1), lowest(2, 0, 150_000, 3)];
    let relation = [(5_000, 100_000), (10_000, 80_000), (12_000, 150_000), (20_000, 10_000), (15_000, 20_000), (16_000, 25_000), (10_000, 30_000)];
    first.extend(relation.map(|(price, mileage)| row(&[price, mileage])));
    assert_eq!(ids(&marks(&first)), [1, 4, 5, 7]);
    // With trivial substitutable values, which document 01 does not have, id 4 would come too.
    assert_eq!(ids(&marks(&cars(&RENTAL))), [1, 2, 3]);
    assert_eq!(marks(&cars(&[RENTAL[0], RENTAL[3], RENTAL[4], RENTAL[5]])), [1, 1, 0, 0]);
    assert_eq!(ids(&marks(&cars(&SAMPLE))), [3, 7]);
    assert_eq!(best::marks(&table(&[&[1, 1], &[1, 2], &[2, 1], &[0, 4]])), [1, 0, 0, 1]);
    assert_eq!(best::marks(&table(&[&[0, 1, 2], &[0, 1, 1], &[1, 0, 2], &[1, 1, 0], &[2, 0, 0], &[3, 0, 1]])), [0, 1, 1, 1, 1, 0]);
}

/// 003 Table 1: make, colour, price in thousands, horse power.
#[test]
fn best_matches_of_003() {
    let (ford, mercedes, bmw, audi, gmc) = (1, 2, 3, 4, 5);
    let (green, cyan) = (8, 9);
    let cars = [
        [ford, BLACK, 70, 180],
        [mercedes, PURPLE, 75, 200],
        [bmw, RED, 50, 230],
        [audi, BLUE, 45, 170],
        [mercedes, cyan, 55, 190],
        [gmc, YELLOW, 70, 150],
        [bmw, green, 48, 220],
    ];
    let with = |wishes: Vec<Record>| marks(&[wishes, cars.iter().map(|car| row(car)).collect()].concat());
    let mut colour = vec![layered(2, 2, 2)];
    colour.extend([RED, BLUE, green].map(|value| named(value, 0)));
    colour.extend([YELLOW, PURPLE].map(|value| named(value, 1)));
    let mut makes = vec![layered(1, 4, 4)];
    makes.extend((0..).zip([gmc, bmw, ford, mercedes, audi]).map(|(layer, make)| named(make, layer)));
    assert_eq!(ids(&with(vec![lowest(3, 0, 100, 1), highest(4, 0, 300, 1)])), [3, 4, 7]);
    // With trivial substitutable values ids 4 and 7 would come too.
    assert_eq!(ids(&with([colour.clone(), vec![around(3, 40, 80, 5, 50)]].concat())), [3]);
    assert_eq!(ids(&with([colour, makes].concat())), [3, 6, 7]);
}

#[test]
fn level_sums_and_compares_of_table_5_1() {
    let log = levels::of_log(&input(&cars(&SAMPLE)));
    let sums: Vec<u32> = log.iter().map(|row| row.iter().sum()).collect();
    assert_eq!(sums, [3, 3, 2, 5, 4, 3, 1, 3]);
    for w in 2..=9 {
        assert_eq!(machine::run(&log, w).compares, 11, "w {w}");
    }
}

#[test]
fn node_and_edge_counts() {
    let counts: [(&[u32], usize); 12] = [
        (&[3, 2], 12),
        (&[2, 4, 10], 165),
        (&[2, 5], 18),
        (&[2, 2, 2, 2], 81),
        (&[5, 10, 10], 726),
        (&[10, 10, 100], 12_221),
        (&[2, 4], 15),
        (&[3, 2, 1], 24),
        (&[2, 1, 2, 1], 36),
        (&[4, 4], 25),
        (&[5, 5], 36),
        (&[16, 16], 289),
    ];
    for (tops, nodes) in counts {
        assert_eq!(lattice::nodes(tops), Some(nodes), "{tops:?}");
    }
    assert_eq!(lattice::nodes(&[5, 10, 10, 100]), None);
    assert_eq!((lattice::nodes(&[127, 255]), lattice::nodes(&[128, 255])), (Some(32_768), None));
    assert_eq!(lattice::nodes(&[65_535; 8]), None);
    let edges: [(&[u32], usize, u32); 3] = [(&[2, 2, 1], 18, 33), (&[2, 2, 100], 909, 2_112), (&[20, 20, 20], 9_261, 26_460)];
    for (tops, nodes, edges) in edges {
        assert_eq!((lattice::nodes(tops), lattice::bound(tops)), (Some(nodes), edges), "{tops:?}");
        let from_the_best = lattice::bytes(tops, &[vec![0; 3]]);
        assert_eq!(lattice::crossings(tops, &from_the_best), edges, "{tops:?}");
    }
}

#[test]
fn node_numbers() {
    assert_eq!(lattice::weights(&[3, 2]), [3, 1]);
    assert_eq!((lattice::node(&[3, 2], &[0, 2]), lattice::node(&[3, 2], &[1, 1])), (2, 4));
    assert_eq!(lattice::levels(&[3, 2], 7), [2, 1]);
    let (six, four) = (lattice::levels(&[2, 2, 1], 6), lattice::levels(&[2, 2, 1], 4));
    assert_eq!((six.as_slice(), four.as_slice()), ([1, 0, 0].as_slice(), [0, 2, 0].as_slice()));
    assert!(!best::betters(&six, &four) && !best::betters(&four, &six));
}

#[test]
fn node_bytes_of_table_5_1() {
    let log = levels::of_log(&input(&cars(&SAMPLE)));
    let mut held: Vec<usize> = log.iter().map(|row| lattice::node(&[3, 2], row)).collect();
    held.sort();
    held.dedup();
    assert_eq!(held, [2, 3, 5, 7, 9, 10, 11]);
    let bytes = lattice::bytes(&[3, 2], &log);
    assert_eq!(bytes, [0, 0, 1, 1, 2, 3, 2, 3, 2, 3, 3, 3]);
    assert_eq!((lattice::crossings(&[3, 2], &bytes), lattice::bound(&[3, 2])), (13, 17));
}

#[test]
fn the_harbour_log() {
    let bytes = stream(&harbour());
    assert_eq!(bytes.len(), 197);
    let harbour = input(&harbour());
    let (tops, log) = (levels::tops(&harbour), levels::of_log(&harbour));
    assert_eq!(tops, [10, 7]);
    assert_eq!(log, table(&[&[1, 1], &[0, 3], &[2, 0], &[2, 1], &[1, 1]]));
    let held: Vec<usize> = log.iter().map(|row| lattice::node(&tops, row)).collect();
    assert_eq!(held, [9, 3, 16, 17, 9]);
    let bytes_of_nodes = lattice::bytes(&tops, &log);
    assert_eq!(bytes_of_nodes[..22], [0, 0, 0, 1, 2, 2, 2, 2, 0, 1, 2, 2, 2, 2, 2, 2, 1, 3, 2, 2, 2, 2]);
    let count = |byte| bytes_of_nodes.iter().filter(|other| **other == byte).count();
    assert_eq!((bytes_of_nodes.len(), count(0), count(1), count(2), count(3)), (88, 4, 3, 80, 1));
    assert_eq!((lattice::crossings(&tops, &bytes_of_nodes), lattice::bound(&tops)), (149, 157));
    let outcomes: Vec<(u64, u64)> = (1..=6).map(|w| machine::run(&log, w)).map(|outcome| (outcome.compares, outcome.passes)).collect();
    assert_eq!(outcomes, [(7, 4), (7, 2), (7, 2), (7, 1), (7, 1), (7, 1)]);
    assert_eq!(best::marks(&log), [1, 1, 1, 0, 1]);
    assert_eq!(program(&bytes), "runs 5 best 4\n0 800 900\n1 650 1000\n2 700 850\n4 810 900\n");
}

/// The pair of each value under a wish of kind 08.
fn pairs_under(wish: &Record, values: &[i32]) -> Vec<Vec<u32>> {
    let input = input(std::slice::from_ref(wish));
    values.iter().map(|value| levels::parts(&input, 0, *value)).collect()
}

/// Document 02, order 2: Table 4 of 003 and Table 4.1 of 000, in thousands.
#[test]
fn pairs_of_kind_08() {
    let price = sided(0, 45, 75, 5, 50, 50);
    assert_eq!(pairs_under(&price, &[45, 50, 55, 70, 75]), table(&[&[0, 1], &[0, 0], &[1, 0], &[4, 3], &[5, 4]]));
    assert_eq!(pairs_under(&price, &[50, 70, 75, 55, 45, 45]), table(&[&[0, 0], &[4, 3], &[5, 4], &[1, 0], &[0, 1], &[0, 1]]));
    assert_eq!(levels_under(std::slice::from_ref(&price), &[45, 50, 55, 70, 75]), [1, 0, 1, 4, 5]);
    assert_eq!(tops(&[price]), [5, 5]);
    let inside = sided(0, 50, 95, 5, 60, 80);
    assert_eq!(pairs_under(&inside, &[50, 59, 60, 80, 81, 95]), table(&[&[1, 2], &[0, 1], &[0, 0], &[0, 0], &[1, 0], &[3, 2]]));
    let ends = sided(0, i32::MIN, i32::MAX, 65_537, i32::MIN, i32::MIN);
    assert_eq!(pairs_under(&ends, &[i32::MIN, 0, i32::MAX]), table(&[&[0, 0], &[32_768, 32_767], &[65_535, 65_534]]));
    let ends = sided(0, i32::MIN, i32::MAX, 65_537, i32::MAX, i32::MAX);
    assert_eq!(pairs_under(&ends, &[i32::MIN, 0, i32::MAX]), table(&[&[65_534, 65_535], &[32_767, 32_768], &[0, 0]]));
}

/// 000 Example 20, Lemmas 10 and 11: with M 5 a pair has 36 nodes, and values that reach M on both sides hold 11 of them.
#[test]
fn nodes_of_a_pair() {
    assert_eq!(lattice::nodes(&tops(&[sided(0, 45, 75, 5, 50, 50)])), Some(36));
    let both_sides = sided(0, 25, 75, 5, 50, 50);
    assert_eq!(lattice::nodes(&tops(std::slice::from_ref(&both_sides))), Some(36));
    let values: Vec<i32> = (25..=75).collect();
    let held: BTreeSet<usize> = pairs_under(&both_sides, &values).iter().map(|pair| lattice::node(&[5, 5], pair)).collect();
    assert_eq!(held.len(), 11);
    let alone = |top| lattice::nodes(&tops(&[sided(0, 0, top, 1, 0, 0)]));
    assert_eq!((alone(180), alone(181)), (Some(32_761), None));
}

/// "in lattice, node number and betterment": (0,3,2) is node 26, as (0,3) is node 3 without kind 08.
#[test]
fn the_harbour_log_with_kind_08() {
    let bytes = stream(&harbour_sided());
    assert_eq!(bytes.len(), 201);
    let harbour = input(&harbour_sided());
    let (tops, log) = (levels::tops(&harbour), levels::of_log(&harbour));
    assert_eq!(tops, [10, 7, 7]);
    assert_eq!(log, table(&[&[1, 1, 0], &[0, 3, 2], &[2, 0, 0], &[2, 0, 1], &[1, 1, 0]]));
    let held: Vec<usize> = log.iter().map(|row| lattice::node(&tops, row)).collect();
    assert_eq!(held, [72, 26, 128, 129, 72]);
    let bytes_of_nodes = lattice::bytes(&tops, &log);
    assert_eq!(bytes_of_nodes.len(), 704);
    assert_eq!((lattice::crossings(&tops, &bytes_of_nodes), lattice::bound(&tops)), (1_752, 1_872));
    assert_eq!([1, 4].map(|w| machine::run(&log, w).compares), [9, 9]);
    assert_eq!(best::marks(&log), [1, 1, 1, 0, 1]);
    assert_eq!(program(&bytes), "runs 5 best 4\n0 800 900\n1 650 1000\n2 700 850\n4 810 900\n");
}

/// "A density 50 under the target and one 50 over it need different handling, so mates want both listed."
#[test]
fn too_thin_is_not_too_thick() {
    let runs = [row(&[900, 1_200]), row(&[800, 1_300])];
    let under = |wishes: &[Record]| marks(&[wishes, &runs].concat());
    assert_eq!(under(&harbour()[..2]), [1, 0]);
    assert_eq!(under(&harbour_sided()[..2]), [1, 1]);
}

/// At most 32,768 nodes have at most 245,760 edges: with fifteen parts of M 1.
#[test]
fn the_most_crossings() {
    let mut wishes: Vec<Record> = (1..8).map(|column| sided(column, 0, 1, 1, 0, 0)).collect();
    wishes.push(lowest(0, 0, 1, 1));
    let tops = tops(&wishes);
    assert_eq!((tops.len(), lattice::nodes(&tops), lattice::bound(&tops)), (15, Some(32_768), 245_760));
    assert_eq!(lattice::crossings(&tops, &lattice::bytes(&tops, &[vec![0; 15]])), 245_760);
}

/// Below at level L betters above at level L' exactly when L' is above L, and the other way round; inside betters all others.
#[test]
fn sides_against_each_other() {
    let wish = sided(0, -9, 9, 1, 0, 0);
    for a in -9i32..=9 {
        for b in -9i32..=9 {
            let pairs = pairs_under(&wish, &[a, b]);
            assert_eq!(best::betters(&pairs[0], &pairs[1]), a.abs() < b.abs(), "{a} and {b}");
            assert_eq!(pairs[0] == pairs[1], a == b, "{a} and {b}");
        }
    }
}

#[test]
fn small_logs_that_tell_machines_apart() {
    let compares = |rows: &[&[u32]], w| machine::run(&table(rows), w).compares;
    assert_eq!(compares(&[&[0, 1], &[1, 0], &[0, 2]], 2), 2);
    assert_eq!(compares(&[&[0, 1], &[0, 1], &[0, 0], &[0, 0]], 1), 4);
    let p10: &[&[u32]] = &[&[2, 1], &[1, 2], &[0, 5], &[1, 1]];
    assert_eq!(compares(p10, 2), 6);
    assert_eq!(machine::marks(4, &machine::run(&table(p10), 2).result), [0, 0, 1, 1]);
    let bytes = lattice::bytes(&[5, 5], &table(p10));
    assert_eq!((bytes.len(), lattice::bound(&[5, 5]), lattice::crossings(&[5, 5], &bytes)), (36, 60, 41));
    let late: &[&[u32]] = &[&[0, 1], &[1, 0], &[2, 0]];
    assert_eq!(machine::marks(3, &machine::run(&table(late), 1).result), [1, 1, 0]);
    assert_eq!((compares(&[], 1), lattice::crossings(&[5, 5], &lattice::bytes(&[5, 5], &[]))), (0, 0));
}

/// Node bytes along edges and by the definition, the machine and the nested loop: on random tables the model agrees with itself.
#[test]
fn two_ways_give_the_same() {
    let mut random = Random::new(2);
    for _ in 0..2_000 {
        // Few parts with up to four levels each, or more parts than a list has wishes.
        let (parts, levels) = if random.one_in(4) { (random.between(9, 11), 2) } else { (random.between(1, 4), 4) };
        let tops: Vec<u32> = (0..parts).map(|_| random.below(levels) as u32).collect();
        let count = random.below(8);
        let rows: Vec<Vec<u32>> = (0..count).map(|_| tops.iter().map(|top| random.below(u64::from(*top) + 1) as u32).collect()).collect();
        assert_eq!(lattice::bytes(&tops, &rows), lattice::bytes_node_by_node(&tops, &rows));
        let marks = best::marks(&rows);
        for w in 1..=4 {
            let outcome = machine::run(&rows, w);
            assert_eq!(machine::marks(rows.len(), &outcome.result), marks);
            assert!(outcome.compares <= count * count.saturating_sub(1) / 2);
        }
        let bytes = lattice::bytes(&tops, &rows);
        let by_bytes: Vec<u8> = rows.iter().map(|row| u8::from(bytes[lattice::node(&tops, row)] == 1)).collect();
        assert_eq!(by_bytes, marks);
    }
}

/// Document 02, order 1: 102 bytes for each run, heading and foot; "−5 is `-0.05`".
#[test]
fn the_shift_sheet() {
    let alike = |rows: usize| sheet::of_log(&vec![[-5; 8]; rows], &vec![1; rows]);
    for (rows, lines) in [(0, 2), (1, 3), (49, 51), (50, 52), (51, 55), (100, 104), (101, 107), (1_024, 1_066)] {
        assert_eq!(alike(rows).len(), 102 * lines, "{rows} runs");
    }
    let headings = ["ROW", "HOURS", "CUBIC", "M", "DENSITY", "FUEL", "SUCTION", "DISCHARGE", "DEPTH", "SOIL"];
    let run = ["0", "-0.05", "-5", "-5", "-5", "-5", "-5", "-5", "-5"];
    let words = [&headings[..], &run, &["PAGE", "1", "OF", "1"]].concat();
    assert_eq!(alike(1).split_whitespace().collect::<Vec<&str>>(), words);
}

#[test]
fn figures_that_are_read() {
    let records = [between(3, -1, 260, 70_000, 0, 5), layered(0, 15, 14), named(-2, 13), sided(7, -3, 300, 9, -2, 4)];
    let read = input(&records);
    let Form::Between { range, low, up } = read.wishes[0].form else { panic!("BETWEEN") };
    assert_eq!((read.wishes[0].column, range.lo, range.hi, range.step, low, up), (3, -1, 260, 70_000, 0, 5));
    assert_eq!(read.wishes[1].form, Form::Layered { top: 15, others: 14 });
    assert_eq!((read.named[0].wish, read.named[0].value, read.named[0].layer), (1, -2, 13));
    let Form::Sided { range, low, up } = read.wishes[2].form else { panic!("kind 08") };
    assert_eq!((read.wishes[2].column, range.lo, range.hi, range.step, low, up), (7, -3, 300, 9, -2, 4));
}

/// Number and place of a refusal: where the record begins, or the stream's length.
#[test]
fn places_of_refusals() {
    let harbour = stream(&harbour());
    let after = |record: &[u8]| [harbour.clone(), record.to_vec()].concat();
    let cases: Vec<(Vec<u8>, i32, usize)> = vec![
        (vec![], 1, 0),
        (vec![9], 2, 0),
        (after(&[0]), 2, 197),
        (after(&[7]), 4, 197),
        (after(&[1]), 3, 197),
        (after(&[8]), 3, 197),
        (vec![8], 4, 0),
        ([sided(0, 0, 9, 1, 4, 5), named(0, 0)].concat(), 3, 22),
        (vec![6, 0, 0, 0, 0, 0], 3, 0),
        (vec![5, 0], 4, 0),
        (vec![5, 8, 1, 0], 5, 0),
        (vec![5, 0, 1, 2], 6, 0),
        ([layered(1, 2, 0), named(4, 2), named(4, 3)].concat(), 6, 10),
        ([lowest(0, 0, 9, 1), lowest(0, 0, 9, 1)].concat(), 5, 14),
    ];
    for (bytes, number, place) in cases {
        assert_eq!(read(&bytes), Err(Refusal { number, place }), "{bytes:?}");
    }
}

/// A ninth wish finds no column: 5, whatever column byte it has.
#[test]
fn a_ninth_wish() {
    let eight: Vec<u8> = (0..8).flat_map(|column| layered(column, 1, 0)).collect();
    for column in 0..=255 {
        let bytes = [eight.clone(), layered(column, 1, 0)].concat();
        assert_eq!(read(&bytes), Err(Refusal { number: 5, place: 32 }));
    }
}
