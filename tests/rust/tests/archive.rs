//! The archive's two flat calls against the model. Each test says how many streams it tried and how the answers spread.

use flat_calls::calls::{call, old_marks, raw, with_null, Call};
use flat_calls::compare::{Case, WINDOWS};
use flat_calls::damage::damage;
use flat_calls::generate::{any_record, mostly_best, mostly_best_of_pairs, stream, stream_of, Generated};
use flat_calls::random::{Random, SEED};
use flat_calls::records::*;
use flat_calls::spread::{Extent, Spread};

fn random(test: u64) -> Random {
    println!("seed {SEED}, test {test}");
    Random::new(SEED.wrapping_mul(1_000).wrapping_add(test))
}

/// A mark length around the number of rows.
fn awkward_length(random: &mut Random, rows: usize) -> usize {
    random.pick(&[0, rows.saturating_sub(1), rows, rows, rows, rows + 1, rows + 17, 1_024.max(rows), 2_000])
}

/// A budget around the crossings.
fn awkward_budget(random: &mut Random, crossings: u32) -> u32 {
    random.pick(&[crossings.saturating_sub(1), crossings, crossings, crossings + 1, 262_144, 262_144, 0, u32::MAX])
}

fn check_some(random: &mut Random, case: &Case, calls: usize, spread: &mut Spread) {
    for _ in 0..calls {
        let length = awkward_length(random, case.rows());
        let budget = awkward_budget(random, case.crossings());
        case.check(Call::Lattice { budget }, length, spread);
        let length = awkward_length(random, case.rows());
        let w = random.pick(&[1, 2, 3, 4, 5, 8, 64, 1_023, 1_024, 0, 1_025, u32::MAX]);
        case.check(Call::Window { w }, length, spread);
        case.check_machine(w);
    }
}

#[test]
fn streams_that_read() {
    let mut random = random(1);
    let mut spread = Spread::default();
    let mut extent = Extent::default();
    for _ in 0..40_000 {
        let bytes = stream(&mut random).stream();
        let case = Case::new(&bytes, &mut spread);
        extent.add(&case.facts.as_ref().expect("it reads").input);
        check_some(&mut random, &case, 2, &mut spread);
    }
    spread.expect("streams that read", &[0, 8, 9, 10, 11], &[0, 8, 10]);
    println!("{extent:?}");
    assert_eq!((extent.wishes, extent.names, extent.runs, extent.top), ((1, 8), (0, 64), (0, 1_024), (0, 65_535)));
    assert_eq!(extent.parts, (1, 16));
    assert!(extent.forms.iter().all(|count| *count > 1_000), "a form came too seldom");
    assert!(extent.wide_lattices > 1_000, "too few lattices of many parts");
}

#[test]
fn damaged_streams() {
    let mut random = random(2);
    let mut spread = Spread::default();
    for _ in 0..60_000 {
        let rows = random.between(0, 6) as usize;
        let records = stream_of(&mut random, rows).records();
        let bytes = damage(&mut random, records);
        let case = Case::new(&bytes, &mut spread);
        check_some(&mut random, &case, 1, &mut spread);
    }
    spread.expect("damaged streams", &[0, 1, 2, 3, 4, 5, 6, 7, 8, 9, 10, 11], &[0, 1, 2, 3, 4, 5, 6, 7, 8, 10]);
}

/// Streams that begin anyhow: a few records of any kind with any figures, and plain noise.
#[test]
fn heaps_of_records() {
    let mut random = random(3);
    let mut spread = Spread::default();
    for _ in 0..60_000 {
        let count = random.below(7);
        let mut bytes: Vec<u8> = (0..count).flat_map(|_| any_record(&mut random)).collect();
        if random.one_in(10) {
            bytes = (0..random.below(40)).map(|_| random.below(10) as u8).collect();
        }
        let case = Case::new(&bytes, &mut spread);
        check_some(&mut random, &case, 1, &mut spread);
    }
    spread.expect("heaps of records", &[0, 1, 2, 3, 4, 5, 6, 7, 8, 9, 10, 11], &[0, 1, 2, 3, 4, 5, 6, 7, 8, 10]);
}

/// Every prefix of some streams: "record cut short" and what comes before it.
#[test]
fn every_prefix() {
    let mut random = random(4);
    let mut spread = Spread::default();
    let mut streams = vec![stream_of_every_kind(), records_bytes(harbour()), records_bytes(harbour_sided())];
    streams.extend((0..20).map(|_| stream_of(&mut random, 3).stream()));
    for bytes in streams {
        for length in 0..=bytes.len() {
            let case = Case::new(&bytes[..length], &mut spread);
            case.check(Call::Lattice { budget: 262_144 }, case.rows(), &mut spread);
            case.check(Call::Window { w: 2 }, case.rows(), &mut spread);
        }
    }
    spread.expect("every prefix", &[0, 1, 4], &[0, 1, 4]);
}

fn records_bytes(records: Vec<Record>) -> Vec<u8> {
    records.concat()
}

fn stream_of_every_kind() -> Vec<u8> {
    let wishes = [lowest(0, -5, 5, 2), highest(1, 0, 9, 3), around(2, 0, 9, 3, 4), between(3, 0, 9, 1, 4, 5), sided(5, 5, 9, 2, 7, 8)];
    let layers = [layered(4, 2, 1), named(7, 0), named(3, 2)];
    let runs = [run(&[0, 5, 4, 3, 7, 9, 9, 9]), run(&[1, 2, 3, 4, 5, 6, 7, 8])];
    [wishes.concat(), layers.concat(), runs.concat()].concat()
}

/// Every byte of a stream with every value, one at a time: no figure is left unchecked.
#[test]
fn every_byte_with_every_value() {
    let mut spread = Spread::default();
    let bytes = stream_of_every_kind();
    for place in 0..bytes.len() {
        for value in 0..=255 {
            let mut changed = bytes.clone();
            changed[place] = value;
            let case = Case::new(&changed, &mut spread);
            case.check(Call::Lattice { budget: 262_144 }, 2, &mut spread);
            case.check(Call::Window { w: 1 }, 2, &mut spread);
        }
    }
    spread.expect("every byte with every value", &[0, 2, 3, 5, 6, 7, 8, 9], &[0, 2, 3, 5, 6, 7, 8]);
}

/// All combinations of awkward mark lengths, windows and budgets.
#[test]
fn lengths_windows_and_budgets() {
    let mut random = random(5);
    let mut spread = Spread::default();
    let mut streams: Vec<Vec<u8>> = (0..300).map(|_| stream(&mut random).stream()).collect();
    streams.extend((0..10).map(|_| mostly_best(&mut random, 200).stream()));
    streams.extend((0..10).map(|_| mostly_best_of_pairs(&mut random, 200).stream()));
    streams.extend([records_bytes(harbour()), records_bytes(harbour_sided())]);
    streams.extend([mostly_best(&mut random, 1_024).stream(), mostly_best_of_pairs(&mut random, 1_024).stream()]);
    for bytes in &streams {
        let case = Case::new(bytes, &mut spread);
        every_combination(&case, &mut spread);
    }
    spread.expect("lengths, windows and budgets", &[0, 8, 9, 10, 11], &[0, 8, 10]);
}

fn every_combination(case: &Case, spread: &mut Spread) {
    let (rows, crossings) = (case.rows(), case.crossings());
    for length in [0, rows.saturating_sub(1), rows, rows + 1, rows + 100] {
        for budget in [crossings.saturating_sub(1), crossings, crossings + 1, 0, u32::MAX] {
            case.check(Call::Lattice { budget }, length, spread);
        }
        for w in WINDOWS {
            case.check(Call::Window { w }, length, spread);
        }
    }
}

/// Many rows that no row betters, so that windows overflow pass after pass.
#[test]
fn windows_that_overflow() {
    let mut random = random(6);
    let mut spread = Spread::default();
    for i in 0..3_000 {
        let rows = random.between(2, 40) as usize;
        let generated = if i % 2 == 0 { mostly_best } else { mostly_best_of_pairs };
        let bytes = generated(&mut random, rows).stream();
        let case = Case::new(&bytes, &mut spread);
        for w in [1, 2, 3, 5, 8, 13, 21, 64] {
            case.check(Call::Window { w }, rows, &mut spread);
            case.check_machine(w);
        }
        case.check(Call::Lattice { budget: case.crossings() }, rows, &mut spread);
    }
    spread.expect("windows that overflow", &[0, 9], &[0]);
}

/// "the mark at a row's new place equals the mark at its old place, whichever engine, window and budget": archive against archive.
#[test]
fn reordered_rows_take_their_marks_along() {
    let mut random = random(7);
    let (mut pairs, mut moved) = (0, 0);
    while pairs < 4_000 {
        let mut old = stream(&mut random);
        let (first, second) = (any_call(&mut random), any_call(&mut random));
        let Some(old_marks) = accepted(first, &old) else { continue };
        let mut places: Vec<usize> = (0..old.runs.len()).collect();
        random.shuffle(&mut places);
        old.runs = places.iter().map(|place| old.runs[*place]).collect();
        let Some(new_marks) = accepted(second, &old) else { continue };
        let taken_along: Vec<u8> = places.iter().map(|place| old_marks[*place]).collect();
        assert!(new_marks == taken_along, "{first:?} then {second:?}, order {places:?}: marks {new_marks:?}, not {taken_along:?}");
        pairs += 1;
        moved += u32::from(new_marks != old_marks);
    }
    println!("reordered rows: {pairs} pairs of accepted calls, {moved} with the marks in other places");
    assert!(moved > 1_000, "too few orders changed anything");
}

fn any_call(random: &mut Random) -> Call {
    if random.one_in(2) {
        Call::Lattice { budget: random.pick(&[262_144, u32::MAX]) }
    } else {
        Call::Window { w: random.pick(&[1, 2, 3, 7, 64, 1_023, 1_024]) }
    }
}

fn accepted(the_call: Call, generated: &Generated) -> Option<Vec<u8>> {
    let left = call(the_call, &generated.stream(), generated.runs.len());
    (left.result >= 0).then_some(left.marks)
}

/// Both engines leave the same marks, and the result is how many are 1: archive against archive.
#[test]
fn the_engines_agree() {
    let mut random = random(8);
    let mut agreed = 0;
    while agreed < 4_000 {
        let generated = stream(&mut random);
        let bytes = generated.stream();
        let rows = generated.runs.len();
        let lattice = call(Call::Lattice { budget: 262_144 }, &bytes, rows);
        if lattice.result < 0 {
            continue;
        }
        for w in [1, 2, 3, 64, 1_024] {
            let window = call(Call::Window { w }, &bytes, rows);
            assert!(window.result == lattice.result && window.marks == lattice.marks, "w {w} and the lattice engine differ");
        }
        let marked = lattice.marks.iter().filter(|mark| **mark == 1).count();
        assert_eq!(lattice.result as usize, marked);
        agreed += 1;
    }
    println!("the engines agree: {agreed} streams, 5 windows each");
}

/// The longest stream there is, 34,334 bytes, and one more record of each kind. BETWEEN and kind 08 in turn make twelve parts and 32,768 nodes.
#[test]
fn the_longest_stream() {
    let mut spread = Spread::default();
    let widest = |column: u8| if column % 2 == 0 { sided } else { between };
    let mut records: Vec<Record> = (0..7).map(|column| widest(column)(column, 0, 1, 1, 0, 0)).collect();
    records.push(layered(7, 15, 3));
    records.extend((0..64).map(|value| named(value, (value % 16) as u8)));
    records.extend((0..1_024).map(|row: i32| run(&std::array::from_fn(|column| if column == 7 { row % 70 } else { row >> column & 1 }))));
    let longest = stream_bytes(&records);
    assert_eq!(longest.len(), 34_334);
    let more = [lowest(0, 0, 1, 1), layered(9, 1, 1), sided(0, 0, 1, 1, 0, 0), named(0, 0), run(&[0; 8]), vec![9], vec![8], vec![7], vec![0]];
    let mut streams = vec![longest.clone(), longest[..longest.len() - 1].to_vec()];
    streams.extend(more.iter().map(|record| [longest.clone(), record.clone()].concat()));
    streams.push([longest.clone(), longest.clone()].concat());
    for bytes in &streams {
        let case = Case::new(bytes, &mut spread);
        for length in [0, 1_023, 1_024, 1_025] {
            case.check(Call::Lattice { budget: 262_144 }, length, &mut spread);
            case.check(Call::Window { w: 64 }, length, &mut spread);
        }
    }
    spread.expect("the longest stream", &[0, 2, 3, 4, 7, 10], &[0, 2, 3, 4, 7, 10]);
}

fn stream_bytes(records: &[Record]) -> Vec<u8> {
    flat_calls::records::stream(records)
}

/// The column "example" of document 01's table, and the orders of the checks: the numbers stand here, they are not the model's.
#[test]
fn the_refusal_table() {
    let table = refusals();
    for (what, bytes, call_made, length, number) in &table {
        let left = call(*call_made, bytes, *length);
        assert_eq!(left.result, -number, "{what}");
        assert!(left.marks == old_marks(*length), "{what}: marks changed");
    }
    for number in 1..=11 {
        assert!(table.iter().any(|line| line.4 == number), "no line for {number}");
    }
    println!("the refusal table: {} lines", table.len());
}

type Line = (&'static str, Vec<u8>, Call, usize, i32);

const LATTICE: Call = Call::Lattice { budget: 262_144 };
const WINDOW: Call = Call::Window { w: 64 };

fn refusals() -> Vec<Line> {
    let mut table = vec![];
    for (what, bytes, number) in reading_refusals().into_iter().chain(refusals_of_kind_08()) {
        table.push((what, bytes.clone(), LATTICE, 1_024, number));
        table.push((what, bytes.clone(), WINDOW, 1_024, number));
        // "A flat call reads its stream first": before the marks, the window and the budget.
        table.push((what, bytes.clone(), Call::Window { w: 0 }, 0, number));
        table.push((what, bytes, Call::Lattice { budget: 0 }, 0, number));
    }
    table.extend(engine_refusals());
    table
}

fn reading_refusals() -> Vec<(&'static str, Vec<u8>, i32)> {
    let wide = |step| lowest(0, i32::MIN, i32::MAX, step);
    let after_run = |record: &[u8]| [records_bytes(harbour()), record.to_vec()].concat();
    let after_wish = |record: &[u8]| [lowest(0, 0, 9, 1), record.to_vec()].concat();
    vec![
        ("empty stream", vec![], 1),
        ("unknown kind", vec![9], 2),
        ("kind 0", vec![0], 2),
        ("unknown kind after a run", after_run(&[255]), 2),
        ("named value of no wish", vec![6, 0, 0, 0, 0, 0], 3),
        ("named value cut short, of no wish", vec![6], 3),
        ("run before any wish", run(&[1; 8]), 3),
        ("wish after a run", after_run(&lowest(5, 0, 9, 1)), 3),
        ("wish after a run, cut short", after_run(&[1]), 3),
        ("named value after a run", after_run(&named(0, 0)), 3),
        ("named value after LOWEST", after_wish(&named(0, 0)), 3),
        ("record cut short", vec![5, 0], 4),
        ("cut short on a taken column", after_wish(&[1, 0]), 4),
        ("run cut short", after_run(&[7]), 4),
        ("column above 7", vec![5, 8, 1, 0], 5),
        ("column 8 before layers", vec![5, 8, 0, 1], 5),
        ("column taken", after_wish(&lowest(0, 0, 9, 1)), 5),
        ("column taken before figures", after_wish(&lowest(0, 9, 0, 0)), 5),
        ("layer of others above the top", vec![5, 0, 1, 2], 6),
        ("top 0", layered(0, 0, 0), 6),
        ("top 16", layered(0, 16, 0), 6),
        ("layer above its wish's top", [layered(0, 2, 0), named(5, 3)].concat(), 6),
        ("lo above hi", lowest(0, 1, 0, 1), 6),
        ("step 0", highest(0, 0, 1, 0), 6),
        ("step 0, M not asked", lowest(0, i32::MIN, i32::MAX, 0), 6),
        ("z below lo", around(0, 0, 9, 1, -1), 6),
        ("z above hi", around(0, 0, 9, 1, 10), 6),
        ("low below lo", between(0, 0, 9, 1, -1, 5), 6),
        ("up above hi", between(0, 0, 9, 1, 5, 10), 6),
        ("low above up", between(0, 0, 9, 1, 6, 5), 6),
        ("P5", wide(65_536), 7),
        ("M 65,536", highest(0, 0, 65_536, 1), 7),
        ("65th named value", [layered(0, 1, 0), (0..65).flat_map(|value| named(value, 0)).collect()].concat(), 7),
        (
            "65th named value with a bad layer",
            [layered(0, 1, 0), (0..65).flat_map(|value| named(value, u8::from(value == 64) * 2)).collect()].concat(),
            6,
        ),
        ("65th named value in two wishes", two_wishes_of_names(), 7),
        ("1,025th run", [lowest(0, 0, 9, 1), (0..1_025).flat_map(|_| run(&[1; 8])).collect()].concat(), 7),
    ]
}

/// Kind 08 "has BETWEEN's body" and is read and checked as a wish.
fn refusals_of_kind_08() -> Vec<(&'static str, Vec<u8>, i32)> {
    let wish = sided(0, 0, 9, 1, 4, 5);
    let (lo, hi) = (i32::MIN, i32::MAX);
    let after_run = |record: &[u8]| [records_bytes(harbour_sided()), record.to_vec()].concat();
    let after_wish = |record: &[u8]| [wish.clone(), record.to_vec()].concat();
    vec![
        ("08 after a run", after_run(&sided(5, 0, 9, 1, 4, 5)), 3),
        ("08 after a run, cut short", after_run(&[8]), 3),
        ("named value after 08", after_wish(&named(0, 0)), 3),
        ("named value after LAYERED and 08", [layered(1, 1, 0), after_wish(&named(0, 0))].concat(), 3),
        ("08 alone", vec![8], 4),
        ("08 one byte short", wish[..21].to_vec(), 4),
        ("08 with AROUND's body", numeric(8, 0, &[0, 9, 1, 4]), 4),
        ("08 cut short on a taken column", after_wish(&[8, 0]), 4),
        ("08 on column 8", sided(8, 0, 9, 1, 4, 5), 5),
        ("08 on a taken column", after_wish(&wish), 5),
        ("08 on a taken column, before figures", after_wish(&sided(0, 9, 0, 0, 5, 4)), 5),
        ("column taken by 08", after_wish(&lowest(0, 0, 9, 1)), 5),
        ("08, lo above hi", sided(0, 1, 0, 1, 0, 0), 6),
        ("08, step 0", sided(0, 0, 9, 0, 4, 5), 6),
        ("08, low above up", sided(0, 0, 9, 1, 5, 4), 6),
        ("08, low below lo", sided(0, 0, 9, 1, -1, 5), 6),
        ("08, up above hi", sided(0, 0, 9, 1, 5, 10), 6),
        ("08, low and up above hi", sided(0, 0, 9, 1, 10, 11), 6),
        ("08, M 65,536 above", sided(0, 0, 65_536, 1, 0, 0), 7),
        ("08, M 65,536 below", sided(0, 0, 65_536, 1, 65_536, 65_536), 7),
        ("08, M 65,536 over 32 bits", sided(0, lo, hi, 65_536, lo, lo), 7),
        ("08, a 1,025th run", [wish.clone(), (0..1_025).flat_map(|_| run(&[1; 8])).collect()].concat(), 7),
    ]
}

/// "Kind 08, refused by 2 until now": 00 and 09 to FF are, wherever they stand; 01 to 08 never are.
#[test]
fn unknown_kinds() {
    let fronts = [vec![], sided(0, 0, 9, 1, 4, 5), layered(0, 1, 0), records_bytes(harbour_sided())];
    for kind in 0..=255 {
        for front in &fronts {
            let bytes = [front.clone(), vec![kind; 41]].concat();
            let unknown = kind == 0 || kind > 8;
            for the_call in [LATTICE, WINDOW] {
                assert_eq!(call(the_call, &bytes, 1_024).result == -2, unknown, "kind {kind} after {} bytes", front.len());
            }
        }
    }
}

fn two_wishes_of_names() -> Vec<u8> {
    let names = |count| (0..count).flat_map(|value| named(value, 0)).collect::<Vec<u8>>();
    [layered(0, 1, 0), names(40), layered(1, 1, 0), names(25)].concat()
}

fn engine_refusals() -> Vec<Line> {
    let harbour_bytes = records_bytes(harbour());
    let too_much = with_row(harbour(), &[800, 1_001, 1_300, 0, 0, 0, 0, 0]);
    let two = |first, second| [lowest(1, 0, first - 1, 1), lowest(2, 0, second - 1, 1)].concat();
    let wide_and_outside = [two(129, 256), row(&[129, 0])].concat();
    let sides = records_bytes(harbour_sided());
    let density = |density| with_row(harbour_sided(), &[800, 900, density, 0, 0, 0, 0, 0]);
    vec![
        ("Harbour log, 1,001 cubic metres", too_much.clone(), LATTICE, 6, 8),
        ("Harbour log, 1,001 cubic metres", too_much.clone(), WINDOW, 6, 8),
        ("10 before 8", too_much.clone(), LATTICE, 5, 10),
        ("10 before 8", too_much.clone(), WINDOW, 5, 10),
        ("w before 8", too_much, Call::Window { w: 1_025 }, 6, 10),
        ("P12", two(129, 256), LATTICE, 0, 9),
        ("32,769 nodes", lowest(1, 0, 32_768, 1), LATTICE, 0, 9),
        ("8 before 9", wide_and_outside, LATTICE, 1, 8),
        ("marks before 9", [two(129, 256), row(&[0, 0])].concat(), LATTICE, 0, 10),
        ("9 before 11", [two(129, 256), row(&[0, 0])].concat(), Call::Lattice { budget: 0 }, 1, 9),
        ("5 rows, 4 mark bytes", harbour_bytes.clone(), LATTICE, 4, 10),
        ("5 rows, 4 mark bytes", harbour_bytes.clone(), WINDOW, 4, 10),
        ("5 rows, no mark byte", harbour_bytes.clone(), LATTICE, 0, 10),
        ("w 0", harbour_bytes.clone(), Call::Window { w: 0 }, 5, 10),
        ("w 1,025", harbour_bytes.clone(), Call::Window { w: 1_025 }, 5, 10),
        ("w 4,294,967,295", harbour_bytes.clone(), Call::Window { w: u32::MAX }, 5, 10),
        ("P8", harbour_bytes.clone(), Call::Lattice { budget: 148 }, 5, 11),
        ("budget 0", harbour_bytes, Call::Lattice { budget: 0 }, 5, 11),
        ("08, a density below lo", density(999), LATTICE, 6, 8),
        ("08, a density above hi", density(1_601), WINDOW, 6, 8),
        ("08, M 181", sided(1, 0, 181, 1, 0, 0), LATTICE, 0, 9),
        ("08, M 181 below", sided(1, 0, 181, 1, 181, 181), LATTICE, 0, 9),
        ("08, 1,752 crossings", sides.clone(), Call::Lattice { budget: 1_751 }, 5, 11),
        ("08, 5 rows, 4 mark bytes", sides, LATTICE, 4, 10),
    ]
}

fn with_row(mut records: Vec<Record>, values: &[i32; 8]) -> Vec<u8> {
    records.push(run(values));
    records.concat()
}

/// What document 01 says is accepted, with its marks: P7, P8, P10, P11, P12, and the smallest logs on which a wrong machine is seen.
#[test]
fn marked_cases_through_the_archive() {
    let square = |rows: &[&[i32]], top| records_bytes(by_levels(&[top, top], rows));
    let p10 = square(&[&[2, 1], &[1, 2], &[0, 5], &[1, 1]], 5);
    let wide = |wish: Record, value: i32| [wish, row(&[value])].concat();
    let cases: Vec<(&str, Vec<u8>, Call, Vec<u8>)> = vec![
        ("P7", records_bytes(harbour()), LATTICE, vec![1, 1, 1, 0, 1]),
        ("P7", records_bytes(harbour()), Call::Window { w: 1 }, vec![1, 1, 1, 0, 1]),
        ("P7", records_bytes(harbour()), Call::Window { w: 4 }, vec![1, 1, 1, 0, 1]),
        ("P8, budget 149", records_bytes(harbour()), Call::Lattice { budget: 149 }, vec![1, 1, 1, 0, 1]),
        ("P10", p10.clone(), Call::Window { w: 2 }, vec![0, 0, 1, 1]),
        ("P10, 41 crossings", p10, Call::Lattice { budget: 41 }, vec![0, 0, 1, 1]),
        ("P11", harbour()[..2].concat(), Call::Lattice { budget: 0 }, vec![]),
        ("P11", harbour()[..2].concat(), Call::Window { w: 1 }, vec![]),
        ("32,768 nodes", records_bytes(by_levels(&[32_767], &[&[3], &[2]])), LATTICE, vec![0, 1]),
        ("P12, 128 x 256", records_bytes(by_levels(&[127, 255], &[&[3, 4], &[2, 4]])), LATTICE, vec![0, 1]),
        ("P4", wide(lowest(1, i32::MIN, i32::MAX, 65_537), 0), WINDOW, vec![1]),
        ("Harbour log with 08", records_bytes(harbour_sided()), LATTICE, vec![1, 1, 1, 0, 1]),
        ("Harbour log with 08", records_bytes(harbour_sided()), Call::Window { w: 1 }, vec![1, 1, 1, 0, 1]),
        ("Harbour log with 08", records_bytes(harbour_sided()), Call::Window { w: 4 }, vec![1, 1, 1, 0, 1]),
        ("Harbour log with 08, 1,752 crossings", records_bytes(harbour_sided()), Call::Lattice { budget: 1_752 }, vec![1, 1, 1, 0, 1]),
        ("08, M 180", wide(sided(1, 0, 180, 1, 0, 0), 180), LATTICE, vec![1]),
        ("08, M 180 below", wide(sided(1, 0, 180, 1, 180, 180), 0), LATTICE, vec![1]),
        ("08, M 65,535", wide(sided(1, i32::MIN, i32::MAX, 65_537, i32::MIN, i32::MIN), 0), WINDOW, vec![1]),
        ("late release, w 1", square(&[&[0, 1], &[0, 1], &[0, 0]], 2), Call::Window { w: 1 }, vec![0, 0, 1]),
        ("clock set back, w 1", square(&[&[0, 1], &[1, 0], &[2, 0]], 2), Call::Window { w: 1 }, vec![1, 1, 0]),
    ];
    for (what, bytes, the_call, marks) in &cases {
        let left = call(*the_call, bytes, marks.len());
        assert_eq!(left.result, marks.iter().map(|mark| i32::from(*mark)).sum::<i32>(), "{what}");
        assert_eq!(left.marks, *marks, "{what}");
    }
    println!("marked cases: {}", cases.len());
}

/// What it shows, the wish's records, two values, their marks.
type Pair = (&'static str, Vec<u8>, i32, i32, [u8; 2]);

/// P1 to P4 and P6 through the marks alone: of two rows that differ in one wish the better one is marked, equal levels both.
#[test]
fn levels_seen_from_outside() {
    let (lo, hi) = (i32::MIN, i32::MAX);
    let layers = [layered(1, 2, 1), named(7, 0), named(3, 2), named(7, 2)].concat();
    let cases: Vec<Pair> = vec![
        ("P1 45 and 55", around(1, 45, 75, 5, 50), 45, 55, [1, 1]),
        ("P1 70 and 75", around(1, 45, 75, 5, 50), 70, 75, [1, 0]),
        ("P2 50 and 51", around(1, 45, 75, 5, 50), 50, 51, [1, 0]),
        ("P2 55 and 56", around(1, 45, 75, 5, 50), 55, 56, [1, 0]),
        ("P2 51 and 55", around(1, 45, 75, 5, 50), 51, 55, [1, 1]),
        ("P3 60 and 80", between(1, 50, 95, 5, 60, 80), 60, 80, [1, 1]),
        ("P3 59 and 81", between(1, 50, 95, 5, 60, 80), 59, 81, [1, 1]),
        ("P3 95 and 81", between(1, 50, 95, 5, 60, 80), 95, 81, [0, 1]),
        ("P4 ends", lowest(1, lo, hi, 65_537), lo, hi, [1, 0]),
        ("P4 0 and the top", lowest(1, lo, hi, 65_537), 0, hi, [1, 0]),
        ("P4 0 and the least", lowest(1, lo, hi, 65_537), 0, lo, [0, 1]),
        ("P4 the highest", highest(1, lo, hi, 65_537), 0, hi, [0, 1]),
        ("P6 7 and 9", layers.clone(), 7, 9, [1, 0]),
        ("P6 3 and 9", layers.clone(), 3, 9, [0, 1]),
        ("the first NAMED counts", layers, 7, 3, [1, 0]),
    ];
    for (what, wish, first, second, marks) in &cases {
        let bytes = [wish.clone(), row(&[*first]), row(&[*second])].concat();
        assert_eq!(call(WINDOW, &bytes, 2).marks, marks, "{what}");
    }
    println!("levels seen from outside: {} pairs", cases.len());
}

/// The same for kind 08: 45 and 55 are both one level off, on either side of 50.
#[test]
fn sides_seen_from_outside() {
    let (lo, hi) = (i32::MIN, i32::MAX);
    let cases: Vec<Pair> = vec![
        ("Table 4, 45 and 55", sided(1, 45, 75, 5, 50, 50), 45, 55, [1, 1]),
        ("Table 4, 50 and 45", sided(1, 45, 75, 5, 50, 50), 50, 45, [1, 0]),
        ("Table 4, 55 and 50", sided(1, 45, 75, 5, 50, 50), 55, 50, [0, 1]),
        ("Table 4, 70 and 75", sided(1, 45, 75, 5, 50, 50), 70, 75, [1, 0]),
        ("Table 4, 45 and 70", sided(1, 45, 75, 5, 50, 50), 45, 70, [1, 0]),
        ("1 below and 2 above", sided(1, 25, 75, 5, 50, 50), 45, 60, [1, 0]),
        ("2 below and 2 above", sided(1, 25, 75, 5, 50, 50), 40, 60, [1, 1]),
        ("2 below and 1 above", sided(1, 25, 75, 5, 50, 50), 40, 55, [0, 1]),
        ("1 above and 1 above", sided(1, 25, 75, 5, 50, 50), 51, 55, [1, 1]),
        ("low and up", sided(1, 50, 95, 5, 60, 80), 60, 80, [1, 1]),
        ("next to low and to up", sided(1, 50, 95, 5, 60, 80), 59, 81, [1, 1]),
        ("inside and next to it", sided(1, 50, 95, 5, 60, 80), 70, 59, [1, 0]),
        ("the ends of 32 bits", sided(1, lo, hi, 65_537, 0, 0), lo, hi, [1, 1]),
        ("the ends of 32 bits, from the least", sided(1, lo, hi, 65_537, lo, lo), 0, hi, [1, 0]),
    ];
    for (what, wish, first, second, marks) in &cases {
        let bytes = [wish.clone(), row(&[*first]), row(&[*second])].concat();
        assert_eq!(call(WINDOW, &bytes, 2).marks, marks, "{what}");
    }
    println!("sides seen from outside: {} pairs", cases.len());
}

fn two_marks(the_call: Call, wishes: &[Record], runs: [[i32; 8]; 2]) -> Vec<u8> {
    let bytes = [wishes.concat(), run(&runs[0]), run(&runs[1])].concat();
    call(the_call, &bytes, 2).marks
}

/// AROUND, BETWEEN and kind 08 side by side, with the same figures: only a wish of kind 08 tells 50 under the target from 50 over it.
#[test]
fn one_level_beside_a_pair() {
    let around = |column| around(column, 1_000, 1_600, 50, 1_250);
    let between = |column| between(column, 1_000, 1_600, 50, 1_250, 1_250);
    let sided = |column| sided(column, 1_000, 1_600, 50, 1_250, 1_250);
    let runs = |first: i32, second: i32| [[1, first, second, 0, 0, 0, 0, 0], [1, 1_300, 1_300, 0, 0, 0, 0, 0]];
    for the_call in [LATTICE, WINDOW] {
        let two = |wishes: [Record; 2], first, second| two_marks(the_call, &wishes, runs(first, second));
        assert_eq!(two([between(1), sided(2)], 1_200, 1_250), [1, 0]);
        assert_eq!(two([between(1), sided(2)], 1_250, 1_200), [1, 1]);
        assert_eq!(two([sided(1), between(2)], 1_200, 1_250), [1, 1]);
        assert_eq!(two([sided(1), between(2)], 1_250, 1_200), [1, 0]);
        assert_eq!(two([sided(2), around(1)], 1_200, 1_250), [1, 0]);
        assert_eq!(two([sided(2), around(1)], 1_250, 1_200), [1, 1]);
        assert_eq!(two([sided(1), sided(2)], 1_200, 1_250), [1, 1]);
        assert_eq!(two([around(1), between(2)], 1_250, 1_200), [1, 0]);
    }
}

/// A run that has level `level` in one of sixteen parts: above or below 10 in one of eight columns, 10 in the others.
fn off(part: usize, level: i32) -> [i32; 8] {
    let value = if part % 2 == 0 { 10 + level } else { 10 - level };
    std::array::from_fn(|column| if column == part / 2 { value } else { 10 })
}

/// Eight wishes of kind 08: whichever of the sixteen parts two runs differ in, it counts.
#[test]
fn sixteen_parts() {
    let wishes: Vec<Record> = (0..8).map(|column| sided(column, 8, 12, 1, 10, 10)).collect();
    for w in [1, 2, 64] {
        let two = |a, b| two_marks(Call::Window { w }, &wishes, [a, b]);
        for i in 0..16 {
            assert_eq!(two(off(i, 1), off(i, 0)), [0, 1], "part {i}");
            assert_eq!(two(off(i, 1), off(i, 2)), [1, 0], "part {i}");
            assert_eq!(two(off(i, 2), off(i ^ 1, 1)), [0, 1], "part {i}");
            for j in 0..16 {
                assert_eq!(two(off(i, 1), off(j, 1)), [1, 1], "parts {i} and {j}");
                assert!(i / 2 == j / 2 || two(off(i, 1), off(j, 2)) == [1, 1], "parts {i} and {j}");
            }
        }
    }
}

/// The same by the lattice engine. Eight such wishes with M 1 have 65,536 nodes, so one of them gets M 0.
#[test]
fn sixteen_parts_in_a_lattice() {
    for fixed in [0, 3, 7] {
        let far = |column: u8| i32::from(column != fixed);
        let wishes: Vec<Record> = (0..8).map(|column| sided(column, 10 - far(column), 10 + far(column), 1, 10, 10)).collect();
        let two = |a, b| two_marks(LATTICE, &wishes, [a, b]);
        let parts: Vec<usize> = (0..16).filter(|part| part / 2 != usize::from(fixed)).collect();
        for i in &parts {
            assert_eq!(two(off(*i, 1), off(*i, 0)), [0, 1], "part {i}");
            parts.iter().for_each(|j| assert_eq!(two(off(*i, 1), off(*j, 1)), [1, 1], "parts {i} and {j}"));
        }
    }
    let all_of_m_1: Vec<u8> = (0..8).flat_map(|column| sided(column, -1, 1, 1, 0, 0)).collect();
    assert_eq!(call(LATTICE, &all_of_m_1, 0).result, -9);
}

/// "both count limits are over all level parts": a pair's M counts twice wherever it stands among wishes with M 0.
#[test]
fn nodes_over_all_parts() {
    for place in 0..8 {
        let list = |top: i32| (0..8).flat_map(|column| sided(column, 1, if column == place { 1 + top } else { 1 }, 1, 1, 1)).collect::<Vec<u8>>();
        let best = [list(180), run(&[1; 8])].concat();
        assert_eq!(call(LATTICE, &best, 1).result, 1, "M 180 in place {place}");
        // 32,761 nodes in rows of 181: each row and each column of them has 180 edges.
        assert_eq!(call(Call::Lattice { budget: 65_160 }, &best, 1).result, 1, "M 180 in place {place}");
        assert_eq!(call(Call::Lattice { budget: 65_159 }, &best, 1).result, -11, "M 180 in place {place}");
        assert_eq!(call(LATTICE, &list(181), 0).result, -9, "M 181 in place {place}");
        assert_eq!(call(WINDOW, &list(181), 0).result, 0, "M 181 in place {place}");
    }
}

/// The most crossings that a log can have, 245,760: fifteen parts of M 1 with node 0 held. A budget of 262,144 suffices for them.
#[test]
fn the_most_crossings() {
    for place in 0..8 {
        let wish = |column: u8| if column == place { lowest(column, 1, 2, 1) } else { sided(column, 1, 2, 1, 1, 1) };
        let bytes = [(0..8).flat_map(wish).collect(), run(&[1; 8]), run(&[2; 8])].concat();
        for (budget, result, marks) in [(245_760, 1, vec![1, 0]), (262_144, 1, vec![1, 0]), (245_759, -11, old_marks(2))] {
            let left = call(Call::Lattice { budget }, &bytes, 2);
            assert_eq!((left.result, left.marks), (result, marks), "budget {budget}, one part in place {place}");
        }
    }
}

/// NULL with length 0 for both buffers is an empty stream; NULL marks are fine where there is no row.
#[test]
fn null_with_length_zero() {
    assert_eq!(with_null(Call::Lattice { budget: 1 }), -1);
    assert_eq!(with_null(Call::Window { w: 1 }), -1);
    let wishes = harbour()[..2].concat();
    assert_eq!(raw(LATTICE, &wishes, &mut []), 0);
    assert_eq!(raw(WINDOW, &wishes, &mut []), 0);
}

/// The calls keep nothing between them: eight threads at once get what one gets.
#[test]
fn threads_at_once() {
    let each = |thread: u64| {
        let mut random = Random::new(SEED + thread);
        let mut spread = Spread::default();
        for _ in 0..400 {
            let bytes = stream(&mut random).stream();
            let case = Case::new(&bytes, &mut spread);
            check_some(&mut random, &case, 1, &mut spread);
        }
    };
    std::thread::scope(|scope| {
        (0..8).for_each(|thread| drop(scope.spawn(move || each(thread))));
    });
    println!("threads at once: 8 threads, 400 streams each");
}
