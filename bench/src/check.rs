//! Before anything is timed: the archive has the model's result and marks on every timed input, and every peer has the archive's on those
//! that it takes and on streams of every kind but 08, whole and damaged, and counts as document 01 does.

use crate::inputs::{Case, BUDGET};
use crate::peers::{comes_to_kind_08, compares, BEFORE, PEERS};
use flat_calls::calls::Call;
use flat_calls::model::{flat, machine};
use flat_calls::random::{Random, SEED};
use flat_calls::records::{layered, named, run};
use flat_calls::{damage, generate};

const STREAMS: usize = 4_000;

fn answer(peer: usize, call: Call, stream: &[u8], marks_len: usize) -> Option<(i32, Vec<u8>)> {
    let mut marks = vec![77; marks_len];
    let result = PEERS[peer].call(call, stream, &mut marks)?;
    Some((result, marks))
}

/// The nested loop knows no lattice, so 9 and 11 never come from it.
fn is_asked(peer: usize, call: Call, stream: &[u8], ours: i32) -> bool {
    let of_lattice = matches!(call, Call::Lattice { .. }) && (ours == -9 || ours == -11);
    PEERS[peer].answers(call, stream) && !(PEERS[peer].name == "nested loop" && of_lattice)
}

fn same_answers(what: &str, call: Call, stream: &[u8], marks_len: usize) -> usize {
    answers_of(|peer| peer != BEFORE, what, call, stream, marks_len)
}

fn answers_of(who: fn(&str) -> bool, what: &str, call: Call, stream: &[u8], marks_len: usize) -> usize {
    let ours = answer(0, call, stream, marks_len).expect("both engines");
    let asked: Vec<usize> = (1..PEERS.len()).filter(|peer| who(PEERS[*peer].name) && is_asked(*peer, call, stream, ours.0)).collect();
    for peer in &asked {
        let theirs = answer(*peer, call, stream, marks_len).expect("asked");
        assert!(theirs == ours, "{}: another answer than ours on {what}, {call:?}: {} and {}", PEERS[*peer].name, theirs.0, ours.0);
    }
    asked.len()
}

/// The machine's count, and the crossings: a budget of one less is refused.
fn same_counts(what: &str, stream: &[u8], w: u32) -> usize {
    let Ok(facts) = flat::facts(stream) else { return 0 };
    if facts.outside {
        return 0;
    }
    let count = machine::run(&facts.parts, w as usize).compares;
    for (peer, compared) in compares(stream, w) {
        assert!(u64::from(compared) == count, "{peer}: {compared} compares on {what}, w {w}: the machine makes {count}");
    }
    let mut made = 3;
    for budget in facts.crossings.iter().flat_map(|crossings| [crossings.saturating_sub(1), *crossings]) {
        made += same_answers(what, Call::Lattice { budget }, stream, facts.rows);
    }
    made
}

fn random_streams() -> usize {
    let random = &mut Random::new(SEED);
    let (mut made, mut i) = (0, 0);
    while i < STREAMS {
        let whole = generate::stream_of_five_forms(random);
        let stream = if i % 2 == 0 { whole.stream() } else { damage::damage(random, whole.records()) };
        // Damage can bring kind 08, which the peers do not know: another stream takes the place of such a one.
        if comes_to_kind_08(&stream) {
            continue;
        }
        let w = random.pick(&[0, 1, 2, 3, 64, 1_024, 1_025]);
        let what = format!("random stream {i}");
        for call in [Call::Lattice { budget: BUDGET }, Call::Window { w }] {
            for marks_len in [whole.runs.len().saturating_sub(1), whole.runs.len(), 1_030] {
                made += same_answers(&what, call, &stream, marks_len);
            }
        }
        if i % 4 == 0 {
            made += same_counts(&what, &stream, w.clamp(1, 1_024));
        }
        i += 1;
    }
    made
}

/// The most runs and names, and one more: they do not come by chance.
fn full_streams() -> usize {
    let mut made = 0;
    for (names, runs) in [(0, 0), (64, 1_024), (65, 1), (64, 1_025)] {
        let mut records = vec![layered(0, 7, 7)];
        records.extend((0..names).map(|value| named(value, (value % 8) as u8)));
        records.extend((0..runs).map(|value| run(&[value % 70; 8])));
        for call in [Call::Lattice { budget: BUDGET }, Call::Window { w: 64 }] {
            made += same_answers(&format!("{names} names, {runs} runs"), call, &records.concat(), 2_000);
            made += same_answers("no stream", call, &[], 2_000);
        }
    }
    made
}

/// Ours against the model, and for the lattice engine with budgets around the crossings too.
fn as_the_model(case: &Case) {
    let facts = flat::facts(&case.stream).expect("timed streams read");
    let mut calls = vec![case.call];
    if let (Call::Lattice { .. }, Some(crossings)) = (case.call, facts.crossings) {
        calls.extend([crossings - 1, crossings].map(|budget| Call::Lattice { budget }));
    }
    for call in calls {
        let due = match call {
            Call::Lattice { budget } => facts.lattice(facts.rows, budget),
            Call::Window { w } => facts.window(facts.rows, w),
        };
        let (result, marks) = answer(0, call, &case.stream, facts.rows).expect("both engines");
        let as_due = result == due && (due < 0 || marks == facts.marks);
        assert!(as_due, "ours: another answer than the model's on {}, {call:?}: {result} and {due}", case.name);
    }
}

pub fn all(cases: &[Case]) {
    let mut made = full_streams();
    let mut alone = 0;
    for case in cases {
        as_the_model(case);
        made += answers_of(|_| true, &case.name, case.call, &case.stream, 1_024);
        if comes_to_kind_08(&case.stream) {
            alone += 1;
            continue;
        }
        let w = if let Call::Window { w } = case.call { w } else { 64 };
        made += same_counts(&case.name, &case.stream, w);
    }
    made += random_streams();
    println!(
        "checked before timing: {made} answers and counts of peers, all as ours; {} timed inputs, {alone} of them for ours alone, \
         {STREAMS} random streams",
        cases.len()
    );
}
