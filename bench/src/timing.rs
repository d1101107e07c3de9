//! The table of ratios: every peer in turn, again and again, so that what slows the machine down slows all of them.

use crate::inputs::Case;
use crate::outside::Outside;
use crate::peers::{Peer, PEERS};
use crate::table;
use flat_calls::calls::Call;
use std::hint::black_box;
use std::path::Path;

extern "C" {
    fn thread_nanoseconds() -> u64;
}

/// The time that this thread has run.
fn now() -> u64 {
    unsafe { thread_nanoseconds() }
}

pub const REPETITIONS: usize = 31;
/// A repetition of one peer takes about this long.
const NANOSECONDS: f64 = 2e6;

/// Nanoseconds for one call, over so many calls.
pub fn timed<T>(calls: u32, call: impl Fn(&mut [u8]) -> T) -> f64 {
    let mut marks = [0; 1_024];
    let begin = now();
    for _ in 0..calls {
        black_box(call(black_box(&mut marks)));
    }
    (now() - begin) as f64 / f64::from(calls)
}

pub fn once(peer: &Peer, call: Call, stream: &[u8], calls: u32) -> f64 {
    timed(calls, |marks| peer.call(call, black_box(stream), marks))
}

/// How many calls make a repetition; asking warms the caches up.
pub fn calls_for(mut once: impl FnMut(u32) -> f64) -> u32 {
    let first = once(1);
    let again = once((NANOSECONDS / 10.0 / first).clamp(1.0, 1e4) as u32);
    (NANOSECONDS / again.min(first)).clamp(1.0, 1e5) as u32
}

/// The value below which this share of the list lies.
pub fn quantile(list: &[f64], share: f64) -> f64 {
    let mut sorted = list.to_vec();
    sorted.sort_by(f64::total_cmp);
    sorted[((sorted.len() - 1) as f64 * share).round() as usize]
}

type Once<'a> = Box<dyn FnMut(u32) -> f64 + 'a>;

/// Our engine, then the peers that have it, then those of other processes.
fn timers<'a>(case: &'a Case, others: &'a mut [Outside], out: &Path) -> Vec<Option<Once<'a>>> {
    let mut timers: Vec<Option<Once<'a>>> = vec![];
    for peer in PEERS {
        let timer: Once = Box::new(|calls| once(peer, case.call, &case.stream, calls));
        timers.push(peer.answers(case.call, &case.stream).then_some(timer));
    }
    for other in others {
        timers.push(other.timer(case, out));
    }
    timers
}

pub fn cell(ours: &[f64], theirs: &[f64]) -> String {
    let ratios: Vec<f64> = ours.iter().zip(theirs).map(|(a, b)| a / b).collect();
    let (middle, low, high) = (quantile(&ratios, 0.5), quantile(&ratios, 0.1), quantile(&ratios, 0.9));
    format!("{} ({}..{})", short(middle), short(low), short(high))
}

/// Three figures or so.
fn short(x: f64) -> String {
    let places = if x < 10.0 { 2 } else { usize::from(x < 100.0) };
    format!("{x:.places$}")
}

fn measure(case: &Case, others: &mut [Outside], out: &Path) -> Vec<String> {
    let mut timers = timers(case, others, out);
    let calls: Vec<u32> = timers.iter_mut().map(|timer| timer.as_mut().map_or(0, calls_for)).collect();
    let mut times = vec![vec![]; timers.len()];
    for repetition in 0..REPETITIONS {
        // Each repetition begins with another peer.
        for i in 0..timers.len() {
            let peer = (repetition + i) % timers.len();
            if let Some(timer) = &mut timers[peer] {
                times[peer].push(timer(calls[peer]));
            }
        }
    }
    let mut row = vec![case.name.clone(), short(quantile(&times[0], 0.5) / 1e3)];
    #[cfg(before)]
    row.push(if times[1].is_empty() { "-".into() } else { crate::placed::column(case) });
    let shown = row.len() - 1;
    row.extend(times[shown..].iter().map(|theirs| if theirs.is_empty() { "-".into() } else { cell(&times[0], theirs) }));
    row
}

pub fn print(cases: &[Case], others: &mut [Outside], out: &Path) {
    println!();
    println!("time of ours / time of the peer: median (10th..90th percentile) of {REPETITIONS} interleaved repetitions; above 1 the peer is faster");
    let mut header = vec!["input".into(), "ours, us".into()];
    header.extend(PEERS[1..].iter().map(|peer| peer.name.to_string()));
    header.extend(others.iter().map(|other| other.name.clone()));
    let mut rows = vec![header];
    rows.extend(cases.iter().map(|case| measure(case, others, out)));
    table::print(&rows);
}
