//! What one compare costs, and what a call costs besides: reading, checks and levels.

use crate::inputs::{all_best, one_best, WIDEST};
use crate::peers::{Peer, PEERS};
use crate::timing::{calls_for, once, quantile, REPETITIONS};
use flat_calls::calls::Call;
use flat_calls::model::{flat, machine};

/// The median time of one call in nanoseconds on each of two streams, taken in turn.
fn medians(peer: &Peer, call: Call, streams: &[Vec<u8>; 2]) -> [f64; 2] {
    let calls = streams.each_ref().map(|stream| calls_for(|calls| once(peer, call, stream, calls)));
    let mut times = [vec![], vec![]];
    for _ in 0..REPETITIONS {
        for i in 0..2 {
            times[i].push(once(peer, call, &streams[i], calls[i]));
        }
    }
    times.map(|times| quantile(&times, 0.5))
}

/// The machine's compares.
fn compares(stream: &[u8]) -> f64 {
    let facts = flat::facts(stream).expect("timed streams read");
    machine::run(&facts.parts, WIDEST as usize).compares as f64
}

/// With so many of the eight wishes of kind 08.
fn print_with(pairs: usize) {
    let call = Call::Window { w: WIDEST };
    let streams = [all_best(pairs), one_best(pairs)];
    let [made, few] = streams.each_ref().map(|stream| compares(stream));
    println!();
    println!("window {WIDEST}, 1024 runs, {} parts, all best: {made} compares; the same runs behind one that betters them: {few}", 8 + pairs);
    for peer in PEERS.iter().filter(|peer| ["ours", "C"].contains(&peer.name) && peer.answers(call, &streams[0])) {
        let [all, besides] = medians(peer, call, &streams);
        let each = (all - besides) / (made - few);
        println!(
            "{}: {:.1} us and {:.1} us: a compare {each:.2} ns, reading, checks and levels {:.3} of the rest",
            peer.name,
            all / 1e3,
            besides / 1e3,
            besides / (all - besides)
        );
    }
}

pub fn print() {
    print_with(0);
    print_with(8);
}
