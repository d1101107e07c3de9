//! Time against rows, for the picture.

use crate::inputs::{by_rows, LATTICE, WINDOW};
use crate::peers::{Peer, PEERS};
use crate::timing::{calls_for, once, quantile, REPETITIONS};
use flat_calls::calls::Call;

pub struct Line {
    pub name: String,
    pub ours: bool,
    /// Rows and nanoseconds.
    pub points: Vec<(usize, f64)>,
}

fn peer(name: &str) -> &'static Peer {
    PEERS.iter().find(|peer| peer.name == name).expect("a peer")
}

fn lines() -> Vec<(Line, &'static Peer, Call)> {
    let mut lines = vec![];
    for (engine, call) in [("window 64", WINDOW), ("lattice", LATTICE)] {
        for name in ["ours", "C", "Rust"] {
            lines.push((Line { name: format!("{name}, {engine}"), ours: name == "ours", points: vec![] }, peer(name), call));
        }
    }
    lines.push((Line { name: "C, nested loop".into(), ours: false, points: vec![] }, peer("nested loop"), WINDOW));
    lines
}

pub fn measure() -> Vec<Line> {
    let mut lines = lines();
    for rows in (0..=10).map(|power| 1 << power) {
        let stream = by_rows(rows);
        let calls: Vec<u32> = lines.iter().map(|(_, peer, call)| calls_for(|calls| once(peer, *call, &stream, calls))).collect();
        let mut times = vec![vec![]; lines.len()];
        for _ in 0..REPETITIONS {
            for (i, (_, peer, call)) in lines.iter().enumerate() {
                times[i].push(once(peer, *call, &stream, calls[i]));
            }
        }
        lines.iter_mut().zip(&times).for_each(|((line, ..), times)| line.points.push((rows, quantile(times, 0.5))));
    }
    lines.into_iter().map(|(line, ..)| line).collect()
}
