//! Instruction counts of one call each: `make` runs under callgrind and has it dump each call by itself, `print` reads the dumps.

use crate::inputs::{self, Case};
use crate::peers::{Peer, PEERS};
use crate::table;
use std::collections::HashMap;
use std::ffi::{c_char, CString};
use std::fs;
use std::hint::black_box;
use std::path::Path;

mod c {
    use super::c_char;
    extern "C" {
        pub fn counting() -> i32;
        pub fn count_from_here();
        pub fn count_to_here(label: *const c_char);
    }
}

fn label(case: &Case, peer: &Peer) -> String {
    format!("{} | {}", case.name, peer.name)
}

fn count(case: &Case, peer: &Peer) {
    let label = CString::new(label(case, peer)).expect("no zero byte");
    let mut marks = [0; 1_024];
    unsafe { c::count_from_here() };
    black_box(peer.call(case.call, black_box(&case.stream), black_box(&mut marks)));
    unsafe { c::count_to_here(label.as_ptr()) };
}

pub fn make() {
    if unsafe { c::counting() } == 0 {
        println!("not under callgrind, or built without its header");
        std::process::exit(1);
    }
    for case in inputs::all() {
        PEERS.iter().filter(|peer| peer.answers(case.call, &case.stream)).for_each(|peer| count(&case, peer));
    }
}

/// The label and the count of a dump.
fn read(dump: &str) -> Option<(String, u64)> {
    let after = |start: &str| dump.lines().find_map(|line| line.strip_prefix(start));
    let label = after("desc: Trigger: Client Request: ")?;
    Some((label.into(), after("totals: ")?.trim().parse().ok()?))
}

fn read_all(out: &Path) -> HashMap<String, u64> {
    let files = fs::read_dir(out).expect("a folder of dumps").flatten();
    let texts = files.filter_map(|file| fs::read_to_string(file.path()).ok());
    texts.filter_map(|text| read(&text)).collect()
}

pub fn print(out: &Path) {
    let counted = read_all(out);
    println!();
    println!("instructions of one call (callgrind), and those of ours / those of the peer");
    let mut header = vec!["input".to_string()];
    PEERS.iter().for_each(|peer| header.extend([peer.name.into(), String::new()]));
    header.remove(2);
    let mut rows = vec![header];
    for case in inputs::all() {
        let counts: Vec<Option<&u64>> = PEERS.iter().map(|peer| counted.get(&label(&case, peer))).collect();
        let ours = *counts[0].expect("ours is counted");
        let mut row = vec![case.name.clone(), ours.to_string()];
        for count in &counts[1..] {
            row.push(count.map_or("-".into(), u64::to_string));
            row.push(count.map_or(String::new(), |count| format!("{:.2}", ours as f64 / *count as f64)));
        }
        rows.push(row);
    }
    table::print(&rows);
}
