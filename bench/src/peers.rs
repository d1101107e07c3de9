//! Everything that is timed in this process: the archive, the one from before a change where there is one, the C peer, the Rust peer with
//! and without bounds checks, the nested loop.

use flat_calls::calls::{raw, Call};
use flat_calls::model::reader::{read, Form, SIDED};
use flat_calls::records::sided;

mod c {
    extern "C" {
        pub fn peer_lattice(stream: *const u8, stream_len: usize, marks: *mut u8, marks_len: usize, budget: u32) -> i32;
        pub fn peer_lattice_nodes(stream: *const u8, stream_len: usize, marks: *mut u8, marks_len: usize, budget: u32) -> i32;
        pub fn peer_window(stream: *const u8, stream_len: usize, marks: *mut u8, marks_len: usize, w: u32) -> i32;
        pub fn peer_nested(stream: *const u8, stream_len: usize, marks: *mut u8, marks_len: usize, w: u32) -> i32;
        pub fn peer_window_compares(stream: *const u8, stream_len: usize, w: u32) -> u32;
    }
}

pub type Flat = unsafe extern "C" fn(*const u8, usize, *mut u8, usize, u32) -> i32;

pub fn call_c(flat: Flat, stream: &[u8], marks: &mut [u8], number: u32) -> i32 {
    // Both slices are live and do not overlap: that is all a peer asks.
    unsafe { flat(stream.as_ptr(), stream.len(), marks.as_mut_ptr(), marks.len(), number) }
}

pub struct Peer {
    pub name: &'static str,
    run: fn(Call, &[u8], &mut [u8]) -> Option<i32>,
}

impl Peer {
    /// None where the peer has no such engine.
    pub fn call(&self, call: Call, stream: &[u8], marks: &mut [u8]) -> Option<i32> {
        (self.run)(call, stream, marks)
    }

    /// Whether the peer has the engine, and knows kind 08 where the stream has it. The peers are older and refuse it by 2, and so may the
    /// archive from before a change.
    pub fn answers(&self, call: Call, stream: &[u8]) -> bool {
        let asked = if comes_to_kind_08(stream) { sided(0, 0, 1, 1, 0, 0) } else { vec![] };
        !matches!(self.call(call, &asked, &mut []), None | Some(-2))
    }
}

/// Whether reading comes to a record of kind 08.
pub fn comes_to_kind_08(stream: &[u8]) -> bool {
    let end = read(stream).map_or_else(|refusal| refusal.place, |_| stream.len());
    let before = read(&stream[..end]).is_ok_and(|input| input.wishes.iter().any(|wish| matches!(wish.form, Form::Sided { .. })));
    before || stream.get(end) == Some(&SIDED)
}

/// The archive from before a change. What the change brings it may refuse, so it is held against ours on the timed inputs alone.
pub const BEFORE: &str = "before";

/// The first is what the others are held against.
pub const PEERS: &[Peer] = &[
    Peer { name: "ours", run: |call, stream, marks| Some(raw(call, stream, marks)) },
    #[cfg(before)]
    Peer { name: BEFORE, run: |call, stream, marks| Some(crate::placed::BEFORE[0].call(call, stream, marks)) },
    Peer { name: "C", run: in_c },
    Peer { name: "C by nodes", run: in_c_by_nodes },
    Peer { name: "Rust", run: in_rust::<true> },
    Peer { name: "Rust unchecked", run: in_rust::<false> },
    Peer { name: "nested loop", run: nested },
];

fn in_c(call: Call, stream: &[u8], marks: &mut [u8]) -> Option<i32> {
    Some(match call {
        Call::Lattice { budget } => call_c(c::peer_lattice, stream, marks, budget),
        Call::Window { w } => call_c(c::peer_window, stream, marks, w),
    })
}

fn in_c_by_nodes(call: Call, stream: &[u8], marks: &mut [u8]) -> Option<i32> {
    match call {
        Call::Lattice { budget } => Some(call_c(c::peer_lattice_nodes, stream, marks, budget)),
        Call::Window { .. } => None,
    }
}

fn in_rust<const CHECKED: bool>(call: Call, stream: &[u8], marks: &mut [u8]) -> Option<i32> {
    Some(match call {
        Call::Lattice { budget } => peer::lattice::<CHECKED>(stream, marks, budget),
        Call::Window { w } => peer::window::<CHECKED>(stream, marks, w),
    })
}

/// It knows no budget, so for the lattice call it stands for the marks alone, and for no refusal 9 or 11.
fn nested(call: Call, stream: &[u8], marks: &mut [u8]) -> Option<i32> {
    let w = if let Call::Window { w } = call { w } else { 1 };
    Some(call_c(c::peer_nested, stream, marks, w))
}

/// What each peer counts as the machine's compares.
pub fn compares(stream: &[u8], w: u32) -> [(&'static str, u32); 3] {
    let of_c = unsafe { c::peer_window_compares(stream.as_ptr(), stream.len(), w) };
    let of_rust = |count: Result<u32, i32>| count.unwrap_or(u32::MAX);
    let (checked, unchecked) = (peer::window_compares::<true>(stream, w), peer::window_compares::<false>(stream, w));
    [("C", of_c), ("Rust", of_rust(checked)), ("Rust unchecked", of_rust(unchecked))]
}
