//! The two flat calls of the archive, with guard bytes around the marks.

mod c {
    extern "C" {
        pub fn shortlist_lattice(stream: *const u8, stream_len: usize, marks: *mut u8, marks_len: usize, budget: u32) -> i32;
        pub fn shortlist_window(stream: *const u8, stream_len: usize, marks: *mut u8, marks_len: usize, w: u32) -> i32;
    }
}

#[derive(Clone, Copy, Debug)]
pub enum Call {
    Lattice { budget: u32 },
    Window { w: u32 },
}

/// What a call left: its result and the lent mark bytes.
pub struct Left {
    pub result: i32,
    pub marks: Vec<u8>,
}

const GUARD: usize = 64;

/// What stands in byte `place` before a call: never 0 or 1, and no two neighbours alike.
pub fn old_mark(place: usize) -> u8 {
    2 + (place * 37 % 251) as u8
}

/// Calls with `marks_len` mark bytes between two guards. The guards and the stream have to be unchanged afterwards.
pub fn call(call: Call, stream: &[u8], marks_len: usize) -> Left {
    let lent: Vec<u8> = stream.to_vec();
    let mut bytes: Vec<u8> = (0..marks_len + 2 * GUARD).map(old_mark).collect();
    let result = raw(call, &lent, &mut bytes[GUARD..GUARD + marks_len]);
    let guards = (0..GUARD).chain(GUARD + marks_len..marks_len + 2 * GUARD);
    guards.for_each(|place| assert_eq!(bytes[place], old_mark(place), "a byte outside the marks changed: {call:?}, {marks_len} mark bytes"));
    assert!(lent == stream, "the stream changed: {call:?}");
    Left { result, marks: bytes[GUARD..GUARD + marks_len].to_vec() }
}

/// What the lent mark bytes held before.
pub fn old_marks(marks_len: usize) -> Vec<u8> {
    (GUARD..GUARD + marks_len).map(old_mark).collect()
}

pub fn raw(call: Call, stream: &[u8], marks: &mut [u8]) -> i32 {
    let (from, length) = (stream.as_ptr(), stream.len());
    let (to, room) = (marks.as_mut_ptr(), marks.len());
    // Both slices are live and do not overlap: that is all the header asks.
    match call {
        Call::Lattice { budget } => unsafe { c::shortlist_lattice(from, length, to, room, budget) },
        Call::Window { w } => unsafe { c::shortlist_window(from, length, to, room, w) },
    }
}

/// NULL with length 0, for both buffers.
pub fn with_null(call: Call) -> i32 {
    let (from, to) = (std::ptr::null(), std::ptr::null_mut());
    match call {
        Call::Lattice { budget } => unsafe { c::shortlist_lattice(from, 0, to, 0, budget) },
        Call::Window { w } => unsafe { c::shortlist_window(from, 0, to, 0, w) },
    }
}
