//! The column `before`: ours and the archive from before a change, each linked four times by bench/place, at every place in a line of memory
//! that a linker could give its functions. Where a loop happens to stand can be worth a quarter of its time, and says nothing of the change.

use crate::inputs::Case;
use crate::peers::{call_c, Flat};
use crate::timing::{calls_for, cell, timed, REPETITIONS};
use flat_calls::calls::Call;

/// The two calls of a copy.
pub struct Placed {
    lattice: Flat,
    window: Flat,
}

macro_rules! placed {
    ($name:ident: $($lattice:ident $window:ident),*) => {
        extern "C" {
            $(fn $lattice(stream: *const u8, stream_len: usize, marks: *mut u8, marks_len: usize, budget: u32) -> i32;)*
            $(fn $window(stream: *const u8, stream_len: usize, marks: *mut u8, marks_len: usize, w: u32) -> i32;)*
        }
        pub const $name: &[Placed] = &[$(Placed { lattice: $lattice, window: $window }),*];
    };
}

placed!(OURS: ours_0_lattice ours_0_window, ours_1_lattice ours_1_window, ours_2_lattice ours_2_window, ours_3_lattice ours_3_window);
placed!(BEFORE: before_0_lattice before_0_window, before_1_lattice before_1_window, before_2_lattice before_2_window, before_3_lattice before_3_window);

impl Placed {
    pub fn call(&self, call: Call, stream: &[u8], marks: &mut [u8]) -> i32 {
        match call {
            Call::Lattice { budget } => call_c(self.lattice, stream, marks, budget),
            Call::Window { w } => call_c(self.window, stream, marks, w),
        }
    }

    fn once(&self, case: &Case, calls: u32) -> f64 {
        timed(calls, |marks| self.call(case.call, &case.stream, marks))
    }
}

/// The sum of all places of ours, divided by that of all places of before, in each repetition.
pub fn column(case: &Case) -> String {
    let calls = calls_for(|calls| OURS[0].once(case, calls)).div_ceil(OURS.len() as u32);
    let mut times = [vec![], vec![]];
    for _ in 0..REPETITIONS {
        let mut sums = [0.0; 2];
        for (ours, before) in OURS.iter().zip(BEFORE) {
            sums[0] += ours.once(case, calls);
            sums[1] += before.once(case, calls);
        }
        times[0].push(sums[0]);
        times[1].push(sums[1]);
    }
    cell(&times[0], &times[1])
}
