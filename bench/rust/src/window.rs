//! The window machine.

use crate::access::{get, put};
use crate::levels::{of_row, LevelRow, MOVED};
use crate::read::{read, Input};
use crate::{COLUMNS, MAX_ROWS};

pub struct Counts {
    pub released: u32,
    pub compares: u32,
}

/// Entries stand in order of their stamps from `from` up to `to`. A row enters at most once, so the places never run out, and releasing
/// moves `from` on. Each entry has its levels beside it: a scan reads memory in order.
struct Window {
    levels: [LevelRow; MAX_ROWS],
    row: [u16; MAX_ROWS],
    stamp: [u32; MAX_ROWS],
    from: usize,
    to: usize,
}

struct Machine<const CHECKED: bool> {
    window: Window,
    aside_row: [u16; MAX_ROWS],
    aside_stamp: [u32; MAX_ROWS],
    aside: usize,
    w: usize,
    clock: u32,
    counts: Counts,
}

/// How two rows stand, by one look at each level.
struct Standing {
    first_above: bool,
    second_above: bool,
}

impl Standing {
    #[inline(always)]
    fn of(a: &LevelRow, b: &LevelRow) -> Self {
        let (mut first_above, mut second_above) = (false, false);
        for c in 0..COLUMNS {
            first_above |= a[c] > b[c];
            second_above |= b[c] > a[c];
        }
        Standing { first_above, second_above }
    }

    #[inline(always)]
    fn first_betters(&self) -> bool {
        !self.first_above && self.second_above
    }

    #[inline(always)]
    fn second_betters(&self) -> bool {
        self.first_above && !self.second_above
    }
}

impl<const CHECKED: bool> Machine<CHECKED> {
    fn new(w: usize) -> Self {
        let window = Window { levels: [[0; COLUMNS]; MAX_ROWS], row: [0; MAX_ROWS], stamp: [0; MAX_ROWS], from: 0, to: 0 };
        let counts = Counts { released: 0, compares: 0 };
        Machine { window, aside_row: [0; MAX_ROWS], aside_stamp: [0; MAX_ROWS], aside: 0, w, clock: 0, counts }
    }

    /// Releases the entries with a stamp below s.
    fn release(&mut self, s: u32, marks: &mut [u8]) {
        let window = &mut self.window;
        while window.from < window.to && get::<CHECKED, _>(&window.stamp, window.from) < s {
            put::<CHECKED, _>(marks, usize::from(get::<CHECKED, _>(&window.row, window.from)), 1);
            self.counts.released += 1;
            window.from += 1;
        }
    }

    /// Whether r stays: no entry betters it. The entries that it betters go.
    #[inline(always)]
    fn compare_all(&mut self, r: &LevelRow) -> bool {
        let (from, to) = (self.window.from, self.window.to);
        let mut i = from;
        while i < to {
            let standing = Standing::of(&get::<CHECKED, _>(&self.window.levels, i), r);
            if standing.first_betters() {
                self.counts.compares += (i - from + 1) as u32;
                return false;
            }
            if standing.second_betters() {
                self.remove_bettered(i, r);
                break;
            }
            i += 1;
        }
        self.counts.compares += (to - from) as u32;
        true
    }

    /// Removes the entries from i on that r betters. No entry betters another, so once r betters one none can better r: the rest is
    /// compared for this alone.
    fn remove_bettered(&mut self, i: usize, r: &LevelRow) {
        let window = &mut self.window;
        let mut stay = i;
        for i in i..window.to {
            let levels = get::<CHECKED, _>(&window.levels, i);
            put::<CHECKED, _>(&mut window.levels, stay, levels);
            let row = get::<CHECKED, _>(&window.row, i);
            put::<CHECKED, _>(&mut window.row, stay, row);
            let stamp = get::<CHECKED, _>(&window.stamp, i);
            put::<CHECKED, _>(&mut window.stamp, stay, stamp);
            stay += usize::from(!Standing::of(&levels, r).second_betters());
        }
        window.to = stay;
    }

    #[inline(always)]
    fn read_row(&mut self, r: &LevelRow, row: u16) {
        self.clock += 1;
        if !self.compare_all(r) {
            return;
        }
        let window = &mut self.window;
        if window.to - window.from < self.w {
            put::<CHECKED, _>(&mut window.levels, window.to, *r);
            put::<CHECKED, _>(&mut window.row, window.to, row);
            put::<CHECKED, _>(&mut window.stamp, window.to, self.clock);
            window.to += 1;
            return;
        }
        put::<CHECKED, _>(&mut self.aside_row, self.aside, row);
        put::<CHECKED, _>(&mut self.aside_stamp, self.aside, self.clock);
        self.aside += 1;
    }

    fn run(&mut self, table: &[LevelRow], marks: &mut [u8]) {
        for (row, r) in (0..).zip(table) {
            self.read_row(r, row);
        }
        while self.aside > 0 {
            let waiting = std::mem::take(&mut self.aside);
            // What is set aside goes where a row was read before.
            for i in 0..waiting {
                let row = get::<CHECKED, _>(&self.aside_row, i);
                let stamp = get::<CHECKED, _>(&self.aside_stamp, i);
                self.release(stamp, marks);
                self.read_row(&get::<CHECKED, _>(table, usize::from(row)), row);
            }
        }
        self.release(u32::MAX, marks);
    }
}

/// The level table, or 8.
fn fill_table<const CHECKED: bool>(input: &Input, table: &mut [LevelRow]) -> Result<(), i32> {
    let mut any_outside = false;
    for (r, row) in table.iter_mut().enumerate() {
        let (levels, outside) = of_row::<CHECKED>(input, r, MOVED);
        *row = levels;
        any_outside |= outside;
    }
    if any_outside {
        Err(8)
    } else {
        Ok(())
    }
}

pub fn run<const CHECKED: bool>(stream: &[u8], marks: &mut [u8], w: u32) -> Result<Counts, i32> {
    let input = read::<CHECKED>(stream)?;
    if marks.len() < input.rows || !(1..=MAX_ROWS as u32).contains(&w) {
        return Err(10);
    }
    let mut table = [[0; COLUMNS]; MAX_ROWS];
    let table = &mut table[..input.rows];
    fill_table::<CHECKED>(&input, table)?;
    let marks = &mut marks[..input.rows];
    marks.fill(0);
    let mut machine = Machine::<CHECKED>::new(w as usize);
    machine.run(table, marks);
    Ok(machine.counts)
}
