mod build_script;
mod bulbs;
mod calls;
mod circuit;
mod clear;
mod either_order;
mod faults;
mod feeders;
mod header;
mod merge;
mod programs;
mod repository;
mod rows;
mod rules;
mod run_script;

use crate::Columns;

/// What lent buffers hold before a call.
const UNTOUCHED: u8 = 0xc3;

/// Columns to lend.
#[derive(Clone, PartialEq)]
struct Lent {
    signal: Vec<u8>,
    weak: Vec<u8>,
    strong: Vec<u8>,
}

impl Lent {
    /// Columns of one length.
    fn new(rows: usize) -> Self {
        Self::of_lengths([rows; 3])
    }

    fn of_lengths(lengths: [usize; 3]) -> Self {
        let [signal, weak, strong] = lengths.map(|length| vec![UNTOUCHED; length]);
        Self { signal, weak, strong }
    }

    fn columns(&mut self) -> Columns<'_> {
        Columns { signal: &mut self.signal, weak: &mut self.weak, strong: &mut self.strong }
    }

    fn untouched(&self) -> bool {
        [&self.signal, &self.weak, &self.strong].into_iter().flatten().all(|byte| *byte == UNTOUCHED)
    }
}

/// Numbers that look as if they were drawn.
struct Draws(u64);

impl Draws {
    /// A number below a limit.
    fn below(&mut self, limit: u64) -> u64 {
        self.0 = self.0.wrapping_mul(6_364_136_223_846_793_005).wrapping_add(1_442_695_040_888_963_407);
        (self.0 >> 33) % limit
    }

    fn one_of<T: Copy>(&mut self, all: &[T]) -> T {
        all[self.below(all.len() as u64) as usize]
    }
}

/// The positions of a cube, in the table's order.
fn cube(cells: i32) -> impl Iterator<Item = [i32; 3]> {
    (0..cells).flat_map(move |x| (0..cells).flat_map(move |y| (0..cells).map(move |z| [x, y, z])))
}
