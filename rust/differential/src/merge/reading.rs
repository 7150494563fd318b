//! Change 6, read from document 02 a second time and apart from the proved code.

use std::collections::BTreeMap;

use redstone::ROW_BYTES;

use super::Merge;
use crate::generate::BENCH_PROFILE_WITH_BULB;
use crate::lent::fill;
use crate::refusals::{self, FARTHEST, MOST_ROWS, Refusal, at_no_row};
use crate::table::{Position, coordinates};

/// "The lent output has 32,768 bytes, else number 7."
pub const OUT_BYTES: usize = 32_768;

/// "An offset of three whole numbers, each from -2,000,000 to 2,000,000."
const FARTHEST_OFFSET: i32 = 2_000_000;

/// A row where it is put: its position, which may be off the ground, and the bytes after it.
pub type Placed = ([i64; 3], [u8; ROW_BYTES - POSITION_BYTES]);

const POSITION_BYTES: usize = 12;

/// What a call is asked: its tables as they are lent, and their rows as they are put.
pub struct Asked<'a> {
    pub merge: &'a Merge,
    pub first: Vec<Placed>,
    pub second: Vec<Placed>,
}

/// A test: the number with which it refuses, and the row at fault, or 0 where no row is.
#[derive(Clone, Copy)]
pub struct Test {
    pub number: u32,
    pub fault: fn(&Asked) -> Option<usize>,
}

pub type Order = [Test; 14];

/// The tests in their order: "the first table's checks come before the second's", then 7, and "after 7 .. 11, 12, then 3,
/// row 0 for each".
pub const ORDER: Order = [
    on_first::<2>(),
    on_first::<3>(),
    on_first::<4>(),
    on_first::<5>(),
    on_first::<10>(),
    on_second::<2>(),
    on_second::<3>(),
    on_second::<4>(),
    on_second::<5>(),
    on_second::<10>(),
    Test { number: 7, fault: |asked| at_no_row(asked.merge.out.bytes != OUT_BYTES) },
    Test {
        number: 11,
        fault: |asked| at_no_row(far_offset(asked.merge.offset) || off_ground(&asked.second)),
    },
    Test { number: 12, fault: |asked| at_no_row(clash(asked)) },
    Test { number: 3, fault: |asked| at_no_row(union(asked).len() > MOST_ROWS) },
];

const fn on_first<const NUMBER: u32>() -> Test {
    Test { number: NUMBER, fault: |asked| fault_of_table(NUMBER, &asked.merge.first) }
}

const fn on_second<const NUMBER: u32>() -> Test {
    Test { number: NUMBER, fault: |asked| fault_of_table(NUMBER, &asked.merge.second) }
}

/// What the tests of every call find in a table. "A bulb row counts as good here."
pub fn fault_of_table(number: u32, table: &[u8]) -> Option<usize> {
    let asked = refusals::Asked::new(&BENCH_PROFILE_WITH_BULB, table);
    let tests = refusals::ORDER.iter().filter(|test| test.number == number);
    tests.filter_map(|test| (test.fault)(&asked)).next()
}

pub fn far_offset(offset: Position) -> bool {
    offset.iter().any(|along| !(-FARTHEST_OFFSET..=FARTHEST_OFFSET).contains(along))
}

pub fn off_ground(rows: &[Placed]) -> bool {
    let ground = -i64::from(FARTHEST)..=i64::from(FARTHEST);
    rows.iter().any(|(position, _)| position.iter().any(|coordinate| !ground.contains(coordinate)))
}

/// Whether a position is in both, with bytes that differ.
fn clash(asked: &Asked) -> bool {
    shared(asked).any(|[first, second]| first.1 != second.1)
}

/// The rows at positions that are in both.
pub fn shared<'a>(asked: &'a Asked) -> impl Iterator<Item = [&'a Placed; 2]> {
    let first: BTreeMap<_, _> = asked.first.iter().map(|row| (row.0, row)).collect();
    asked.second.iter().filter_map(move |row| Some([*first.get(&row.0)?, row]))
}

/// A row for each position that is in either, in their order.
pub fn union(asked: &Asked) -> Vec<Placed> {
    let rows: BTreeMap<_, _> = asked.first.iter().chain(&asked.second).copied().collect();
    rows.into_iter().collect()
}

/// A way to read Change 6.
#[derive(Clone, Copy)]
pub struct Reading {
    /// The rows of the first table and of the second, where they are put.
    pub place: fn(&Merge) -> [Vec<Placed>; 2],
    pub order: Order,
    pub result: fn(&Asked) -> Vec<Placed>,
    /// Writes the result and answers.
    pub write: fn(&[Placed], &mut [u8]) -> u32,
    /// What a refused call does to the output.
    pub on_refusal: fn(&mut [u8]),
}

/// The right one: "write the table that holds the first and the moved second", "what lies past the result is untouched,
/// and the answer is the result's row count".
pub const READING: Reading = Reading {
    place: |merge| [placed(&merge.first, [0; 3]), placed(&merge.second, merge.offset)],
    order: ORDER,
    result: union,
    write: |rows, out| {
        fill(out, rows.iter().flat_map(packed));
        rows.len() as u32
    },
    on_refusal: |_| (),
};

impl Reading {
    /// Writes what a call is to write, and answers as it is to answer.
    pub fn called(&self, merge: &Merge, out: &mut [u8]) -> u32 {
        let [first, second] = (self.place)(merge);
        let asked = Asked { merge, first, second };
        match self.refuse(&asked) {
            Some(refusal) => {
                (self.on_refusal)(out);
                refusal.code()
            }
            None => (self.write)(&(self.result)(&asked), out),
        }
    }

    /// The first of the tests that finds a fault refuses.
    fn refuse(&self, asked: &Asked) -> Option<Refusal> {
        self.order.iter().find_map(|test| Some(Refusal { number: test.number, row: (test.fault)(asked)? }))
    }
}

/// The rows of a table, moved.
pub fn placed(table: &[u8], offset: Position) -> Vec<Placed> {
    let (rows, _) = table.as_chunks::<ROW_BYTES>();
    let placed = |row: &[u8; ROW_BYTES]| {
        let from = coordinates(row);
        let mut bytes = [0; _];
        bytes.copy_from_slice(&row[POSITION_BYTES..]);
        ([0, 1, 2].map(|axis| i64::from(from[axis]) + i64::from(offset[axis])), bytes)
    };
    rows.iter().map(placed).collect()
}

/// The bytes of a row. On the ground a coordinate has 32 bits.
pub fn packed((position, bytes): &Placed) -> [u8; ROW_BYTES] {
    let mut row = [0; ROW_BYTES];
    for (axis, coordinate) in position.iter().enumerate() {
        row[4 * axis..][..4].copy_from_slice(&(*coordinate as i32).to_le_bytes());
    }
    row[POSITION_BYTES..].copy_from_slice(bytes);
    row
}
