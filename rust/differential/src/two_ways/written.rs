//! Small tables with their rounds and their figures by hand.

use redstone::{Kind, Row};

use crate::compare::Answer;
use crate::devices::first_devices;
use crate::generate::{BENCH_PROFILE_WITH_BULB, Case};
use crate::lent::fill;
use crate::refusals::Refusal;
use crate::settling::{Buffers, Call};
use crate::table;
use crate::written;

use super::settle;

/// A table by rows as docs/DIFFERENCES.md has them, each with its signal, weak and strong power, where it is settled with the
/// devices that it starts with.
pub struct ByHand {
    pub what: &'static str,
    /// A line of its own, or nothing for the bench profile with the bulb.
    pub profile: &'static str,
    pub rounds: u32,
    pub rows: &'static [(&'static str, [u8; 3])],
}

/// A case with its rounds and its columns by hand.
#[derive(Clone, Debug)]
pub struct Trial {
    pub case: Case,
    pub rounds: u32,
    pub columns: [Vec<u8>; 3],
}

impl Trial {
    fn new(case: Case, rounds: u32, columns: [Vec<u8>; 3]) -> Self {
        Self { case, rounds, columns }
    }

    /// The call at a limit, with the devices that the table starts with.
    pub fn call(&self, limit: u32) -> Call {
        settle(&self.case, &first_devices(&table::rows(&self.case.table)), limit)
    }

    /// The answer by hand, in every byte of every buffer.
    pub fn expected(&self, limit: u32) -> Answer {
        let mut buffers = Buffers::for_call(&self.case, &self.call(limit));
        if limit < self.rounds {
            return buffers.answer(Refusal { number: 8, row: 0 }.code());
        }
        let [.., signal, weak, strong] = buffers.entries();
        for (out, column) in [signal, weak, strong].into_iter().zip(&self.columns) {
            fill(out, column.iter().copied());
        }
        buffers.answer(self.rounds)
    }
}

/// A table in each quarter turn, by which its rows come into other orders.
pub fn turned(table: &ByHand) -> impl Iterator<Item = Trial> {
    let (profile, rows) = written::read(table.what, table.profile, table.rows);
    let turned =
        move |turns| rows.iter().map(move |(row, figures)| (turned_row(row, turns), *figures)).collect();
    (0..4).map(turned).map(move |rows: Vec<_>| trial(&profile, table.rounds, rows))
}

fn turned_row(row: &Row, turns: usize) -> Row {
    (0..turns).fold(*row, |row, _| written::turned(&row))
}

fn trial(profile: &[u8], rounds: u32, mut rows: Vec<(Row, [u8; 3])>) -> Trial {
    rows.sort_by_key(|(row, _)| row.position());
    let columns = [0, 1, 2].map(|column| rows.iter().map(|(_, figures)| figures[column]).collect());
    let rows = rows.into_iter().map(|(row, _)| row);
    Trial::new(Case::new("written", profile, rows), rounds, columns)
}

/// No rows, and one row of each kind. A block that receives power is in the map, which takes a second round.
pub fn single_rows() -> impl Iterator<Item = Trial> {
    let of_kind = |kind: &Kind| {
        let signal = if [Kind::RedstoneBlock, Kind::RedstoneTorch].contains(kind) { 15 } else { 0 };
        let rounds = if [Kind::Solid, Kind::RedstoneLamp, Kind::CopperBulb].contains(kind) { 2 } else { 1 };
        trial(&BENCH_PROFILE_WITH_BULB, rounds, vec![(Row::new(*kind, [0; 3]), [signal, 0, 0])])
    };
    let no_rows = trial(&BENCH_PROFILE_WITH_BULB, 1, Vec::new());
    [no_rows].into_iter().chain(Kind::ALL.iter().map(of_kind))
}

/// Test 4 of the book with so many dust, of which the first so many lie on blocks. Each dust has its level a round after the one
/// before, which is answered a round later; the last block that dust gives power to is answered two rounds later.
fn line(dust: i32, blocks: i32) -> Trial {
    let level = |x: i32| 16_u8.saturating_sub(x as u8).min(15);
    let lit = dust.min(15);
    let shown = if blocks == 0 { 0 } else { 2 + blocks.min(lit) };
    let rows = (1..=dust).flat_map(|x| {
        let block = (x <= blocks).then(|| (Row::new(Kind::Solid, [x, 0, 0]), [0, level(x), 0]));
        [(Row::new(Kind::RedstoneWire, [x, 1, 0]), [level(x), 0, 0])].into_iter().chain(block)
    });
    let source = (Row::new(Kind::RedstoneBlock, [0, 1, 0]), [15, 0, 0]);
    let rounds = (1 + lit).max(shown) as u32;
    trial(&BENCH_PROFILE_WITH_BULB, rounds, rows.chain([source]).collect())
}

/// Lines of up to 17 dust, on blocks as far as to each dust.
pub fn lines() -> impl Iterator<Item = Trial> {
    (0..=17).flat_map(|dust| (0..=dust).map(move |blocks| line(dust, blocks)))
}

const fn table(what: &'static str, rounds: u32, rows: &'static [(&'static str, [u8; 3])]) -> ByHand {
    ByHand { what, profile: "", rounds, rows }
}

const fn table_by(
    profile: &'static str,
    what: &'static str,
    rounds: u32,
    rows: &'static [(&'static str, [u8; 3])],
) -> ByHand {
    ByHand { what, profile, rounds, rows }
}

/// A level of 3 comes to the third dust in round 3. That it stays so is seen in round 4. A block under that dust has its power
/// in round 4, and that is seen in round 5.
pub const TABLES: [ByHand; 44] = [
    table(
        "three dust over nothing",
        4,
        &[
            ("0,0,0 Lever powered=true level=3", [3, 0, 0]),
            ("1,0,0 RedstoneWire", [3, 0, 0]),
            ("2,0,0 RedstoneWire", [2, 0, 0]),
            ("3,0,0 RedstoneWire", [1, 0, 0]),
        ],
    ),
    table(
        "a block under the last of three",
        5,
        &[
            ("0,0,0 Lever powered=true level=3", [3, 0, 0]),
            ("1,0,0 RedstoneWire", [3, 0, 0]),
            ("2,0,0 RedstoneWire", [2, 0, 0]),
            ("3,0,0 RedstoneWire", [1, 0, 0]),
            ("3,-1,0 Solid", [0, 1, 0]),
        ],
    ),
    table(
        "a block under the second of three",
        4,
        &[
            ("0,0,0 Lever powered=true level=3", [3, 0, 0]),
            ("1,0,0 RedstoneWire", [3, 0, 0]),
            ("2,0,0 RedstoneWire", [2, 0, 0]),
            ("2,-1,0 Solid", [0, 2, 0]),
            ("3,0,0 RedstoneWire", [1, 0, 0]),
        ],
    ),
    table(
        "a block under the first of three",
        4,
        &[
            ("0,0,0 Lever powered=true level=3", [3, 0, 0]),
            ("1,0,0 RedstoneWire", [3, 0, 0]),
            ("1,-1,0 Solid", [0, 3, 0]),
            ("2,0,0 RedstoneWire", [2, 0, 0]),
            ("3,0,0 RedstoneWire", [1, 0, 0]),
        ],
    ),
    table(
        "a block that no dust reaches",
        4,
        &[
            ("0,0,0 Lever powered=true level=3", [3, 0, 0]),
            ("1,0,0 RedstoneWire", [3, 0, 0]),
            ("2,0,0 RedstoneWire", [2, 0, 0]),
            ("3,0,0 RedstoneWire", [1, 0, 0]),
            ("9,9,9 Solid", [0, 0, 0]),
        ],
    ),
    table(
        "a fourth dust, on a block, to which nothing comes",
        4,
        &[
            ("0,0,0 Lever powered=true level=3", [3, 0, 0]),
            ("1,0,0 RedstoneWire", [3, 0, 0]),
            ("2,0,0 RedstoneWire", [2, 0, 0]),
            ("3,0,0 RedstoneWire", [1, 0, 0]),
            ("4,0,0 RedstoneWire", [0, 0, 0]),
            ("4,-1,0 Solid", [0, 0, 0]),
        ],
    ),
    table(
        "a block at the end of an arm",
        5,
        &[
            ("0,0,0 Lever powered=true level=3", [3, 0, 0]),
            ("1,0,0 RedstoneWire", [3, 0, 0]),
            ("2,0,0 RedstoneWire", [2, 0, 0]),
            ("3,0,0 RedstoneWire arms=East:Side,West:Side", [1, 0, 0]),
            ("4,0,0 Solid", [0, 1, 0]),
        ],
    ),
    table(
        "dust of level 1",
        2,
        &[
            ("0,0,0 Lever powered=true level=1", [1, 0, 0]),
            ("1,0,0 RedstoneWire", [1, 0, 0]),
            ("2,0,0 RedstoneWire", [0, 0, 0]),
        ],
    ),
    table(
        "dust of level 2",
        3,
        &[
            ("0,0,0 Lever powered=true level=2", [2, 0, 0]),
            ("1,0,0 RedstoneWire", [2, 0, 0]),
            ("2,0,0 RedstoneWire", [1, 0, 0]),
            ("3,0,0 RedstoneWire", [0, 0, 0]),
        ],
    ),
    table(
        "a source of no level",
        1,
        &[("0,0,0 Lever powered=true level=0", [0, 0, 0]), ("1,0,0 RedstoneWire", [0, 0, 0])],
    ),
    table(
        "a source that is given more than 15",
        3,
        &[
            ("0,0,0 Lever powered=true level=200", [15, 0, 0]),
            ("1,0,0 RedstoneWire", [15, 0, 0]),
            ("2,0,0 RedstoneWire", [14, 0, 0]),
        ],
    ),
    // Levels that come by several ways.
    table(
        "two equal sources, and the same distance to the middle",
        4,
        &[
            ("0,0,0 Lever powered=true level=3", [3, 0, 0]),
            ("1,0,0 RedstoneWire", [3, 0, 0]),
            ("2,0,0 RedstoneWire", [2, 0, 0]),
            ("3,0,0 RedstoneWire", [1, 0, 0]),
            ("4,0,0 RedstoneWire", [2, 0, 0]),
            ("5,0,0 RedstoneWire", [3, 0, 0]),
            ("6,0,0 Lever powered=true level=3", [3, 0, 0]),
        ],
    ),
    table(
        "two equal sources, and an even number of dust",
        3,
        &[
            ("0,0,0 Lever powered=true level=3", [3, 0, 0]),
            ("1,0,0 RedstoneWire", [3, 0, 0]),
            ("2,0,0 RedstoneWire", [2, 0, 0]),
            ("3,0,0 RedstoneWire", [2, 0, 0]),
            ("4,0,0 RedstoneWire", [3, 0, 0]),
            ("5,0,0 Lever powered=true level=3", [3, 0, 0]),
        ],
    ),
    table(
        "both ways round a square",
        4,
        &[
            ("0,0,0 RedstoneBlock", [15, 0, 0]),
            ("1,0,0 RedstoneWire", [15, 0, 0]),
            ("1,0,1 RedstoneWire", [14, 0, 0]),
            ("2,0,0 RedstoneWire", [14, 0, 0]),
            ("2,0,1 RedstoneWire", [13, 0, 0]),
        ],
    ),
    table(
        "a level that a second source gives at once, and the first later",
        3,
        &[
            ("0,0,0 Lever powered=true level=4", [4, 0, 0]),
            ("1,0,0 RedstoneWire", [4, 0, 0]),
            ("2,0,0 RedstoneWire", [3, 0, 0]),
            ("3,0,0 RedstoneWire", [2, 0, 0]),
            ("3,1,0 Lever powered=true level=2", [2, 0, 0]),
            ("4,0,0 RedstoneWire", [1, 0, 0]),
        ],
    ),
    table(
        "one level from both sides, a round apart",
        3,
        &[
            ("0,0,0 Lever powered=true level=4", [4, 0, 0]),
            ("1,0,0 RedstoneWire", [4, 0, 0]),
            ("2,0,0 RedstoneWire", [3, 0, 0]),
            ("3,0,0 RedstoneWire", [2, 0, 0]),
            ("4,0,0 RedstoneWire", [3, 0, 0]),
            ("5,0,0 Lever powered=true level=3", [3, 0, 0]),
        ],
    ),
    table(
        "a lower level that a second source gives at once",
        5,
        &[
            ("0,0,0 Lever powered=true level=4", [4, 0, 0]),
            ("1,0,0 RedstoneWire", [4, 0, 0]),
            ("2,0,0 RedstoneWire", [3, 0, 0]),
            ("3,0,0 RedstoneWire", [2, 0, 0]),
            ("3,1,0 Lever powered=true level=1", [1, 0, 0]),
            ("4,0,0 RedstoneWire", [1, 0, 0]),
        ],
    ),
    table(
        "a higher level that a second source gives in the middle",
        4,
        &[
            ("0,0,0 Lever powered=true level=2", [2, 0, 0]),
            ("1,0,0 RedstoneWire", [2, 0, 0]),
            ("2,0,0 RedstoneWire", [2, 0, 0]),
            ("3,0,0 RedstoneWire", [3, 0, 0]),
            ("3,1,0 Lever powered=true level=3", [3, 0, 0]),
            ("4,0,0 RedstoneWire", [2, 0, 0]),
            ("5,0,0 RedstoneWire", [1, 0, 0]),
        ],
    ),
    table(
        "a level that comes the long way before the row that gives it is passed",
        5,
        &[
            ("4,0,0 Lever powered=true level=4", [4, 0, 0]),
            ("3,0,0 RedstoneWire", [4, 0, 0]),
            ("2,0,0 RedstoneWire", [3, 0, 0]),
            ("1,0,0 RedstoneWire", [2, 0, 0]),
            ("0,0,0 RedstoneWire", [1, 0, 0]),
        ],
    ),
    table(
        "one level from two dust to a block, early and late",
        4,
        &[
            ("0,1,0 Lever powered=true level=3", [3, 0, 0]),
            ("1,1,0 RedstoneWire", [3, 0, 0]),
            ("2,1,0 RedstoneWire", [2, 0, 0]),
            ("3,1,0 RedstoneWire", [1, 0, 0]),
            ("3,0,0 Solid", [0, 1, 0]),
            ("4,0,0 RedstoneWire arms=East:Side,West:Side", [1, 0, 0]),
            ("5,0,0 Lever powered=true level=1", [1, 0, 0]),
        ],
    ),
    table(
        "a lower level early to a block, and a higher one late",
        4,
        &[
            ("0,1,0 Lever powered=true level=3", [3, 0, 0]),
            ("1,1,0 RedstoneWire", [3, 0, 0]),
            ("2,1,0 RedstoneWire", [2, 0, 0]),
            ("2,0,0 Solid", [0, 2, 0]),
            ("3,0,0 RedstoneWire arms=East:Side,West:Side", [1, 0, 0]),
            ("4,0,0 Lever powered=true level=1", [1, 0, 0]),
        ],
    ),
    // Weak power that is there without dust.
    table(
        "a block that has the last dust's power through another",
        4,
        &[
            ("0,1,0 Lever powered=true level=3", [3, 0, 0]),
            ("1,1,0 RedstoneWire", [3, 0, 0]),
            ("2,1,0 RedstoneWire", [2, 0, 0]),
            ("3,1,0 RedstoneWire", [1, 0, 0]),
            ("3,0,0 Solid", [0, 1, 0]),
            ("4,0,0 Solid", [0, 0, 1]),
            ("4,-1,0 Lever powered=true level=1 support=0,1,0", [1, 0, 0]),
        ],
    ),
    table(
        "a block that has more than the last dust's power through another",
        4,
        &[
            ("0,1,0 Lever powered=true level=3", [3, 0, 0]),
            ("1,1,0 RedstoneWire", [3, 0, 0]),
            ("2,1,0 RedstoneWire", [2, 0, 0]),
            ("3,1,0 RedstoneWire", [1, 0, 0]),
            ("3,0,0 Solid", [0, 2, 0]),
            ("4,0,0 Solid", [0, 0, 2]),
            ("4,-1,0 Lever powered=true level=2 support=0,1,0", [2, 0, 0]),
        ],
    ),
    table(
        "a block that has less than the last dust's power through another",
        4,
        &[
            ("0,1,0 Lever powered=true level=3", [3, 0, 0]),
            ("1,1,0 RedstoneWire", [3, 0, 0]),
            ("2,1,0 RedstoneWire", [2, 0, 0]),
            ("2,0,0 Solid", [0, 2, 0]),
            ("3,0,0 Solid", [0, 0, 1]),
            ("3,-1,0 Lever powered=true level=1 support=0,1,0", [1, 0, 0]),
        ],
    ),
    table(
        "the same with as much",
        3,
        &[
            ("0,1,0 Lever powered=true level=3", [3, 0, 0]),
            ("1,1,0 RedstoneWire", [3, 0, 0]),
            ("2,1,0 RedstoneWire", [2, 0, 0]),
            ("2,0,0 Solid", [0, 2, 0]),
            ("3,0,0 Solid", [0, 0, 2]),
            ("3,-1,0 Lever powered=true level=2 support=0,1,0", [2, 0, 0]),
        ],
    ),
    table(
        "of three blocks under dust the last has the power without it",
        4,
        &[
            ("0,1,0 Lever powered=true level=3", [3, 0, 0]),
            ("1,1,0 RedstoneWire", [3, 0, 0]),
            ("1,0,0 Solid", [0, 3, 0]),
            ("2,1,0 RedstoneWire", [2, 0, 0]),
            ("2,0,0 Solid", [0, 2, 0]),
            ("3,1,0 RedstoneWire", [1, 0, 0]),
            ("3,0,0 Solid", [0, 1, 0]),
            ("4,0,0 Solid", [0, 0, 1]),
            ("4,-1,0 Lever powered=true level=1 support=0,1,0", [1, 0, 0]),
        ],
    ),
    table_by(
        "profile Solid=15",
        "strong power in the block under the last dust, which drives no dust, is no weak power",
        5,
        &[
            ("0,1,0 Lever powered=true level=3", [3, 0, 0]),
            ("1,1,0 RedstoneWire", [3, 0, 0]),
            ("2,1,0 RedstoneWire", [2, 0, 0]),
            ("3,1,0 RedstoneWire", [1, 0, 0]),
            ("3,0,0 Solid", [0, 1, 9]),
            ("3,-1,0 Lever powered=true level=9 support=0,1,0", [9, 0, 0]),
        ],
    ),
    table(
        "strong power in the block under the last dust, which drives it",
        3,
        &[
            ("0,1,0 Lever powered=true level=3", [3, 0, 0]),
            ("1,1,0 RedstoneWire", [3, 0, 0]),
            ("2,1,0 RedstoneWire", [2, 0, 0]),
            ("3,1,0 RedstoneWire", [1, 0, 0]),
            ("3,0,0 Solid", [0, 1, 1]),
            ("3,-1,0 Lever powered=true level=1 support=0,1,0", [1, 0, 0]),
        ],
    ),
    // The map.
    table_by(
        "profile Solid=1",
        "a block under the last dust that receives no power",
        4,
        &[
            ("0,0,0 Lever powered=true level=3", [3, 0, 0]),
            ("1,0,0 RedstoneWire", [3, 0, 0]),
            ("2,0,0 RedstoneWire", [2, 0, 0]),
            ("3,0,0 RedstoneWire", [1, 0, 0]),
            ("3,-1,0 Solid", [0, 0, 0]),
        ],
    ),
    table_by("profile Solid=1", "blocks that receive no power", 1, &[("0,0,0 Solid", [0, 0, 0])]),
    table_by("profile Solid=2", "a block that receives weak power alone", 2, &[("0,0,0 Solid", [0, 0, 0])]),
    table_by("profile Solid=4", "a block that receives strong power alone", 2, &[("0,0,0 Solid", [0, 0, 0])]),
    table_by(
        "profile Solid=4",
        "a block under the first dust that receives strong power alone",
        2,
        &[
            ("0,0,0 Lever powered=true level=3", [3, 0, 0]),
            ("1,0,0 RedstoneWire", [3, 0, 0]),
            ("1,-1,0 Solid", [0, 0, 0]),
        ],
    ),
    table_by(
        "profile RedstoneWire=6",
        "dust that receives power, which comes from beside it",
        4,
        &[
            ("0,0,0 Lever powered=true level=2", [2, 0, 0]),
            ("1,0,0 RedstoneWire", [2, 1, 0]),
            ("2,0,0 RedstoneWire", [1, 2, 0]),
        ],
    ),
    // Strong power and supports.
    table(
        "dust under a block that a lever holds on to",
        2,
        &[
            ("0,1,0 Lever powered=true level=2 support=0,-1,0", [2, 0, 0]),
            ("0,0,0 Solid", [0, 0, 2]),
            ("0,-1,0 RedstoneWire", [2, 0, 0]),
        ],
    ),
    table(
        "supports at corners",
        2,
        &[
            ("0,0,0 Solid", [0, 0, 7]),
            ("1,1,1 Lever powered=true level=7 support=-1,-1,-1", [7, 0, 0]),
            ("-1,-1,1 Lever powered=true level=6 support=1,1,-1", [6, 0, 0]),
            ("1,1,0 Lever powered=true level=5 support=-1,-1,0", [5, 0, 0]),
        ],
    ),
    table_by(
        "profile Lever=6",
        "a lever that holds on to itself",
        2,
        &[("0,0,0 Lever powered=true support=0,0,0", [15, 0, 15])],
    ),
    table_by(
        "profile Solid=31 RedstoneTorch=32",
        "a torch under a block under dust",
        3,
        &[
            ("0,0,0 RedstoneTorch", [15, 0, 0]),
            ("0,1,0 Solid", [0, 15, 15]),
            ("0,2,0 RedstoneWire", [15, 0, 0]),
        ],
    ),
    table(
        "a comparator and a repeater at their outputs alone",
        3,
        &[
            ("0,0,0 Comparator facing=East level=5", [5, 0, 0]),
            ("1,0,0 RedstoneWire", [5, 0, 0]),
            ("2,0,0 RedstoneWire", [4, 0, 0]),
            ("3,0,0 Repeater facing=East powered=true", [15, 0, 0]),
        ],
    ),
    // The ends of the ground.
    table(
        "the last cell of a line to the South and the first of the next above",
        2,
        &[
            ("0,0,999999 RedstoneBlock", [15, 0, 0]),
            ("0,0,1000000 RedstoneWire", [15, 0, 0]),
            ("0,1,-1000000 RedstoneWire", [0, 0, 0]),
            ("0,1,-999999 RedstoneWire", [0, 0, 0]),
        ],
    ),
    table(
        "the highest cell and the lowest of the next to the East",
        2,
        &[
            ("0,1000000,0 RedstoneBlock", [15, 0, 0]),
            ("0,999999,0 RedstoneWire", [15, 0, 0]),
            ("1,-1000000,0 RedstoneWire", [0, 0, 0]),
            ("1,-999999,0 Solid", [0, 0, 0]),
        ],
    ),
    table(
        "a support past the end of the ground",
        2,
        &[
            ("0,0,1000000 Lever powered=true support=0,0,1", [15, 0, 0]),
            ("0,1,-1000000 Solid", [0, 0, 0]),
            ("0,1000000,0 Lever powered=true support=0,1,0", [15, 0, 0]),
            ("1,-1000000,0 Solid", [0, 0, 0]),
            ("1000000,0,0 Lever powered=true support=1,0,0", [15, 0, 0]),
            ("-1000000,0,0 Solid", [0, 0, 0]),
        ],
    ),
    table(
        "the corners of the ground",
        4,
        &[
            ("1000000,1000000,999999 RedstoneBlock", [15, 0, 0]),
            ("1000000,1000000,1000000 RedstoneWire", [15, 0, 0]),
            ("1000000,999999,1000000 Solid", [0, 15, 0]),
            ("-999999,-1000000,-1000000 Lever powered=true level=2", [2, 0, 0]),
            ("-1000000,-1000000,-1000000 RedstoneWire", [2, 0, 0]),
            ("-1000000,-1000000,-999999 RedstoneWire", [1, 0, 0]),
            ("-1000000,-999999,-1000000 Solid", [0, 0, 0]),
            ("-1000000,-1000000,-999998 Solid", [0, 0, 0]),
            ("999999,1000000,1000000 RedstoneWire", [14, 0, 0]),
            ("999999,999999,1000000 Solid", [0, 14, 0]),
        ],
    ),
    table(
        "cells that are the same but for 2 to the power of 20 or of 21",
        2,
        &[
            ("0,0,0 RedstoneBlock", [15, 0, 0]),
            ("-524288,0,1 RedstoneWire", [0, 0, 0]),
            ("524288,0,1 RedstoneBlock", [15, 0, 0]),
            ("0,0,524289 RedstoneWire", [0, 0, 0]),
            ("0,0,-524288 RedstoneBlock", [15, 0, 0]),
            ("0,-524288,1 Solid", [0, 0, 0]),
            ("1,524288,1 RedstoneBlock", [15, 0, 0]),
        ],
    ),
];
