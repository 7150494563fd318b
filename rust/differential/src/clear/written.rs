//! Small tables with the pass of each row by hand.

use std::ops::Neg;

use redstone::Row;

use super::Trial;
use crate::written;

/// A table by rows as docs/DIFFERENCES.md has them, each with the pass in which it goes, or 0.
pub struct ByHand {
    pub what: &'static str,
    /// A line of its own, or nothing for the bench profile with the bulb.
    pub profile: &'static str,
    pub rows: &'static [(&'static str, u16)],
}

impl ByHand {
    fn read(&self) -> (Vec<u8>, Vec<(Row, u16)>) {
        written::read(self.what, self.profile, self.rows)
    }
}

/// A table turned and mirrored in all 48 ways, by which its rows come into other orders.
pub fn turned(table: &ByHand) -> impl Iterator<Item = Trial> {
    let (profile, rows) = table.read();
    let axes = [[0, 1, 2], [0, 2, 1], [1, 0, 2], [1, 2, 0], [2, 0, 1], [2, 1, 0]];
    let ways = axes.into_iter().flat_map(|axes| (0..8).map(move |mirrored| Turn { axes, mirrored }));
    ways.map(move |way| {
        let rows = rows.iter().map(|(row, pass)| (way.row(row), *pass));
        Trial::of_rows("written", &profile, rows.collect())
    })
}

/// The axes in another order, and a bit for each that is mirrored.
#[derive(Clone, Copy)]
struct Turn {
    axes: [usize; 3],
    mirrored: u8,
}

impl Turn {
    fn along<T: Copy + Neg<Output = T>>(self, numbers: [T; 3]) -> [T; 3] {
        self.axes.map(|axis| if self.mirrored >> axis & 1 == 1 { -numbers[axis] } else { numbers[axis] })
    }

    fn row(self, row: &Row) -> Row {
        row.with_position(self.along(row.position())).with_support(row.support().map(|step| self.along(step)))
    }
}

pub const TRIALS: [ByHand; 42] = [
    written("dust on a solid block", &[("0,0,0 Solid", 0), ("0,1,0 RedstoneWire support=0,-1,0", 0)]),
    written("dust in the air", &[("0,1,0 RedstoneWire support=0,-1,0", 1)]),
    written(
        "dust that says of no block that it lies on it",
        &[("0,0,0 Solid", 0), ("0,1,0 RedstoneWire", 1)],
    ),
    written(
        "a block that needs no support, and has none",
        &[("0,0,0 Solid support=0,-1,0", 0), ("2,0,0 Button", 0), ("4,0,0 PressurePlate support=0,-1,0", 0)],
    ),
    written(
        "one of each that needs support, in the air",
        &[
            ("0,0,0 RedstoneWire support=0,-1,0", 1),
            ("2,0,0 RedstoneTorch support=0,-1,0", 1),
            ("4,0,0 Repeater support=0,-1,0", 1),
            ("6,0,0 Comparator support=0,-1,0", 1),
            ("8,0,0 Lever support=0,-1,0", 1),
        ],
    ),
    written(
        "one of each that needs none, in the air",
        &[
            ("0,0,0 Solid support=0,-1,0", 0),
            ("2,0,0 Transparent support=0,-1,0", 0),
            ("4,0,0 Button support=0,-1,0", 0),
            ("6,0,0 PressurePlate support=0,-1,0", 0),
            ("8,0,0 RedstoneLamp support=0,-1,0", 0),
            ("10,0,0 RedstoneBlock support=0,-1,0", 0),
            ("12,0,0 Piston support=0,-1,0", 0),
            ("14,0,0 CopperBulb support=0,-1,0", 0),
        ],
    ),
    written(
        "dust on what holds by the bench profile",
        &[
            ("0,0,0 Solid", 0),
            ("0,1,0 RedstoneWire support=0,-1,0", 0),
            ("2,0,0 Transparent", 0),
            ("2,1,0 RedstoneWire support=0,-1,0", 0),
            ("4,0,0 RedstoneLamp", 0),
            ("4,1,0 RedstoneWire support=0,-1,0", 0),
            ("6,0,0 RedstoneBlock", 0),
            ("6,1,0 RedstoneWire support=0,-1,0", 0),
            ("8,0,0 CopperBulb", 0),
            ("8,1,0 RedstoneWire support=0,-1,0", 0),
        ],
    ),
    written(
        "dust on what holds nothing by the bench profile",
        &[
            ("0,0,0 Button", 0),
            ("0,1,0 RedstoneWire support=0,-1,0", 1),
            ("2,0,0 PressurePlate", 0),
            ("2,1,0 RedstoneWire support=0,-1,0", 1),
            ("4,0,0 Piston", 0),
            ("4,1,0 RedstoneWire support=0,-1,0", 1),
        ],
    ),
    written(
        "dust on every shape of a solid block",
        &[
            ("0,0,0 Solid shape=bottom_slab", 0),
            ("0,1,0 RedstoneWire support=0,-1,0", 1),
            ("2,0,0 Solid shape=top_slab", 0),
            ("2,1,0 RedstoneWire support=0,-1,0", 0),
            ("4,0,0 Solid shape=double_slab", 0),
            ("4,1,0 RedstoneWire support=0,-1,0", 0),
            ("6,0,0 Solid shape=bottom_stairs", 0),
            ("6,1,0 RedstoneWire support=0,-1,0", 1),
            ("8,0,0 Solid shape=top_stairs", 0),
            ("8,1,0 RedstoneWire support=0,-1,0", 0),
            ("10,0,0 Solid shape=glass", 0),
            ("10,1,0 RedstoneWire support=0,-1,0", 0),
        ],
    ),
    written(
        "dust on every shape of a button",
        &[
            ("0,0,0 Button shape=bottom_slab", 0),
            ("0,1,0 RedstoneWire support=0,-1,0", 1),
            ("2,0,0 Button shape=top_slab", 0),
            ("2,1,0 RedstoneWire support=0,-1,0", 0),
            ("4,0,0 Button shape=double_slab", 0),
            ("4,1,0 RedstoneWire support=0,-1,0", 0),
            ("6,0,0 Button shape=bottom_stairs", 0),
            ("6,1,0 RedstoneWire support=0,-1,0", 1),
            ("8,0,0 Button shape=top_stairs", 0),
            ("8,1,0 RedstoneWire support=0,-1,0", 0),
            ("10,0,0 Button shape=glass", 0),
            ("10,1,0 RedstoneWire support=0,-1,0", 0),
        ],
    ),
    by_profile(
        "no solid block holds, and every piston does",
        "profile Transparent=30 Piston=1",
        &[
            ("0,0,0 Solid", 0),
            ("0,1,0 RedstoneWire support=0,-1,0", 1),
            ("2,0,0 Transparent", 0),
            ("2,1,0 RedstoneWire support=0,-1,0", 1),
            ("4,0,0 Piston", 0),
            ("4,1,0 RedstoneWire support=0,-1,0", 0),
        ],
    ),
    by_profile(
        "a torch's value 32 holds nothing, and a shape takes the place of the profile",
        "profile Solid=1 RedstoneTorch=62 Button=1",
        &[
            ("0,0,0 Solid", 0),
            ("0,1,0 RedstoneTorch support=0,-1,0", 0),
            ("0,2,0 Lever support=0,-1,0", 1),
            ("2,0,0 Button shape=bottom_stairs", 0),
            ("2,1,0 Lever support=0,-1,0", 1),
        ],
    ),
    by_profile(
        "torches hold with value 32 and without",
        "profile Solid=1 RedstoneTorch=33",
        &[
            ("0,0,0 Solid", 0),
            ("0,1,0 RedstoneTorch support=0,-1,0", 0),
            ("0,2,0 RedstoneTorch support=0,-1,0", 0),
            ("0,3,0 Lever support=0,-1,0", 0),
        ],
    ),
    by_profile(
        "dust that holds dust by the profile, over nothing",
        "profile Solid=1 RedstoneWire=1",
        &[
            ("0,1,0 RedstoneWire support=0,-1,0", 1),
            ("0,2,0 RedstoneWire support=0,-1,0", 2),
            ("0,3,0 RedstoneWire support=0,-1,0", 3),
        ],
    ),
    written(
        "three dust on each other, over nothing",
        &[
            ("0,1,0 RedstoneWire support=0,-1,0 shape=glass", 1),
            ("0,2,0 RedstoneWire support=0,-1,0 shape=glass", 2),
            ("0,3,0 RedstoneWire support=0,-1,0", 3),
        ],
    ),
    written(
        "three dust on each other, on a solid block",
        &[
            ("0,0,0 Solid", 0),
            ("0,1,0 RedstoneWire support=0,-1,0 shape=glass", 0),
            ("0,2,0 RedstoneWire support=0,-1,0 shape=glass", 0),
            ("0,3,0 RedstoneWire support=0,-1,0", 0),
        ],
    ),
    written(
        "three dust on each other, on a bottom slab",
        &[
            ("0,0,0 Solid shape=bottom_slab", 0),
            ("0,1,0 RedstoneWire support=0,-1,0 shape=glass", 1),
            ("0,2,0 RedstoneWire support=0,-1,0 shape=glass", 2),
            ("0,3,0 RedstoneWire support=0,-1,0", 3),
        ],
    ),
    written(
        "the middle one of five holds nothing",
        &[
            ("0,0,0 Solid", 0),
            ("0,1,0 RedstoneWire support=0,-1,0 shape=glass", 0),
            ("0,2,0 RedstoneWire support=0,-1,0", 0),
            ("0,3,0 RedstoneWire support=0,-1,0 shape=glass", 1),
            ("0,4,0 RedstoneWire support=0,-1,0 shape=glass", 2),
        ],
    ),
    written(
        "one of each on each other, each of another shape that holds",
        &[
            ("0,1,0 RedstoneTorch support=0,-1,0 shape=top_slab", 1),
            ("0,2,0 Repeater support=0,-1,0 shape=double_slab", 2),
            ("0,3,0 Comparator support=0,-1,0 shape=top_stairs", 3),
            ("0,4,0 Lever support=0,-1,0 shape=glass", 4),
            ("0,5,0 RedstoneWire support=0,-1,0", 5),
        ],
    ),
    written(
        "each hangs from the one over it",
        &[
            ("0,1,0 Lever support=0,1,0", 3),
            ("0,2,0 Lever support=0,1,0 shape=glass", 2),
            ("0,3,0 Lever support=0,1,0 shape=glass", 1),
        ],
    ),
    written(
        "each hangs across a corner from the one before",
        &[
            ("0,0,0 Solid", 0),
            ("1,-1,1 Lever support=-1,1,-1 shape=top_slab", 0),
            ("2,0,2 Lever support=-1,-1,-1 shape=top_slab", 0),
            ("3,0,1 Lever support=-1,0,1 shape=top_slab", 0),
            ("4,1,1 Lever support=1,1,1 shape=top_slab", 1),
        ],
    ),
    written(
        "a support two cells away is none",
        &[("0,0,0 Solid", 0), ("0,2,0 Lever support=0,-1,0", 1), ("2,0,0 Lever support=-1,0,0", 1)],
    ),
    written(
        "a row beside a solid block that has another support",
        &[
            ("0,0,0 Solid", 0),
            ("0,1,0 RedstoneWire support=1,0,0", 2),
            ("1,1,0 RedstoneWire support=0,-1,0 shape=glass", 1),
        ],
    ),
    written(
        "rows that lean on one that falls",
        &[
            ("0,0,0 RedstoneTorch shape=double_slab", 1),
            ("-1,0,0 Lever support=1,0,0 shape=glass", 2),
            ("0,1,0 RedstoneWire support=0,-1,0 shape=glass", 2),
            ("1,0,0 Lever support=-1,0,0", 2),
            ("0,0,1 RedstoneTorch support=0,0,-1", 2),
            ("0,2,0 RedstoneWire support=0,-1,0", 3),
            ("-1,1,0 Repeater support=0,-1,0", 3),
            ("0,0,-1 Solid", 0),
            ("0,1,-1 Repeater support=0,-1,0", 0),
        ],
    ),
    written(
        "a tower that falls beside a shorter one and one that stays",
        &[
            ("0,1,0 RedstoneWire support=0,-1,0 shape=glass", 1),
            ("0,2,0 RedstoneWire support=0,-1,0 shape=glass", 2),
            ("0,3,0 RedstoneWire support=0,-1,0 shape=glass", 3),
            ("0,4,0 RedstoneWire support=0,-1,0 shape=glass", 4),
            ("5,1,0 RedstoneWire support=0,-1,0 shape=glass", 1),
            ("5,2,0 RedstoneWire support=0,-1,0 shape=glass", 2),
            ("9,0,0 Transparent", 0),
            ("9,1,0 RedstoneWire support=0,-1,0 shape=glass", 0),
            ("9,2,0 RedstoneWire support=0,-1,0 shape=glass", 0),
        ],
    ),
    written(
        "two that hold each other",
        &[
            ("0,0,0 RedstoneTorch support=1,0,0 shape=glass", 0),
            ("1,0,0 RedstoneTorch support=-1,0,0 shape=glass", 0),
        ],
    ),
    written(
        "two that would hold each other, of which one holds nothing",
        &[("0,0,0 RedstoneTorch support=1,0,0 shape=glass", 1), ("1,0,0 RedstoneTorch support=-1,0,0", 2)],
    ),
    written(
        "two that would hold each other, and hold nothing",
        &[
            ("0,0,0 RedstoneTorch support=1,0,0", 1),
            ("1,0,0 RedstoneTorch support=-1,0,0 shape=bottom_slab", 1),
        ],
    ),
    by_profile(
        "two levers that hold each other by the profile",
        "profile Lever=1",
        &[("0,0,0 Lever support=0,1,0", 0), ("0,1,0 Lever support=0,-1,0", 0)],
    ),
    written("a row that holds itself", &[("0,0,0 RedstoneWire support=0,0,0 shape=top_stairs", 0)]),
    written("a row that would hold itself, and holds nothing", &[("0,0,0 RedstoneWire support=0,0,0", 1)]),
    written(
        "rows on one that holds itself",
        &[
            ("0,0,0 Comparator support=0,0,0 shape=glass", 0),
            ("0,1,0 RedstoneWire support=0,-1,0 shape=glass", 0),
            ("0,2,0 RedstoneWire support=0,-1,0", 0),
            ("0,3,0 RedstoneWire support=0,-1,0", 1),
        ],
    ),
    written(
        "a ring of three",
        &[
            ("0,0,0 Repeater support=1,0,0 shape=glass", 0),
            ("1,0,0 Lever support=0,1,0 shape=top_slab", 0),
            ("1,1,0 RedstoneTorch support=-1,-1,0 shape=double_slab", 0),
        ],
    ),
    written(
        "a ring of three, of which one holds nothing",
        &[
            ("0,0,0 Repeater support=1,0,0 shape=glass", 2),
            ("1,0,0 Lever support=0,1,0 shape=top_slab", 1),
            ("1,1,0 RedstoneTorch support=-1,-1,0", 3),
        ],
    ),
    written(
        "a ring of four with a tower on it, and one under it that falls",
        &[
            ("0,0,0 Lever support=0,0,1 shape=glass", 0),
            ("0,0,1 Lever support=1,0,0 shape=glass", 0),
            ("1,0,1 Lever support=0,0,-1 shape=glass", 0),
            ("1,0,0 Lever support=-1,0,0 shape=glass", 0),
            ("0,1,0 RedstoneWire support=0,-1,0 shape=glass", 0),
            ("0,2,0 RedstoneWire support=0,-1,0", 0),
            ("0,3,0 RedstoneWire support=0,-1,0 shape=glass", 1),
            ("0,4,0 RedstoneWire support=0,-1,0", 2),
            ("1,-1,1 RedstoneTorch support=0,-1,0 shape=glass", 1),
        ],
    ),
    written(
        "two rings, of which one falls",
        &[
            ("0,0,0 Lever support=0,1,0 shape=glass", 0),
            ("0,1,0 Lever support=0,-1,0 shape=glass", 0),
            ("1,0,0 Lever support=0,1,0 shape=glass", 1),
            ("1,1,0 Lever support=0,-1,0 shape=bottom_stairs", 2),
        ],
    ),
    written(
        "a tower between two that hold each other and the air",
        &[
            ("0,0,0 Lever support=1,0,0 shape=glass", 0),
            ("1,0,0 Lever support=-1,0,0 shape=glass", 0),
            ("2,0,0 Lever support=-1,0,0 shape=glass", 0),
            ("3,0,0 Lever support=1,0,0 shape=glass", 2),
            ("4,0,0 Lever support=1,0,0 shape=glass", 1),
        ],
    ),
    written(
        "dust on a button in the air, which needs no support",
        &[("0,1,0 Button shape=glass", 0), ("0,2,0 RedstoneWire support=0,-1,0", 0)],
    ),
    written(
        "a room without its floor",
        &[
            ("0,0,0 Solid", 0),
            ("0,1,0 Lever support=0,-1,0 powered=true", 0),
            ("1,1,0 RedstoneWire support=0,-1,0", 1),
            ("2,1,0 RedstoneWire support=0,-1,0", 1),
            ("3,0,0 Solid", 0),
            ("3,1,0 Repeater facing=East support=0,-1,0 delay=2", 0),
            ("4,1,0 RedstoneLamp", 0),
            ("5,1,0 RedstoneTorch support=-1,0,0", 0),
            ("6,1,0 RedstoneWire support=0,-1,0 arms=West:Side", 1),
        ],
    ),
    written(
        "rows with every field, of which some go",
        &[
            ("-3,0,0 Solid facing=Up powered=true level=200 delay=9 support=1,1,1 arms=none", 0),
            (
                "-3,1,0 Comparator facing=West powered=false level=15 delay=255 support=0,-1,0 arms=North:None,West:Up shape=glass mode=subtract",
                0,
            ),
            (
                "-2,1,0 Comparator facing=Down powered=true level=0 support=0,1,0 arms=East:Side shape=top_slab mode=subtract",
                1,
            ),
            ("-2,2,1 Repeater facing=North delay=4 support=0,-1,-1 shape=bottom_slab", 2),
            ("7,7,7 CopperBulb powered=true support=0,1,0 shape=bottom_stairs", 0),
        ],
    ),
    written(
        "rows at the ends of the ground",
        &[
            ("-1000000,-1000000,-1000000 Lever support=-1,-1,-1 shape=glass", 1),
            ("-999999,-1000000,-1000000 Lever support=-1,0,0 shape=glass", 2),
            ("999999,1000000,1000000 Solid", 0),
            ("1000000,1000000,1000000 Lever support=-1,0,0 shape=glass", 0),
            ("1000000,999999,1000000 Lever support=0,1,0 shape=glass", 0),
            ("1000000,1000000,999999 Lever support=1,0,0", 1),
        ],
    ),
    by_profile(
        "a profile of 13 bytes",
        "profile Solid=31 RedstoneWire=1",
        &[
            ("0,0,0 RedstoneLamp", 0),
            ("0,1,0 RedstoneWire support=0,-1,0", 1),
            ("0,2,0 RedstoneWire support=0,-1,0", 2),
            ("1,0,0 Solid", 0),
            ("1,1,0 RedstoneWire support=0,-1,0", 0),
            ("1,2,0 RedstoneWire support=0,-1,0", 0),
        ],
    ),
];

const fn written(what: &'static str, rows: &'static [(&'static str, u16)]) -> ByHand {
    by_profile(what, "", rows)
}

const fn by_profile(
    what: &'static str,
    profile: &'static str,
    rows: &'static [(&'static str, u16)],
) -> ByHand {
    ByHand { what, profile, rows }
}
