//! Small tables with the arms of each dust after the redraw by hand.

use std::collections::BTreeSet;

use redstone::{Arm, Row};

use super::trials::POWERS;
use super::{Stored, Switch, Trial, stored};
use crate::dust::{Arms, is_dust};
use crate::generate::Case;
use crate::table::{ABOVE, HORIZONTAL, Position, UNDER, moved};
use crate::written;

/// A table by rows as docs/DIFFERENCES.md has them, each dust with its arms after the redraw to the North, East, South and
/// West: `-` for no entry, `S` for Side and `U` for Up.
pub struct ByHand {
    pub what: &'static str,
    /// A line of its own, or nothing for the bench profile with the bulb.
    pub profile: &'static str,
    pub rows: &'static [(&'static str, &'static str)],
}

/// What dust may have stored before: nothing, no entry, one entry, arms that are wrong, and every entry.
const STORED: [Option<Arms>; 10] = {
    let (none, side, up) = (Some(Arm::None), Some(Arm::Side), Some(Arm::Up));
    [
        None,
        Some([None; 4]),
        Some([side, None, None, None]),
        Some([None, up, None, None]),
        Some([None, None, none, None]),
        Some([None, None, None, side]),
        Some([side, none, None, up]),
        Some([none; 4]),
        Some([side; 4]),
        Some([up; 4]),
    ]
};

/// A table in each quarter turn, with other arms stored in the dust that is written without, switched at every row and at
/// every empty position beside one, to every power.
pub fn at_every_position(table: &ByHand) -> impl Iterator<Item = Trial> {
    let (profile, rows) = written::read(table.what, table.profile, table.rows);
    let rows: Vec<_> = rows.into_iter().map(|(row, arms)| (row, stored(arms))).collect();
    let turns = (0..4).map(move |turns| rows.iter().map(|row| turned(*row, turns)).collect());
    let with_stored = turns.flat_map(|rows: Vec<_>| STORED.map(|arms| with_arms(&rows, arms)));
    with_stored.flat_map(move |rows| trials(&profile, rows))
}

type Drawn = (Row, Option<Stored>);

/// So many quarter turns, by which the North comes to the East.
fn turned((row, drawn): Drawn, turns: usize) -> Drawn {
    (0..turns).fold((row, drawn), |(row, drawn), _| {
        let drawn = drawn.map(|[is_stored, north, east, south, west]| [is_stored, west, north, east, south]);
        (written::turned(&row), drawn)
    })
}

/// The rows in the table's order, with these arms in the dust that has none.
fn with_arms(rows: &[Drawn], arms: Option<Arms>) -> Vec<Drawn> {
    let with_arms = |(row, drawn): &Drawn| {
        let arms = row.arms().or(arms.filter(|_| is_dust(row)));
        (row.with_arms(arms), *drawn)
    };
    let mut rows: Vec<_> = rows.iter().map(with_arms).collect();
    rows.sort_by_key(|(row, _)| row.position());
    rows
}

fn trials(profile: &[u8], rows: Vec<Drawn>) -> impl Iterator<Item = Trial> + use<> {
    let case = Case::new("written", profile, rows.iter().map(|(row, _)| *row));
    let drawn = rows.iter().enumerate().filter_map(|(row, (_, drawn))| Some((row, (*drawn)?)));
    let drawn: Vec<_> = drawn.collect();
    let occupied: Vec<_> = rows.iter().map(|(row, _)| row.position()).collect();
    let empty = beside_rows(&occupied).into_iter().map(|at| (at, None));
    let positions: Vec<_> = occupied.iter().copied().zip((0..).map(Some)).chain(empty).collect();
    positions.into_iter().flat_map(move |(at, switched)| {
        POWERS.map(|powered| Trial {
            switch: Switch::of(&case, at, powered),
            case: case.clone(),
            drawn: Ok(drawn.clone()),
            switched: Ok(switched),
        })
    })
}

/// The empty positions beside these.
fn beside_rows(occupied: &[Position]) -> BTreeSet<Position> {
    let beside = occupied.iter().flat_map(|at| {
        let steps = HORIZONTAL.into_iter().chain([ABOVE, UNDER]);
        steps.map(|step| moved(*at, step))
    });
    beside.filter(|at| !occupied.contains(at)).collect()
}

pub const TRIALS: [ByHand; 38] = [
    written("a dust alone", &[("0,0,0 RedstoneWire", "----")]),
    written(
        "no dust",
        &[("0,0,0 Solid", ""), ("0,1,0 Lever support=0,-1,0", ""), ("1,0,0 RedstoneLamp", "")],
    ),
    written("one arm", &[("0,0,0 RedstoneWire", "-S-S"), ("1,0,0 Lever", "")]),
    written(
        "two arms across",
        &[
            ("-1,0,0 Lever powered=true", ""),
            ("0,0,0 RedstoneWire", "-S-S"),
            ("1,0,0 Lever powered=false", ""),
        ],
    ),
    written(
        "two arms round a corner",
        &[("0,0,0 RedstoneWire", "-SS-"), ("0,0,1 Button", ""), ("1,0,0 Lever", "")],
    ),
    written(
        "three arms",
        &[
            ("0,0,-1 Button powered=true", ""),
            ("0,0,0 RedstoneWire powered=true", "SSS-"),
            ("0,0,1 RedstoneTorch powered=false", ""),
            ("1,0,0 PressurePlate", ""),
        ],
    ),
    written(
        "four arms",
        &[
            ("-1,0,0 RedstoneBlock", ""),
            ("0,0,-1 Lever", ""),
            ("0,0,0 RedstoneWire powered=false", "SSSS"),
            ("0,0,1 PressurePlate powered=true", ""),
            ("1,0,0 RedstoneTorch", ""),
        ],
    ),
    written("two dust", &[("0,0,0 RedstoneWire", "-S-S"), ("1,0,0 RedstoneWire powered=true", "-S-S")]),
    written(
        "three dust in a line",
        &[("0,0,0 RedstoneWire", "-S-S"), ("1,0,0 RedstoneWire", "-S-S"), ("2,0,0 RedstoneWire", "-S-S")],
    ),
    written(
        "four dust in a square",
        &[
            ("0,0,0 RedstoneWire", "-SS-"),
            ("0,0,1 RedstoneWire", "SS--"),
            ("1,0,0 RedstoneWire", "--SS"),
            ("1,0,1 RedstoneWire", "S--S"),
        ],
    ),
    written(
        "a cross of dust",
        &[
            ("-1,0,0 RedstoneWire", "-S-S"),
            ("0,0,-1 RedstoneWire", "S-S-"),
            ("0,0,0 RedstoneWire", "SSSS"),
            ("0,0,1 RedstoneWire", "S-S-"),
            ("1,0,0 RedstoneWire", "-S-S"),
        ],
    ),
    written(
        "a line with a lever at its side",
        &[
            ("0,0,0 RedstoneWire", "-S-S"),
            ("1,0,0 RedstoneWire", "-SSS"),
            ("1,0,1 Lever", ""),
            ("2,0,0 RedstoneWire", "-S-S"),
        ],
    ),
    written(
        "one arm up",
        &[("0,0,0 RedstoneWire", "-U-S"), ("1,0,0 Solid", ""), ("1,1,0 RedstoneWire", "-S-S")],
    ),
    written(
        "two arms up",
        &[
            ("-1,0,0 Transparent", ""),
            ("-1,1,0 RedstoneWire", "-S-S"),
            ("0,0,0 RedstoneWire", "-U-U"),
            ("1,0,0 RedstoneLamp", ""),
            ("1,1,0 RedstoneWire", "-S-S"),
        ],
    ),
    written(
        "an arm up and one to a lever",
        &[
            ("0,0,0 RedstoneWire", "-US-"),
            ("0,0,1 Lever powered=true", ""),
            ("1,0,0 CopperBulb powered=true", ""),
            ("1,1,0 RedstoneWire", "-S-S"),
        ],
    ),
    written(
        "four arms up",
        &[
            ("-1,0,0 Solid", ""),
            ("-1,1,0 RedstoneWire", "-S-S"),
            ("0,0,-1 Solid", ""),
            ("0,1,-1 RedstoneWire", "S-S-"),
            ("0,0,0 RedstoneWire", "UUUU"),
            ("0,0,1 Solid", ""),
            ("0,1,1 RedstoneWire", "S-S-"),
            ("1,0,0 Solid", ""),
            ("1,1,0 RedstoneWire", "-S-S"),
        ],
    ),
    written(
        "arms up by four shapes",
        &[
            ("-1,0,0 Solid shape=bottom_stairs", ""),
            ("-1,1,0 RedstoneWire", "-S-S"),
            ("0,0,-1 Piston shape=glass", ""),
            ("0,1,-1 RedstoneWire", "S-S-"),
            ("0,0,0 RedstoneWire", "UUS-"),
            ("0,0,1 Solid shape=top_stairs", ""),
            ("0,1,1 RedstoneWire", "S-S-"),
            ("1,0,0 Piston shape=double_slab", ""),
            ("1,1,0 RedstoneWire", "-S-S"),
        ],
    ),
    written(
        "a top slab has its arm to the side",
        &[("0,0,0 RedstoneWire", "-S-S"), ("1,0,0 Solid shape=top_slab", ""), ("1,1,0 RedstoneWire", "-S-S")],
    ),
    written(
        "a bottom slab has none",
        &[
            ("0,0,0 RedstoneWire", "----"),
            ("1,0,0 Solid shape=bottom_slab", ""),
            ("1,1,0 RedstoneWire", "-S-S"),
        ],
    ),
    written(
        "a piston has none",
        &[("0,0,0 RedstoneWire", "----"), ("1,0,0 Piston powered=true", ""), ("1,1,0 RedstoneWire", "-S-S")],
    ),
    written(
        "a solid block over the lower dust",
        &[
            ("0,0,0 RedstoneWire", "----"),
            ("0,1,0 Solid", ""),
            ("1,0,0 Solid", ""),
            ("1,1,0 RedstoneWire", "----"),
        ],
    ),
    written(
        "a double slab over the lower dust",
        &[
            ("0,0,0 RedstoneWire", "----"),
            ("0,1,0 Piston shape=double_slab", ""),
            ("1,0,0 Solid", ""),
            ("1,1,0 RedstoneWire", "----"),
        ],
    ),
    written(
        "a lamp over the lower dust",
        &[
            ("0,0,0 RedstoneWire", "-U-S"),
            ("0,1,0 RedstoneLamp powered=true", ""),
            ("1,0,0 Solid", ""),
            ("1,1,0 RedstoneWire", "----"),
        ],
    ),
    written(
        "glass over the lower dust",
        &[
            ("0,0,0 RedstoneWire", "-U-S"),
            ("0,1,0 Solid shape=glass", ""),
            ("1,0,0 Solid", ""),
            ("1,1,0 RedstoneWire", "----"),
        ],
    ),
    written(
        "dust below an empty position",
        &[("0,1,0 RedstoneWire", "-S-S"), ("1,0,0 RedstoneWire", "----")],
    ),
    written(
        "dust below a block",
        &[("0,1,0 RedstoneWire", "----"), ("1,0,0 RedstoneWire", "----"), ("1,1,0 Solid", "")],
    ),
    written(
        "a staircase",
        &[
            ("0,0,0 RedstoneWire", "-U-S"),
            ("1,0,0 Solid", ""),
            ("1,1,0 RedstoneWire", "-U-S"),
            ("2,1,0 Solid", ""),
            ("2,2,0 RedstoneWire", "-S-S"),
        ],
    ),
    written(
        "repeaters along their facing and across",
        &[
            ("-1,0,0 Repeater facing=West powered=true", ""),
            ("0,0,-1 Repeater facing=East", ""),
            ("0,0,0 RedstoneWire", "--SS"),
            ("0,0,1 Repeater facing=North delay=3", ""),
            ("1,0,0 Repeater facing=South", ""),
        ],
    ),
    written(
        "comparators along their facing and across",
        &[
            ("-1,0,0 Comparator facing=Up powered=true", ""),
            ("0,0,-1 Comparator facing=South level=15 mode=subtract", ""),
            ("0,0,0 RedstoneWire", "S-S-"),
            ("0,0,1 Comparator", ""),
            ("1,0,0 Comparator facing=Down level=0", ""),
        ],
    ),
    written(
        "blocks that nothing leads to",
        &[
            ("-1,0,0 Solid powered=true", ""),
            ("0,0,-1 RedstoneLamp powered=true", ""),
            ("0,0,0 RedstoneWire", "----"),
            ("0,0,1 Piston", ""),
            ("1,0,0 CopperBulb powered=true", ""),
        ],
    ),
    written(
        "blocks over and under the dust",
        &[("0,-1,0 Lever", ""), ("0,0,0 RedstoneWire", "----"), ("0,1,0 RedstoneTorch", "")],
    ),
    written(
        "arms stored in rows that are not dust",
        &[
            ("-1,0,0 Solid arms=North:Up,East:Side,South:None,West:Up", ""),
            ("0,0,0 RedstoneWire", "-S-S"),
            ("1,0,0 Lever arms=North:Up", ""),
            ("2,0,0 RedstoneTorch arms=none", ""),
        ],
    ),
    written(
        "dust with every field",
        &[
            (
                "0,0,0 RedstoneWire facing=Up powered=true level=200 delay=9 support=1,1,1 arms=North:Up,East:None,South:Side shape=glass mode=subtract",
                "-S-S",
            ),
            ("1,0,0 RedstoneWire facing=West powered=false level=0 support=0,-1,0 shape=double_slab", "-S-S"),
        ],
    ),
    written(
        "dust whose arms point past each other",
        &[
            ("0,0,0 RedstoneWire arms=North:Side,East:None,West:None", "-S-S"),
            ("1,0,0 RedstoneWire arms=West:None,South:Up", "-S-S"),
            ("2,0,0 RedstoneWire arms=North:Up,West:None", "-S-S"),
        ],
    ),
    written(
        "dust whose arms are as they are drawn",
        &[
            ("0,0,0 RedstoneWire arms=East:Side,West:Side", "-S-S"),
            ("1,0,0 RedstoneWire arms=East:Side,West:Side", "-S-S"),
            ("2,0,0 Lever powered=true", ""),
        ],
    ),
    written(
        "rows at the ends of the ground",
        &[
            ("-1000000,-1000000,-1000000 RedstoneWire", "----"),
            ("999999,1000000,1000000 Lever powered=true", ""),
            ("1000000,1000000,1000000 RedstoneWire", "-S-S"),
        ],
    ),
    by_profile(
        "a profile by which nothing is stood on",
        "profile Lever=31",
        &[("0,0,0 RedstoneWire", "----"), ("1,0,0 Solid", ""), ("1,1,0 RedstoneWire", "-S-S")],
    ),
    by_profile(
        "a profile by which pistons are stood on",
        "profile Piston=1",
        &[("0,0,0 RedstoneWire", "-U-S"), ("1,0,0 Piston", ""), ("1,1,0 RedstoneWire", "-S-S")],
    ),
];

const fn written(what: &'static str, rows: &'static [(&'static str, &'static str)]) -> ByHand {
    by_profile(what, "", rows)
}

const fn by_profile(
    what: &'static str,
    profile: &'static str,
    rows: &'static [(&'static str, &'static str)],
) -> ByHand {
    ByHand { what, profile, rows }
}
