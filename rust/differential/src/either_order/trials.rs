//! Calls with their answers by hand: every kind beside dust, positions far away, and bytes 14 that are bad.

use redstone::{Arm, Facing, Kind, Row};

use super::{Stored, Switch, Trial, powered_of, stored};
use crate::damage;
use crate::generate::{BENCH_PROFILE_WITH_BULB, Case};
use crate::refusals::Refusal;
use crate::table::{ABOVE, HORIZONTAL, Position, moved};

/// 0, and numbers that are all the same to a switch.
pub const POWERS: [u32; 5] = [0, 1, 2, 15, u32::MAX];

/// A dust, and every kind and nothing to its East, in every facing and with every byte 14; switched at either and at an
/// empty position to the North, to every power.
pub fn kinds() -> impl Iterator<Item = Trial> {
    let facings = || (0..=6).map(|code| Facing::try_from(code).ok());
    let powered = || [None, Some(false), Some(true)].into_iter();
    let dust = Row::new(Kind::RedstoneWire, [0; 3]);
    let blocks = Kind::ALL.iter().flat_map(move |kind| {
        facings().flat_map(move |facing| {
            let block = Row::new(*kind, EAST).with_facing(facing);
            powered().map(move |powered| Some(block.with_powered(powered)))
        })
    });
    let of_dust =
        blocks.chain([None]).flat_map(move |block| powered().map(move |on| (dust.with_powered(on), block)));
    of_dust.flat_map(|(dust, block)| {
        let case = Case::new("every kind", BENCH_PROFILE_WITH_BULB, [dust].into_iter().chain(block));
        let drawn = drawn_beside(block.as_ref());
        let positions = [([0; 3], Some(0)), (EAST, block.map(|_| 1)), (NORTH, None)];
        positions.into_iter().flat_map(move |(at, switched)| {
            POWERS.map(|powered| Trial {
                switch: Switch::of(&case, at, powered),
                case: case.clone(),
                drawn: Ok(drawn.iter().copied().enumerate().collect()),
                switched: Ok(switched),
            })
        })
    })
}

const NORTH: Position = HORIZONTAL[0];
const EAST: Position = HORIZONTAL[1];

/// The arms of the dust, and those of what is to its East where that is dust, too.
fn drawn_beside(block: Option<&Row>) -> Vec<Stored> {
    let along = |facing| matches!(facing, Some(Facing::East | Facing::West));
    let arms = match block.map(|block| (block.kind(), along(block.facing()))) {
        Some((Kind::RedstoneWire, _)) => ["-S-S", "-S-S"].as_slice(),
        Some((Kind::Lever | Kind::Button | Kind::PressurePlate, _)) => &["-S-S"],
        Some((Kind::RedstoneTorch | Kind::RedstoneBlock, _)) => &["-S-S"],
        Some((Kind::Repeater | Kind::Comparator, true)) => &["-S-S"],
        _ => &["----"],
    };
    arms.iter().filter_map(|arms| stored(arms)).collect()
}

fn dust_and_lever(sort: &'static str) -> Case {
    let rows = [Row::new(Kind::RedstoneWire, [0; 3]), Row::new(Kind::Lever, EAST)];
    Case::new(sort, BENCH_PROFILE_WITH_BULB, rows)
}

/// A dust with a lever beside it, of which one has every bad value in byte 14, switched at either.
pub fn bad_powered() -> impl Iterator<Item = Trial> {
    let bytes = [0, 1].into_iter().flat_map(|row| (3..=u8::MAX).map(move |byte| (row, byte)));
    bytes.flat_map(|(row, byte)| {
        let mut case = dust_and_lever("bad byte 14");
        *powered_of(&mut case.table, row) = byte;
        let refusal = Refusal { number: 4, row };
        [[0; 3], EAST].map(|at| Trial {
            switch: Switch::of(&case, at, u32::from(byte % 2)),
            case: case.clone(),
            drawn: Err(refusal),
            switched: Err(refusal),
        })
    })
}

/// A dust with a lever beside it, and no rows, switched at positions about 0, about the ends of the ground and at those of
/// 32 bits.
pub fn far_positions() -> impl Iterator<Item = Trial> {
    const ALONG: [i32; 11] = [
        i32::MIN,
        i32::MIN + 1,
        -1_000_001,
        -1_000_000,
        -1,
        0,
        1,
        1_000_000,
        1_000_001,
        i32::MAX - 1,
        i32::MAX,
    ];
    let with_rows = dust_and_lever("far positions");
    let without = Case::new("no rows", BENCH_PROFILE_WITH_BULB, []);
    let positions =
        ALONG.into_iter().flat_map(|x| ALONG.into_iter().flat_map(move |y| ALONG.map(|z| [x, y, z])));
    positions.flat_map(move |at| {
        let switched = match at {
            [0, 0, 0] => Some(0),
            [1, 0, 0] => Some(1),
            _ => None,
        };
        let drawn = stored("-S-S").map(|arms| (0, arms)).into_iter().collect();
        let of_case = |case: &Case, drawn: Vec<_>, switched| {
            let (case, drawn) = (case.clone(), Ok(drawn));
            Trial { switch: Switch::of(&case, at, 1), case, drawn, switched: Ok(switched) }
        };
        [of_case(&with_rows, drawn, switched), of_case(&without, Vec::new(), None)]
    })
}

/// Every byte of a small table and of its profile set to every value. All that the redraw and the switch look at is given.
pub fn single_bytes() -> impl Iterator<Item = Case> {
    let given = |kind, at| {
        Row::new(kind, at).with_powered(false).with_arms([None, Some(Arm::Up), None, Some(Arm::None)])
    };
    let rows = [
        given(Kind::RedstoneWire, [0; 3]),
        given(Kind::Repeater, NORTH).with_facing(Facing::South).with_delay(1),
        given(Kind::Solid, EAST).with_support([0; 3]),
        given(Kind::RedstoneWire, moved(EAST, ABOVE)).with_power_level(0),
    ];
    damage::single_bytes(Case::new("single bytes", BENCH_PROFILE_WITH_BULB, rows))
}
