//! Rows and tables both ways: codes, names, fields and bytes.

use std::fmt::{Debug, Display};
use std::str::FromStr;

use crate::{
    Arm, BENCH_PROFILE_WITH_BULB, Columns, FARTHEST, Facing, Fault, Kind, ROW_BYTES, Row, RowError, Shape,
    WhichTable, find, rows, settle, table,
};

/// A row with every field.
fn full() -> Row {
    Row::new(Kind::Comparator, [1, -2, FARTHEST])
        .with_facing(Facing::West)
        .with_powered(true)
        .with_power_level(12)
        .with_delay(200)
        .with_support([1, 0, -1])
        .with_arms([Some(Arm::None), Some(Arm::Side), Some(Arm::Up), None])
        .with_shape(Shape::Glass)
        .with_subtract(true)
}

/// A row with no field.
fn bare() -> Row {
    Row::new(Kind::Solid, [0; 3])
}

#[test]
fn a_row_packs_each_field() {
    let bytes = [
        [1, 0, 0, 0, 0xfe, 0xff, 0xff, 0xff],
        [0x40, 0x42, 0x0f, 0, 6, 4, 2, 1],
        [12, 1, 200, 1, 1, 0, 255, 1],
        [1, 2, 3, 0, 6, 1, 0, 0],
    ];
    assert_eq!(full().bytes(), bytes.as_flattened());
    for (kind, code) in [(Kind::Piston, 12), (Kind::CopperBulb, 13)] {
        assert_eq!(Row::new(kind, [0; 3]).bytes()[12..], [[code].as_slice(), &[0; 19]].concat());
    }
    assert_eq!(bare().with_powered(false).bytes()[14], 1);
}

#[test]
fn a_row_has_each_field_and_can_lose_it() {
    let row = full();
    assert_eq!((row.kind(), row.position()), (Kind::Comparator, [1, -2, FARTHEST]));
    assert_eq!((row.facing(), row.powered()), (Some(Facing::West), Some(true)));
    assert_eq!((row.power_level(), row.delay(), row.support()), (Some(12), Some(200), Some([1, 0, -1])));
    assert_eq!(row.arms(), Some([Some(Arm::None), Some(Arm::Side), Some(Arm::Up), None]));
    assert_eq!((row.shape(), row.subtract()), (Shape::Glass, true));
    let cleared = row
        .with_kind(Kind::Solid)
        .with_position([0; 3])
        .with_facing(None)
        .with_powered(None)
        .with_power_level(None)
        .with_delay(None)
        .with_support(None)
        .with_arms(None)
        .with_shape(Shape::Plain)
        .with_subtract(false);
    assert_eq!(cleared, bare());
}

/// The number that the proved call refuses a row with.
fn refused(row: &[u8; ROW_BYTES]) -> Option<u32> {
    let columns = Columns { signal: &mut [0], weak: &mut [0], strong: &mut [0] };
    let refusal = settle(&BENCH_PROFILE_WITH_BULB, row, &[0], 17, columns).err()?;
    assert_eq!(refusal.row, 0);
    Some(refusal.number)
}

/// A row is read exactly where a call does not find it bad, and packs to the bytes that it was read from. A comparator
/// with a level above 15 is not bad: it is read, and refused for its level.
#[test]
fn a_row_is_read_where_the_calls_accept_it_or_its_level_alone_is_too_large() {
    let lever = Row::new(Kind::Lever, [0; 3]).with_power_level(200);
    for row in [full(), bare(), lever] {
        assert_eq!(Row::try_from(row.bytes()), Ok(row));
        for at in 0..ROW_BYTES {
            for value in 0..=u8::MAX {
                let mut bytes = row.bytes();
                bytes[at] = value;
                match Row::try_from(bytes) {
                    Ok(read) => {
                        let is_overdriven = read.kind() == Kind::Comparator && read.power_level() > Some(15);
                        assert_eq!(refused(&bytes), is_overdriven.then_some(10), "byte {at} is {value}");
                        assert_eq!(read.bytes(), bytes);
                    }
                    Err(field) => {
                        assert_eq!(refused(&bytes), Some(4), "byte {at} is {value}");
                        assert!(field.byte().abs_diff(at) <= 4, "byte {at}: {field}");
                    }
                }
            }
        }
    }
}

#[test]
fn a_row_is_32_bytes() {
    let bytes = full().bytes();
    assert_eq!(Row::try_from(&bytes[..]), Ok(full()));
    assert_eq!(Row::try_from(&bytes[..31]), Err(RowError::Length(31)));
    assert_eq!(RowError::Length(31).to_string(), "a row has 32 bytes, and here are 31");
}

#[test]
fn a_bad_field_says_what_it_may_be() {
    let message = |at: usize, value| {
        let mut bytes = bare().bytes();
        bytes[at] = value;
        Row::try_from(bytes).expect_err("the field is bad").to_string()
    };
    assert_eq!(message(3, 1), "x (byte 0) is 16777216; it may be from -1000000 to 1000000");
    assert_eq!(
        message(12, 0),
        "kind (byte 12) is 0; it may be 1 Solid, 2 Transparent, 3 RedstoneWire, 4 RedstoneTorch, 5 Repeater, \
         6 Comparator, 7 Lever, 8 Button, 9 PressurePlate, 10 RedstoneLamp, 11 RedstoneBlock, 12 Piston or \
         13 CopperBulb"
    );
    assert_eq!(
        message(13, 7),
        "facing (byte 13) is 7; it may be 0 missing, 1 North, 2 East, 3 South, 4 West, 5 Up or 6 Down"
    );
    assert_eq!(message(15, 2), "power level given (byte 15) is 2; it may be from 0 to 1");
    assert_eq!(message(16, 9), "power level (byte 16) is 9; it must be 0, as power level given (byte 15) is");
    assert_eq!(
        message(21, 255),
        "support dy (byte 21) is 255; it must be 0, as support offset given (byte 19) is"
    );
    assert_eq!(message(30, 1), "unused (byte 30) is 1; it must be 0");
    let mut bytes = full().bytes();
    bytes[21] = 254;
    let bad = Row::try_from(bytes).expect_err("the field is bad");
    assert_eq!(bad.to_string(), "support dy (byte 21) is -2; it may be from -1 to 1");
}

/// Each value's code and name lead back to it, and no other code or name does.
fn both_ways<T>(all: &[T], first: u8)
where
    T: Copy + Debug + Display + Eq + FromStr<Err: Debug> + TryFrom<u8, Error: Debug>,
    u8: From<T>,
{
    let mut known = 0..all.len();
    for code in 0..=u8::MAX {
        match T::try_from(code) {
            Ok(value) => {
                assert_eq!((value, u8::from(value)), (all[known.next().expect("one of all")], code));
                assert_eq!(value.to_string().parse::<T>().expect("a name"), value);
                assert_eq!(value.to_string(), format!("{value:?}"));
            }
            Err(_) => assert!(code < first || known.is_empty(), "{code}"),
        }
    }
    assert!(known.is_empty());
    assert!("solid ".parse::<T>().is_err());
}

#[test]
fn codes_and_names_go_both_ways() {
    both_ways(Kind::ALL, 1);
    both_ways(Facing::ALL, 1);
    both_ways(Arm::ALL, 1);
    both_ways(Shape::ALL, 0);
}

#[test]
fn an_unknown_code_or_name_says_what_there_is() {
    let code = Arm::try_from(4).expect_err("no arm");
    assert_eq!((code.code(), code.to_string().as_str()), (4, "4 is no arm: give 1 None, 2 Side or 3 Up"));
    let name = "up".parse::<Arm>().expect_err("no arm");
    assert_eq!((name.name(), name.to_string().as_str()), ("up", "`up` is no arm: give None, Side or Up"));
}

#[test]
fn a_table_is_ordered_by_x_then_y_then_z() {
    let at = |position| Row::new(Kind::Solid, position);
    let rows = [[-1, 5, 5], [0, -1, 9], [0, 0, -7], [0, 0, 300], [0, 1, 0], [256, 0, 0]].map(at);
    let ordered = rows.map(|row| row.bytes());
    let mut other = rows;
    other.reverse();
    assert_eq!(table(other), ordered.as_flattened());
}

#[test]
fn a_table_is_read_and_looked_up() {
    let packed = table([full(), bare()]);
    assert_eq!(rows(&packed), Ok(vec![bare(), full()]));
    assert_eq!(rows(&[]), Ok(Vec::new()));
    assert_eq!(find(&packed, [0; 3]), Some(0));
    assert_eq!(find(&packed, full().position()), Some(1));
    assert_eq!(find(&packed, [0, 0, 1]), None);
    assert_eq!(find(&[], [0; 3]), None);
    assert_eq!(find(&[0; ROW_BYTES - 1], [0; 3]), None);
}

fn packed(positions: &[[i32; 3]]) -> Vec<u8> {
    positions.iter().flat_map(|position| Row::new(Kind::Solid, *position).bytes()).collect()
}

#[test]
fn a_look_up_ends_at_the_first_row_at_or_past_the_position() {
    let found = |places: &[i32]| {
        let rows: Vec<_> = places.iter().map(|x| [*x, 1, 0]).collect();
        [0, 1, 2, 3, 4, 5].map(|x| find(&packed(&rows), [x, 1, 0]))
    };
    assert_eq!(found(&[1, 2, 4]), [None, Some(0), Some(1), None, Some(2), None]);
    assert_eq!(found(&[4, 1, 2]), [None, None, None, None, Some(0), None]);
    assert_eq!(found(&[2, 4, 1]), [None, None, Some(0), None, Some(1), None]);
    assert_eq!(found(&[1, 2, 2, 4]), [None, Some(0), Some(1), None, Some(3), None]);
    assert_eq!(found(&[2, 2]), [None, None, Some(0), None, None, None]);
}

#[test]
fn a_look_up_orders_by_x_then_y_then_z() {
    for positions in [[[0, 1, 0], [1, 0, 0]], [[0, 0, 1], [0, 1, 0]], [[-1, 1, 0], [1, 1, 0]]] {
        assert_eq!(positions.map(|at| find(&packed(&positions), at)), [Some(0), Some(1)], "{positions:?}");
    }
}

#[test]
fn a_table_that_is_none_says_where() {
    let mut packed = table([full(), bare()]);
    assert_eq!(rows(&packed[..63]), Err(Fault::Ragged { table: WhichTable::Only, length: 63 }));
    packed[ROW_BYTES + 28] = 7;
    let fault = rows(&packed).expect_err("the shape is bad");
    assert!(
        matches!(fault, Fault::BadRow { row: 1, position: [1, -2, FARTHEST], field, .. } if field.byte() == 28)
    );
    assert_eq!(
        fault.to_string(),
        "row 1 at 1,-2,1000000: shape (byte 28) is 7; it may be 0 Plain, 1 BottomSlab, 2 TopSlab, 3 DoubleSlab, \
         4 BottomStairs, 5 TopStairs or 6 Glass"
    );
}
