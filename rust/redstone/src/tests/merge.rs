//! Two tables in one: what is answered and written, and the reason of every refusal.

use std::collections::BTreeMap;

use super::UNTOUCHED;
use crate::row::AFTER_POSITION;
use crate::{
    BENCH_PROFILE_WITH_BULB, Circuit, FARTHEST, FARTHEST_OFFSET, Facing, Fault, Kind, MERGE_BYTES, MOST_ROWS,
    ROW_BYTES, Refusal, Row, Shape, WhichTable, checks, clashes, merge, merged, rows, table,
};

/// What the call takes.
#[derive(Clone)]
struct Input {
    first: Vec<u8>,
    second: Vec<u8>,
    offset: [i32; 3],
    room: usize,
}

/// The comparator's row in both tables of a small input.
const COMPARATOR: usize = 1;

impl Input {
    fn new(
        first: impl IntoIterator<Item = Row>,
        second: impl IntoIterator<Item = Row>,
        offset: [i32; 3],
    ) -> Self {
        Self { first: table(first), second: table(second), offset, room: MERGE_BYTES }
    }

    /// Two tables that have the first of their three rows in common.
    fn small() -> Self {
        let rows = |x| [solid([0, 0, 0]), comparator([x, 0, 0]), solid([x + 1, 0, 0])];
        Self::new(rows(1), rows(3), [0; 3])
    }

    /// What the call answers. It writes its answer's rows alone, and nothing where it is refused; the reason has the
    /// number and the row of the answer; and where it is not refused the tests for the reason find nothing.
    fn answer(&self) -> Result<Vec<u8>, Refusal> {
        let Self { first, second, offset, room } = self;
        let mut out = vec![UNTOUCHED; *room];
        let answer = merge(first, second, *offset, &mut out);
        let written = answer.map_or(0, |count| ROW_BYTES * count);
        assert!(out[written..].iter().all(|byte| *byte == UNTOUCHED));
        let found = checks::merge(first, second, *offset, *room).err();
        assert_eq!(answer.err().map(|refusal| refusal.fault), found);
        if let Err(Refusal { number, row, fault }) = answer {
            assert_eq!((fault.number(), fault.row()), (number, row));
        }
        out.truncate(written);
        answer.map(|_| out)
    }

    fn refusal(&self) -> Refusal {
        self.answer().expect_err("a refusal")
    }

    /// What a changed small input is refused with.
    fn message(change: impl FnOnce(&mut Self)) -> String {
        let mut input = Self::small();
        change(&mut input);
        input.refusal().fault.to_string()
    }
}

fn solid(position: [i32; 3]) -> Row {
    Row::new(Kind::Solid, position)
}

fn comparator(position: [i32; 3]) -> Row {
    Row::new(Kind::Comparator, position).with_power_level(15)
}

fn positions(table: &[u8]) -> Vec<[i32; 3]> {
    rows(table).expect("rows").iter().map(Row::position).collect()
}

/// The rows of both by their positions, of which the map has each once and in order.
fn by_map(first: &[Row], second: &[Row], [dx, dy, dz]: [i32; 3]) -> Vec<u8> {
    let moved = second.iter().map(|row| {
        let [x, y, z] = row.position();
        row.with_position([x + dx, y + dy, z + dz])
    });
    let all: BTreeMap<_, _> =
        first.iter().copied().chain(moved).map(|row| (row.position(), row.bytes())).collect();
    all.into_values().flatten().collect()
}

#[test]
fn every_row_of_both_is_written_once_and_in_order() {
    // A row in three of a cube, and another row in two: none of them clash.
    let cube = (0..5).flat_map(|x| (0..5).flat_map(move |y| (0..5).map(move |z| [x, y, z])));
    let places: Vec<[i32; 3]> = cube.collect();
    let every = |step| places.iter().copied().step_by(step).map(solid).collect::<Vec<_>>();
    let (first, second) = (every(3), every(2));
    let mut shared = 0;
    for dx in [-6, -1, 0, 2] {
        for dy in [-2, 0, 1] {
            for dz in [-1, 0, 7] {
                let offset = [dx, dy, dz];
                let input = Input::new(first.iter().copied(), second.iter().copied(), offset);
                let written = input.answer().expect("an accepted merge");
                assert_eq!(written, by_map(&first, &second, offset), "{offset:?}");
                assert_eq!(merged(&input.first, &input.second, offset), Ok(written.clone()));
                shared += (input.first.len() + input.second.len() - written.len()) / ROW_BYTES;
            }
        }
    }
    assert!(shared > 0);
}

#[test]
fn a_table_and_none_are_that_table_moved() {
    let small = Input::small();
    let first = small.first.clone();
    assert_eq!(merged(&[], &[], [0; 3]), Ok(vec![]));
    assert_eq!(merged(&first, &[], [5, 6, 7]), Ok(first.clone()));
    assert_eq!(merged(&first, &first, [0; 3]), Ok(first.clone()));
    let moved = merged(&[], &first, [5, 6, -7]).expect("an accepted merge");
    assert_eq!(positions(&moved), [[5, 6, -7], [6, 6, -7], [7, 6, -7]]);
    assert_eq!(merged(&[], &moved, [-5, -6, 7]), Ok(first));
}

#[test]
fn a_row_may_come_from_any_place_to_any_place() {
    let (near, far) = ([-FARTHEST; 3], [FARTHEST; 3]);
    for (from, to, by) in [(near, far, FARTHEST_OFFSET), (far, near, -FARTHEST_OFFSET)] {
        let moved = merged(&[], &table([solid(from)]), [by; 3]).expect("an accepted merge");
        assert_eq!(positions(&moved), [to]);
        // One further on any axis is off the ground, and so is an offset that is too large.
        for axis in 0..3 {
            let mut offset = [0; 3];
            offset[axis] = by.signum();
            assert_eq!(Input::new([], [solid(to)], offset).refusal().number, 11);
            offset[axis] = by + by.signum();
            assert_eq!(Input::new([], [], offset).refusal().number, 11);
            assert_eq!(Input::new([], [solid(from)], offset).refusal().number, 11);
        }
    }
    for offset in [[i32::MIN; 3], [i32::MAX; 3]] {
        assert_eq!(Input::new([solid(near)], [solid(near), solid(far)], offset).refusal().number, 11);
    }
}

/// There is no profile that could lack their byte.
#[test]
fn bulbs_are_merged() {
    let bulb = Row::new(Kind::CopperBulb, [0, 0, 0]).with_powered(true);
    let both = Input::new([bulb], [bulb, bulb.with_position([1, 0, 0])], [0; 3]).answer();
    assert_eq!(both, Ok(table([bulb, bulb.with_position([1, 0, 0])])));
}

#[test]
fn as_many_rows_as_a_table_may_have_are_merged() {
    let line = |from: i32, number: usize| (from..).take(number).map(|x| solid([x, 0, 0]));
    for shared in [0, 1, 24, 500] {
        let second = 500;
        let first = MOST_ROWS + shared - second;
        let from = (first - shared) as i32;
        let input = Input::new(line(0, first), line(0, second), [from, 0, 0]);
        assert_eq!(input.answer(), Ok(table(line(0, MOST_ROWS))));
        let one_more = Input::new(line(0, first), line(0, second + 1), [from, 0, 0]);
        assert_eq!(
            one_more.refusal().fault,
            Fault::CrowdedTogether { first, second: second + 1, shared },
            "{shared} shared"
        );
    }
}

/// Each part of a row counts, but for its position, which is moved.
#[test]
fn rows_at_one_position_are_the_same_or_clash() {
    let block = solid([4, 5, 6]);
    let others = [
        block.with_kind(Kind::Transparent),
        block.with_facing(Facing::Up),
        block.with_powered(false),
        block.with_power_level(0),
        block.with_delay(0),
        block.with_support([0, 0, 0]),
        block.with_arms([None; 4]),
        block.with_shape(Shape::Glass),
        block.with_subtract(true),
    ];
    let names = [
        "kind",
        "facing",
        "powered",
        "power level given",
        "delay given",
        "support offset given",
        "arms stored",
        "shape",
        "subtract",
    ];
    for (other, name) in others.into_iter().zip(names) {
        let input = Input::new([block], [other.with_position([0; 3])], [4, 5, 6]);
        match input.refusal().fault {
            Fault::Clash(clash) => {
                assert_eq!((clash.position, clash.first, clash.second, clash.field), ([4, 5, 6], 0, 0, name));
                assert_eq!(clash.values, [block.bytes()[clash.byte], other.bytes()[clash.byte]]);
            }
            fault => panic!("{fault}"),
        }
        assert_eq!(Input::new([other], [other], [0; 3]).answer(), Ok(table([other])));
    }
    let bytes = AFTER_POSITION.map(|field| field.at);
    assert_eq!(bytes.to_vec(), (12..ROW_BYTES).collect::<Vec<_>>());
}

#[test]
fn all_clashes_are_found() {
    let line = |kinds: [Kind; 4]| table((0..).zip(kinds).map(|(x, kind)| Row::new(kind, [x, 0, 0])));
    let (solid, glass) = (Kind::Solid, Kind::Transparent);
    let (first, second) = (line([solid, solid, glass, solid]), line([glass, solid, solid, glass]));
    let found = |offset| -> Vec<_> {
        clashes(&first, &second, offset).map(|clash| (clash.position[0], clash.first, clash.second)).collect()
    };
    assert_eq!(found([0; 3]), [(0, 0, 0), (2, 2, 2), (3, 3, 3)]);
    assert_eq!(found([2, 0, 0]), []);
    assert_eq!(found([1, 0, 0]), [(1, 1, 0), (2, 2, 1)]);
    assert_eq!(found([-1, 0, 0]), []);
    assert_eq!(found([0, 1, 0]), []);
    assert_eq!(found([i32::MAX; 3]), []);
}

/// Makes something wrong.
type Change = fn(&mut Input);

const NOTHING: Change = |_| {};

/// What is wrong, in the order in which it is tested, with the table at fault and its row.
const FAULTS: [(Change, u32, Option<WhichTable>, usize); 15] = [
    (|input| input.first.push(0), 2, FIRST, 0),
    (|input| input.first.extend([0; MERGE_BYTES]), 3, FIRST, 0),
    (|input| input.first[2 * ROW_BYTES + 31] = 1, 4, FIRST, 2),
    (|input| input.first.copy_within(ROW_BYTES..ROW_BYTES + 12, 2 * ROW_BYTES), 5, FIRST, 2),
    (|input| input.first[COMPARATOR * ROW_BYTES + 16] = 16, 10, FIRST, COMPARATOR),
    (|input| input.second.push(0), 2, SECOND, 0),
    (|input| input.second.extend([0; MERGE_BYTES]), 3, SECOND, 0),
    (|input| input.second[2 * ROW_BYTES + 31] = 1, 4, SECOND, 2),
    (|input| input.second.copy_within(ROW_BYTES..ROW_BYTES + 12, 2 * ROW_BYTES), 5, SECOND, 2),
    (|input| input.second[COMPARATOR * ROW_BYTES + 16] = 16, 10, SECOND, COMPARATOR),
    (|input| input.room -= 1, 7, None, 0),
    (|input| input.offset[1] = FARTHEST_OFFSET + 1, 11, None, 0),
    (|input| input.offset[0] = FARTHEST - 3, 11, SECOND, 0),
    (|input| input.second[12] = 2, 12, None, 0),
    (add_many, 3, None, 0),
];
const FIRST: Option<WhichTable> = Some(WhichTable::First);
const SECOND: Option<WhichTable> = Some(WhichTable::Second);

/// Rows after those that each table has, none of them shared.
fn add_many(input: &mut Input) {
    let line = |x: i32| table((0..600).map(move |z| solid([x, 0, z])));
    input.first.extend(line(100));
    input.second.extend(line(200));
}

#[test]
fn of_two_faults_the_first_is_told() {
    for (at, (change, number, table, row)) in FAULTS.into_iter().enumerate() {
        let later = FAULTS.into_iter().skip(at + 1).map(|(later, ..)| later);
        for later in later.chain([NOTHING]) {
            let mut input = Input::small();
            change(&mut input);
            later(&mut input);
            let refusal = input.refusal();
            assert_eq!((refusal.number, refusal.fault.table(), refusal.row), (number, table, row), "{at}");
        }
    }
}

/// How the C header says to find out which table is at fault.
#[test]
fn without_the_second_table_a_fault_of_the_first_alone_is_told_again() {
    for (change, number, table, row) in FAULTS {
        let mut input = Input::small();
        change(&mut input);
        let alone = Input { second: vec![], ..input };
        let again = alone.answer().err().map(|refusal| (refusal.number, refusal.row));
        if table == FIRST {
            assert_eq!(again, Some((number, row)));
        } else {
            assert!([None, Some((7, 0)), Some((11, 0))].contains(&again), "{again:?}");
        }
    }
}

/// One row of the second table clashes, and the next is off the ground.
#[test]
fn off_ground_is_told_before_a_clash() {
    let second = [solid([FARTHEST - 1, 0, 0]).with_kind(Kind::Piston), solid([FARTHEST, 0, 0])];
    let first = solid([FARTHEST, 0, 0]);
    assert_eq!(Input::new([first], second, [1, 0, 0]).refusal().number, 11);
    assert_eq!(Input::new([first], [second[0]], [1, 0, 0]).refusal().number, 12);
}

/// A row of the second table is read as it is given: one off the ground is bad, though the offset would mend it.
#[test]
fn the_second_table_is_judged_before_it_is_moved() {
    let far = solid([FARTHEST + 1, 0, 0]);
    let refusal = Input::new([], [far], [-5, 0, 0]).refusal();
    assert_eq!((refusal.number, refusal.row, refusal.fault.table()), (4, 0, SECOND));
}

/// The first table of an input, and the second.
const TABLES: [fn(&mut Input) -> &mut Vec<u8>; 2] = [|input| &mut input.first, |input| &mut input.second];

/// Every byte of both tables set to every value, and every length of all that is lent.
#[test]
fn reasons_agree_with_the_answers() {
    let input = Input::small();
    let (mut accepted, mut numbers) = (0, BTreeMap::new());
    let mut count = |input: &Input| match input.answer() {
        Ok(_) => accepted += 1,
        Err(refusal) => *numbers.entry(refusal.number).or_insert(0) += 1,
    };
    for of in TABLES {
        let mut tried = input.clone();
        for at in 0..of(&mut tried).len() {
            let byte = of(&mut tried)[at];
            for value in 0..=u8::MAX {
                of(&mut tried)[at] = value;
                count(&tried);
            }
            of(&mut tried)[at] = byte;
        }
        for length in (0..=3 * ROW_BYTES).chain([ROW_BYTES * MOST_ROWS, ROW_BYTES * (MOST_ROWS + 1)]) {
            let mut tried = input.clone();
            of(&mut tried).resize(length, 0);
            count(&tried);
        }
    }
    for room in (0..100).chain([MERGE_BYTES - ROW_BYTES, MERGE_BYTES - 1, MERGE_BYTES + 1, 2 * MERGE_BYTES]) {
        count(&Input { room, ..input.clone() });
    }
    for axis in 0..3 {
        for part in
            [i32::MIN, -FARTHEST_OFFSET - 1, -FARTHEST_OFFSET, -1, 1, FARTHEST, FARTHEST_OFFSET, i32::MAX]
        {
            let mut tried = input.clone();
            tried.offset[axis] = part;
            count(&tried);
        }
    }
    assert!(accepted > 0);
    assert_eq!(numbers.into_keys().collect::<Vec<_>>(), [2, 3, 4, 5, 7, 10, 11, 12]);
}

#[test]
fn each_reason_says_which_table_and_what_would_be_right() {
    for (of, which, x) in [(TABLES[0], "first", 1), (TABLES[1], "second", 3)] {
        assert_eq!(
            Input::message(|input| of(input).push(0)),
            format!("the {which} table has length 97; it must be 32 for each row")
        );
        assert_eq!(
            Input::message(|input| of(input).resize(32 * 1025, 0)),
            format!("the {which} table has 1025 rows; it may have at most 1024")
        );
        assert_eq!(
            Input::message(|input| of(input)[ROW_BYTES + 29] = 2),
            format!("row 1 of the {which} table at {x},0,0: subtract (byte 29) is 2; it may be from 0 to 1")
        );
        assert_eq!(
            Input::message(|input| of(input)[0] = 9),
            format!(
                "row 1 of the {which} table at {x},0,0 comes after row 0 at 9,0,0; the order is by x, then y, then z"
            )
        );
        assert_eq!(
            Input::message(|input| of(input).copy_within(0..12, ROW_BYTES)),
            format!("rows 0 and 1 of the {which} table are both at 0,0,0; each position may be there once")
        );
        assert_eq!(
            Input::message(|input| of(input)[ROW_BYTES + 16] = 200),
            format!(
                "row 1 of the {which} table at {x},0,0: power level (byte 16) is 200; a comparator's may be at most 15"
            )
        );
    }
    assert_eq!(
        Input::message(|input| input.room = 96),
        "the room for the merged table has length 96; it must be 32768, whatever the tables have"
    );
    assert_eq!(
        Input::message(|input| input.offset = [0, -2_000_001, i32::MAX]),
        "the offset's dy is -2000001; it may be from -2000000 to 2000000"
    );
    assert_eq!(
        Input::message(|input| input.offset = [999_997, 0, 0]),
        "row 2 of the second table at 4,0,0 would come to 1000001,0,0, and a coordinate may be from -1000000 to \
         1000000; with this table dx may be from -1000000 to 999996"
    );
    assert_eq!(
        Input::message(|input| input.offset = [0, 0, -1_000_001]),
        "row 0 of the second table at 0,0,0 would come to 0,0,-1000001, and a coordinate may be from -1000000 to \
         1000000; with this table dz may be from -1000000 to 1000000"
    );
    assert_eq!(
        Input::message(|input| input.offset = [-1, 0, 0]),
        "row 2 of the first table and row 1 of the second, once moved, are both at 2,0,0, and kind (byte 12) is 1 in \
         the first and 6 in the second; at one position the 32 bytes must be the same"
    );
    assert_eq!(
        Input::message(add_many),
        "the first table has 603 rows and the second 603, 1 of them shared: together they have 1205; they may have at \
         most 1024"
    );
}

/// Every offset that a reason says is good is, and the ones beside it are not.
#[test]
fn the_offsets_that_a_reason_gives_are_all_that_are_good() {
    let second = [solid([-30, 7, 0]), solid([12, -400_000, FARTHEST])];
    for (offset, limits) in [
        ([FARTHEST, 0, 0], (-999_970, 999_988)),
        ([0, -FARTHEST, 0], (-600_000, 999_993)),
        ([0, 0, 1], (-1_000_000, 0)),
    ] {
        let Fault::OffGround { axis, least, most, .. } = Input::new([], second, offset).refusal().fault
        else {
            panic!("a row off the ground")
        };
        assert_eq!((least, most), limits);
        let at = |value| {
            let mut offset = [0; 3];
            offset["xyz".find(axis).expect("an axis")] = value;
            Input::new([], second, offset).answer().err().map(|refusal| refusal.number)
        };
        assert_eq!([least - 1, least, most, most + 1].map(at), [Some(11), None, None, Some(11)]);
    }
}

/// A lever's room and a lamp's, drawn apart, work as one.
#[test]
fn a_merged_circuit_runs() {
    let dust = |x| Row::new(Kind::RedstoneWire, [x, 1, 0]);
    let lever = Row::new(Kind::Lever, [0, 1, 0]).with_powered(true);
    let first = table([lever, dust(1), dust(2)]);
    let second = table([dust(0), dust(1), Row::new(Kind::RedstoneLamp, [1, 0, 0])]);
    let both = merged(&first, &second, [2, 0, 0]).expect("an accepted merge");
    let circuit = Circuit::from_table(&BENCH_PROFILE_WITH_BULB, both).expect("an accepted table");
    assert_eq!(circuit.settled().signal(), [15, 15, 14, 0, 13]);
    assert_eq!(circuit.settled().weak(), [0, 0, 0, 13, 0]);
}
