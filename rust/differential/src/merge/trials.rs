//! Calls with their answers by hand.

use redstone::{FARTHEST, Facing, Kind, MOST_ROWS, ROW_BYTES, Row, table};

use super::{Merge, OUT_BYTES, Out, Trial};
use crate::refusals::Refusal;
use crate::table::{Position, back, moved_row};

/// An offset that is other on each axis.
const OFFSET: Position = [5, -7, 11];

fn refused(number: u32) -> Result<usize, Refusal> {
    Err(Refusal { number, row: 0 })
}

fn solid(position: Position) -> Row {
    Row::new(Kind::Solid, position)
}

/// Solid blocks at these places along the first axis.
pub fn blocks(places: impl IntoIterator<Item = i32>) -> Vec<u8> {
    blocks_from([0; 3], places)
}

/// The same, each that much farther back.
fn blocks_from(offset: Position, places: impl IntoIterator<Item = i32>) -> Vec<u8> {
    table(places.into_iter().map(|x| moved_row(&solid([x, 0, 0]), back(offset))))
}

fn at_axis(axis: usize, coordinate: i32) -> Position {
    let mut position = [0; 3];
    position[axis] = coordinate;
    position
}

/// The first table without rows, the second, and both. The rows stand where each of the offsets leaves them on the ground.
pub fn empty_tables() -> impl Iterator<Item = Trial> {
    [[0; 3], OFFSET, [1_999_998, -2_000_000, 2_000_000]].into_iter().flat_map(|offset| {
        let rows = table([0, 1, 2].map(|x| solid([x - FARTHEST, FARTHEST, -FARTHEST])));
        [
            Trial { merge: Merge::new([], [], offset), answer: Ok(0) },
            Trial { merge: Merge::new(&rows[..], [], offset), answer: Ok(3) },
            Trial { merge: Merge::new([], rows, offset), answer: Ok(3) },
        ]
    })
}

/// Offsets about both ends.
const OFFSETS: [i32; 13] = [
    i32::MIN,
    i32::MIN + 1,
    -2_000_001,
    -2_000_000,
    -1_999_999,
    -1_000_001,
    0,
    1_000_001,
    1_999_999,
    2_000_000,
    2_000_001,
    i32::MAX - 1,
    i32::MAX,
];

fn is_far(along: i32) -> bool {
    !(-2_000_000..=2_000_000).contains(&along)
}

/// Every offset of these on all axes, and a second table without rows.
pub fn far_offsets() -> impl Iterator<Item = Trial> {
    let offsets = OFFSETS.iter().flat_map(|x| OFFSETS.iter().map(move |y| [*x, *y]));
    let offsets = offsets.flat_map(|[x, y]| OFFSETS.map(|z| [x, y, z]));
    offsets.flat_map(|offset| {
        let answer = |rows| if offset.into_iter().any(is_far) { refused(11) } else { Ok(rows) };
        [
            Trial { merge: Merge::new([], [], offset), answer: answer(0) },
            Trial { merge: Merge::new(blocks(0..2), [], offset), answer: answer(2) },
        ]
    })
}

/// Every offset of these on one axis, and a row at either end and at 0.
pub fn offsets() -> impl Iterator<Item = Trial> {
    let axes = (0..3).flat_map(|axis| OFFSETS.map(|along| (axis, along)));
    axes.flat_map(|(axis, along)| {
        [-FARTHEST, 0, FARTHEST].map(|from| {
            let first = table([solid([7; 3])]);
            let second = table([solid(at_axis(axis, from))]);
            let lands = !is_far(along) && (-FARTHEST..=FARTHEST).contains(&(from + along));
            let answer = if lands { Ok(2) } else { refused(11) };
            Trial { merge: Merge::new(first, second, at_axis(axis, along)), answer }
        })
    })
}

/// A row of three that comes to the end of each axis and past it, from several places. The other two stay on the ground.
pub fn ends() -> impl Iterator<Item = Trial> {
    let froms = [0, 1, -1, 999_999, -999_999, FARTHEST, -FARTHEST];
    let tos = (999_998..=1_000_002).flat_map(|to| [to, -to]);
    let ways = tos.flat_map(move |to| froms.map(|from| (from, to)));
    let ways = ways.filter(|(from, to)| !is_far(to - from));
    ways.flat_map(|(from, to)| [0, 1, 2].map(|axis| (axis, from, to))).flat_map(|(axis, from, to)| {
        [0, 1, 2].map(|which| {
            let offset = at_axis(axis, to - from);
            let others = (from - to).clamp(-FARTHEST, FARTHEST);
            let row = |place: i32| {
                let mut position = at_axis(axis, if place == which { from } else { others });
                position[(axis + 1) % 3] = place;
                solid(position)
            };
            let answer = if to.abs() <= FARTHEST { Ok(4) } else { refused(11) };
            Trial { merge: Merge::new(table([solid([9; 3])]), table([0, 1, 2].map(row)), offset), answer }
        })
    })
}

/// A row of either table that is past the end of an axis as it is given. The offset takes the second's back, where it can.
pub fn given_off_ground() -> impl Iterator<Item = Trial> {
    let pasts = [1_000_001, 1_000_002, 3_000_000, i32::MAX].into_iter().flat_map(|past| [past, -past]);
    let ways = pasts.flat_map(|past| [0, 1, 2_000_000].map(|along| (past, -along * past.signum())));
    ways.flat_map(|(past, along)| [0, 1, 2].map(|axis| [past, along].map(|number| at_axis(axis, number))))
        .flat_map(|[past, offset]| {
            let (good, bad) = (table([solid([7; 3])]), table([solid([-9; 3]), solid(past)]));
            let answer = Err(Refusal { number: 4, row: usize::from(past > [-9; 3]) });
            [[&good, &bad], [&bad, &good]]
                .map(|[first, second]| Trial { merge: Merge::new(&first[..], &second[..], offset), answer })
        })
}

/// Rows of the first table, of the second, and positions that are in both.
type Counts = [usize; 3];

const COUNTS: [Counts; 24] = [
    [0, 1023, 0],
    [0, 1024, 0],
    [1024, 0, 0],
    [1023, 0, 0],
    [511, 512, 0],
    [512, 512, 0],
    [512, 513, 0],
    [513, 512, 0],
    [1023, 1, 0],
    [1, 1023, 0],
    [1024, 1, 0],
    [1, 1024, 0],
    [1024, 1, 1],
    [1, 1024, 1],
    [1000, 1000, 977],
    [1000, 1000, 976],
    [1000, 1000, 975],
    [700, 400, 76],
    [700, 400, 75],
    [1024, 1024, 1024],
    [1024, 1024, 1023],
    [1024, 1024, 512],
    [1024, 1024, 1],
    [1024, 1024, 0],
];

/// How the second table's rows stand to the first's.
#[derive(Clone, Copy, Debug)]
pub enum Layout {
    After,
    Before,
    ByTurns,
}

impl Layout {
    pub const ALL: [Self; 3] = [Self::After, Self::Before, Self::ByTurns];

    /// The places of each table's rows.
    fn places(self, [first, second, shared]: Counts) -> [Vec<i32>; 2] {
        match self {
            Self::After => [places(0, first), places(first - shared, second)],
            Self::Before => [places(second - shared, first), places(0, second)],
            Self::ByTurns => by_turns([first, second, shared]),
        }
    }
}

fn places(from: usize, rows: usize) -> Vec<i32> {
    (from..from + rows).map(|place| place as i32).collect()
}

/// First the shared places, then one of the first's own and one of the second's, as long as there are.
fn by_turns([first, second, shared]: Counts) -> [Vec<i32>; 2] {
    let all = places(0, shared);
    let own = |rows: usize, turn: i32| (0..(rows - shared) as i32).map(move |place| 2 * place + turn);
    let with_own = |rows, turn| all.iter().copied().chain(own(rows, shared as i32 + turn)).collect();
    [with_own(first, 0), with_own(second, 1)]
}

/// A call on tables of so many rows, at an offset.
pub fn of_counts(counts: Counts, layout: Layout, offset: Position) -> Merge {
    let [first, second] = layout.places(counts);
    Merge::new(blocks(first), blocks_from(offset, second), offset)
}

/// About as many rows as a table may have, with shared ones and without.
pub fn most_rows() -> impl Iterator<Item = Trial> {
    let layouts = COUNTS.iter().flat_map(|counts| Layout::ALL.map(|layout| (*counts, layout)));
    let calls = layouts.flat_map(|(counts, layout)| [[0; 3], OFFSET].map(|offset| (counts, layout, offset)));
    calls.map(|(counts, layout, offset)| {
        let [first, second, shared] = counts;
        let rows = first + second - shared;
        let answer = if rows <= MOST_ROWS { Ok(rows) } else { refused(3) };
        Trial { merge: of_counts(counts, layout, offset), answer }
    })
}

/// The rows of the tables whose bytes are set.
const SHARED: usize = 3;

/// A row in which every value is given and is 0, so that every byte but the last two can be another in a good row.
fn all_given(x: i32) -> Row {
    Row::new(Kind::Lever, [x, 0, 0])
        .with_facing(Facing::East)
        .with_power_level(0)
        .with_delay(0)
        .with_support([0; 3])
        .with_arms([None; 4])
}

/// Two tables of the same three rows, once one is moved.
fn all_shared() -> Merge {
    let rows = [0, 1, 2].map(all_given);
    Merge::new(table(rows), table(rows.map(|row| moved_row(&row, back(OFFSET)))), OFFSET)
}

/// Whether the row is still good with this value for a byte after its position.
fn is_good(byte: usize, value: u8) -> bool {
    match byte {
        12 => (1..=13).contains(&value),
        13 | 28 => value <= 6,
        14 => value <= 2,
        15 | 17 | 19 | 23 | 29 => value <= 1,
        16 | 18 => true,
        20..=22 => matches!(value, 0 | 1 | 255),
        24..=27 => value <= 3,
        _ => value == 0,
    }
}

/// Which of the tables.
const TABLES: [fn(&mut Merge) -> &mut Vec<u8>; 2] = [|merge| &mut merge.first, |merge| &mut merge.second];

/// Every byte after the position of a shared row set to every value, in the first table and in the second.
pub fn clashes() -> impl Iterator<Item = Trial> {
    let bytes = (12..ROW_BYTES).flat_map(|byte| (0..=u8::MAX).map(move |value| (byte, value)));
    let places = bytes.flat_map(|(byte, value)| (0..SHARED).map(move |row| (row, byte, value)));
    places.flat_map(|(row, byte, value)| {
        TABLES.map(|table| {
            let mut merge = all_shared();
            let at = &mut table(&mut merge)[ROW_BYTES * row + byte];
            let is_same = *at == value;
            *at = value;
            let answer = match (is_same, is_good(byte, value)) {
                (true, _) => Ok(SHARED),
                (false, true) => refused(12),
                (false, false) => Err(Refusal { number: 4, row }),
            };
            Trial { merge, answer }
        })
    })
}

/// Every byte of either table set to every value.
pub fn single_bytes() -> impl Iterator<Item = Merge> {
    let bytes = (0..ROW_BYTES * SHARED).flat_map(|at| (0..=u8::MAX).map(move |value| (at, value)));
    bytes.flat_map(|(at, value)| {
        TABLES.map(|table| {
            let mut merge = all_shared();
            table(&mut merge)[at] = value;
            merge
        })
    })
}

/// Calls of several sizes, and the rows of their results.
fn sizes() -> impl Iterator<Item = (Merge, usize)> {
    let counts: [Counts; 6] =
        [[0, 0, 0], [1, 0, 0], [2, 3, 1], [512, 511, 0], [512, 512, 0], [1024, 1024, 1024]];
    counts
        .into_iter()
        .map(|counts| (of_counts(counts, Layout::After, OFFSET), counts[0] + counts[1] - counts[2]))
}

/// An output of every length about the right one, and of some others.
pub fn out_lengths() -> impl Iterator<Item = Trial> {
    let lengths =
        [0, 1, 31, 32, 33, 64, 16_384, 65_535, 65_536].into_iter().chain(OUT_BYTES - 70..=OUT_BYTES + 70);
    lengths.flat_map(|bytes| {
        sizes().map(move |(merge, rows)| {
            let out = Out { bytes, ..merge.out };
            let answer = if bytes == OUT_BYTES { Ok(rows) } else { refused(7) };
            Trial { merge: Merge { out, ..merge }, answer }
        })
    })
}

/// An output that has every value before.
pub fn fillings() -> impl Iterator<Item = Trial> {
    (0..=u8::MAX).flat_map(|filling| {
        sizes().map(move |(merge, rows)| {
            let out = Out { filling, ..merge.out };
            Trial { merge: Merge { out, ..merge }, answer: Ok(rows) }
        })
    })
}

const CORNERS: u32 = 8;

/// The corners of a cube about 0, on each of which another kind stands.
fn at_corners(chosen: u32, offset: Position) -> Vec<u8> {
    let corner = |number: u32| {
        let position = [4, 2, 1].map(|bit| if number & bit == 0 { -1 } else { 1 });
        moved_row(&Row::new(Kind::ALL[number as usize], position), back(offset))
    };
    table((0..CORNERS).filter(|number| chosen >> number & 1 == 1).map(corner))
}

/// Every two tables of rows at the corners of a cube, the second moved there, along each axis or not at all.
pub fn small_pairs() -> impl Iterator<Item = Trial> {
    let pairs =
        (0..1 << CORNERS).flat_map(|first: u32| (0..1 << CORNERS).map(move |second: u32| (first, second)));
    pairs.flat_map(|(first, second)| {
        [[0; 3], [2, 0, 0], [0, -2, 0], [0, 0, 2]].map(|offset| Trial {
            merge: Merge::new(at_corners(first, [0; 3]), at_corners(second, offset), offset),
            answer: Ok((first | second).count_ones() as usize),
        })
    })
}
