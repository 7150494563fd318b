//! Wrong readings of Change 6, which the trials must tell from the right one.

use redstone::{Kind, ROW_BYTES};

use super::Merge;
use super::reading::{
    Asked, ORDER, OUT_BYTES, Placed, READING, Reading, Test, far_offset, fault_of_table, off_ground, packed,
    placed, shared, union,
};
use crate::lent::fill;
use crate::refusals::{MOST_ROWS, at_no_row};
use crate::table::Position;

pub struct Misreading {
    pub what: &'static str,
    /// Makes the right reading the wrong one.
    pub change: fn(&mut Reading),
}

/// The places of the tests in the right order.
const FIRST_RAGGED: usize = 0;
const FIRST_BAD_ROW: usize = 2;
const FIRST_MISPLACED: usize = 3;
const FIRST_OVERDRIVEN: usize = 4;
const SECOND_RAGGED: usize = 5;
const SECOND_CROWDED: usize = 6;
const SECOND_BAD_ROW: usize = 7;
const SECOND_MISPLACED: usize = 8;
const SECOND_OVERDRIVEN: usize = 9;
const LENGTH: usize = 10;
const OFF_GROUND: usize = 11;
const CLASH: usize = 12;
const CROWDED: usize = 13;

pub const MISREADINGS: [Misreading; 82] = [
    // How rows are moved.
    misreading("the second is not moved", |reading| reading.place = |merge| second_by(merge, |_| [0; 3])),
    misreading("the second is moved back", |reading| {
        reading.place = |merge| second_by(merge, |offset| offset.map(i32::wrapping_neg));
    }),
    misreading("y and z are exchanged", |reading| {
        reading.place = |merge| second_by(merge, |[x, y, z]| [x, z, y]);
    }),
    misreading("x and y are exchanged", |reading| {
        reading.place = |merge| second_by(merge, |[x, y, z]| [y, x, z]);
    }),
    misreading("x and z are exchanged", |reading| {
        reading.place = |merge| second_by(merge, |[x, y, z]| [z, y, x]);
    }),
    misreading("z is moved by y's number", |reading| {
        reading.place = |merge| second_by(merge, |[x, y, _]| [x, y, y]);
    }),
    misreading("the first is moved, and not the second", |reading| {
        reading.place = |merge| [placed(&merge.first, merge.offset), placed(&merge.second, [0; 3])];
    }),
    misreading("both are moved", |reading| {
        reading.place = |merge| [&merge.first, &merge.second].map(|table| placed(table, merge.offset));
    }),
    // What the result has.
    misreading("a shared row is written twice", |reading| reading.result = each_row),
    misreading("a shared row is left out", |reading| {
        reading.result = |asked| {
            let shared: Vec<_> = shared(asked).map(|[first, _]| first.0).collect();
            union(asked).into_iter().filter(|row| !shared.contains(&row.0)).collect()
        };
    }),
    misreading("the second's rows come after the first's", |reading| {
        reading.result = |asked| [&asked.first[..], &second_alone(asked)].concat();
    }),
    misreading("the first's rows come after the second's", |reading| {
        reading.result = |asked| [&second_alone(asked), &asked.first[..]].concat();
    }),
    misreading("the order is by z first", |reading| {
        reading.result = |asked| sorted(asked, |([x, y, z], _)| vec![*z, *y, *x]);
    }),
    misreading("the order is by y first", |reading| {
        reading.result = |asked| sorted(asked, |([x, y, z], _)| vec![*y, *x, *z]);
    }),
    misreading("the order is downward", |reading| {
        reading.result = |asked| union(asked).into_iter().rev().collect();
    }),
    misreading("negative coordinates come after the others", |reading| {
        reading.result = |asked| sorted(asked, |(position, _)| position.map(|at| at & 0xffff_ffff).to_vec());
    }),
    misreading("the second's rows are in the result as they were", |reading| {
        reading.result = |asked| {
            let second = placed(&asked.merge.second, [0; 3]);
            union(&Asked { merge: asked.merge, first: asked.first.clone(), second })
        };
    }),
    // What is written and answered.
    misreading("the rest of the output is cleared", |reading| {
        reading.write = |rows, out| {
            out.fill(0);
            (READING.write)(rows, out)
        };
    }),
    misreading("the row after the result is cleared", |reading| {
        reading.write = |rows, out| {
            fill(out, rows.iter().flat_map(packed).chain([0; ROW_BYTES]));
            rows.len() as u32
        };
    }),
    misreading("the byte after the result is cleared", |reading| {
        reading.write = |rows, out| {
            fill(out, rows.iter().flat_map(packed).chain([0]));
            rows.len() as u32
        };
    }),
    misreading("the rows are written at the end of the output", |reading| {
        reading.write = |rows, out| {
            let from = out.len().saturating_sub(ROW_BYTES * rows.len());
            (READING.write)(rows, &mut out[from..])
        };
    }),
    misreading("nothing is written", |reading| reading.write = |rows, _| rows.len() as u32),
    misreading("the answer is 0", |reading| {
        reading.write = |rows, out| {
            (READING.write)(rows, out);
            0
        };
    }),
    misreading("the answer is the result's length in bytes", |reading| {
        reading.write = |rows, out| (READING.write)(rows, out) * ROW_BYTES as u32;
    }),
    misreading("a refused call clears the output", |reading| reading.on_refusal = |out| out.fill(0)),
    misreading("a refused call clears a byte of the output", |reading| {
        reading.on_refusal = |out| fill(out, [0]);
    }),
    // The tests of the tables.
    misreading("a bulb row is bad in the first", |reading| {
        reading.order[FIRST_BAD_ROW].fault = |asked| bad_or_bulb(&asked.merge.first);
    }),
    misreading("a bulb row is bad in the second", |reading| {
        reading.order[SECOND_BAD_ROW].fault = |asked| bad_or_bulb(&asked.merge.second);
    }),
    misreading("overdriven rows pass in the first", |reading| {
        reading.order[FIRST_OVERDRIVEN].fault = |_| None
    }),
    misreading("overdriven rows pass in the second", |reading| {
        reading.order[SECOND_OVERDRIVEN].fault = |_| None
    }),
    misreading("misplaced rows pass in the first", |reading| reading.order[FIRST_MISPLACED].fault = |_| None),
    misreading("misplaced rows pass in the second", |reading| {
        reading.order[SECOND_MISPLACED].fault = |_| None
    }),
    misreading("a ragged second passes", |reading| reading.order[SECOND_RAGGED].fault = |_| None),
    misreading("the second's rows are tested where they are moved to", |reading| {
        reading.order[SECOND_BAD_ROW].fault = |asked| {
            let moved: Vec<_> = asked.second.iter().flat_map(packed).collect();
            fault_of_table(4, &moved)
        };
    }),
    misreading("10 on the first's rows is before 5", |reading| {
        reading.order.swap(FIRST_MISPLACED, FIRST_OVERDRIVEN);
    }),
    misreading("10 on the second's rows is before 5", |reading| {
        reading.order.swap(SECOND_MISPLACED, SECOND_OVERDRIVEN);
    }),
    misreading("5 on the second's rows is before 4", |reading| {
        reading.order.swap(SECOND_BAD_ROW, SECOND_MISPLACED);
    }),
    misreading("3 on the second is before 2", |reading| reading.order.swap(SECOND_RAGGED, SECOND_CROWDED)),
    misreading("the second's tests come before the first's", |reading| {
        reading.order[..LENGTH].rotate_left(SECOND_RAGGED);
    }),
    misreading("the lengths of both tables come before their rows", |reading| {
        reading.order[FIRST_BAD_ROW..SECOND_BAD_ROW].rotate_right(2);
    }),
    misreading("4 is tested in both before 5", |reading| {
        reading.order[FIRST_MISPLACED..=SECOND_BAD_ROW].rotate_right(1);
    }),
    misreading("10 is tested in both after all else of both", |reading| {
        reading.order[FIRST_OVERDRIVEN..SECOND_OVERDRIVEN].rotate_left(1);
    }),
    misreading("the second's rows are counted after the first's", |reading| {
        for test in &mut reading.order[SECOND_BAD_ROW..LENGTH] {
            test.fault = match test.number {
                4 => |asked| after_first::<SECOND_BAD_ROW>(asked),
                5 => |asked| after_first::<SECOND_MISPLACED>(asked),
                _ => |asked| after_first::<SECOND_OVERDRIVEN>(asked),
            };
        }
    }),
    misreading("the second's rows are counted from 1", |reading| {
        reading.order[SECOND_BAD_ROW].fault = |asked| right(SECOND_BAD_ROW, asked).map(|row| row + 1);
    }),
    // The output's length.
    misreading("7 is before the first's tests", |reading| {
        reading.order[FIRST_RAGGED..=LENGTH].rotate_right(1);
    }),
    misreading("7 is before the second's tests", |reading| {
        reading.order[SECOND_RAGGED..=LENGTH].rotate_right(1);
    }),
    misreading("7 is before 10 in the second", |reading| reading.order.swap(SECOND_OVERDRIVEN, LENGTH)),
    misreading("7 is after 11", |reading| reading.order.swap(LENGTH, OFF_GROUND)),
    misreading("7 is after 12", |reading| reading.order[LENGTH..=CLASH].rotate_left(1)),
    misreading("7 is after 3", |reading| reading.order[LENGTH..].rotate_left(1)),
    misreading("a longer output passes", |reading| {
        reading.order[LENGTH].fault = |asked| at_no_row(asked.merge.out.bytes < OUT_BYTES);
    }),
    misreading("a shorter output passes", |reading| {
        reading.order[LENGTH].fault = |asked| at_no_row(asked.merge.out.bytes > OUT_BYTES);
    }),
    misreading("an output passes that the result fits in", |reading| {
        reading.order[LENGTH].fault =
            |asked| at_no_row(asked.merge.out.bytes < ROW_BYTES * union(asked).len());
    }),
    misreading("an output passes that has as many whole rows", |reading| {
        reading.order[LENGTH].fault = |asked| at_no_row(asked.merge.out.bytes / ROW_BYTES != MOST_ROWS);
    }),
    // Off ground.
    misreading("11 is after 12", |reading| reading.order.swap(OFF_GROUND, CLASH)),
    misreading("11 is after 3", |reading| reading.order[OFF_GROUND..].rotate_left(1)),
    misreading("11 is before the second's tests", |reading| {
        reading.order[SECOND_RAGGED..=OFF_GROUND].rotate_right(1);
    }),
    misreading("an offset is not tested where the second has no rows", |reading| {
        reading.order[OFF_GROUND].fault = |asked| at_no_row(off_ground(&asked.second));
    }),
    misreading("an offset ends at 1,000,000", |reading| {
        reading.order[OFF_GROUND].fault = |asked| {
            let far = asked.merge.offset.iter().any(|along| along.unsigned_abs() > 1_000_000);
            at_no_row(far || off_ground(&asked.second))
        };
    }),
    misreading("an offset of 2,000,000 is too far", |reading| {
        reading.order[OFF_GROUND].fault = |asked| {
            let far = asked.merge.offset.iter().any(|along| along.unsigned_abs() >= 2_000_000);
            at_no_row(far || off_ground(&asked.second))
        };
    }),
    misreading("an offset of -2,000,001 passes", |reading| {
        reading.order[OFF_GROUND].fault = |asked| {
            let offset = asked.merge.offset.map(|along| if along == -2_000_001 { 0 } else { along });
            at_no_row(far_offset(offset) || off_ground(&asked.second))
        };
    }),
    misreading("the farthest negative number passes for an offset", |reading| {
        reading.order[OFF_GROUND].fault = |asked| {
            let offset = asked.merge.offset.map(|along| if along == i32::MIN { 0 } else { along });
            at_no_row(far_offset(offset) || off_ground(&asked.second))
        };
    }),
    misreading("the offset's z is not tested", |reading| {
        reading.order[OFF_GROUND].fault = |asked| {
            let [x, y, _] = asked.merge.offset;
            at_no_row(far_offset([x, y, 0]) || off_ground(&asked.second))
        };
    }),
    misreading("rows may be moved off the ground", |reading| {
        reading.order[OFF_GROUND].fault = |asked| at_no_row(far_offset(asked.merge.offset));
    }),
    misreading("rows may be moved off the ground by one", |reading| {
        reading.order[OFF_GROUND].fault =
            |asked| tested_at(asked, |position| position.map(|at| at - at.signum()));
    }),
    misreading("rows may not be moved to the end", |reading| {
        reading.order[OFF_GROUND].fault =
            |asked| tested_at(asked, |position| position.map(|at| at + at.signum()));
    }),
    misreading("rows may be moved off the ground downward", |reading| {
        reading.order[OFF_GROUND].fault = |asked| tested_at(asked, |position| position.map(|at| at.max(0)));
    }),
    misreading("rows may be moved off the ground along z", |reading| {
        reading.order[OFF_GROUND].fault = |asked| tested_at(asked, |[x, y, _]| [x, y, 0]);
    }),
    misreading("the row that is off ground is named", |reading| {
        reading.order[OFF_GROUND].fault = |asked| {
            let row = asked.second.iter().position(|row| off_ground(&[*row]));
            row.or_else(|| right(OFF_GROUND, asked))
        };
    }),
    // Clashes.
    misreading("a clash is by kind alone", |reading| {
        reading.order[CLASH].fault = |asked| clash_by(asked, |[first, second]| first[0] != second[0]);
    }),
    misreading("the last two bytes that a row can have are not compared", |reading| {
        reading.order[CLASH].fault = |asked| clash_by(asked, |[first, second]| first[..16] != second[..16]);
    }),
    misreading("every shared position is a clash", |reading| {
        reading.order[CLASH].fault = |asked| clash_by(asked, |_| true);
    }),
    misreading("rows are compared as they are given", |reading| {
        reading.order[CLASH].fault = |asked| {
            let is_moved = asked.merge.offset != [0; 3];
            right(CLASH, asked).or_else(|| at_no_row(is_moved && shared(asked).next().is_some()))
        };
    }),
    misreading("a shared position may differ", |reading| reading.order[CLASH].fault = |_| None),
    misreading("the clashing row is named", |reading| {
        reading.order[CLASH].fault = |asked| {
            let clash = shared(asked).find(|[first, second]| first.1 != second.1);
            clash.and_then(|[_, row]| asked.second.iter().position(|other| other == row))
        };
    }),
    // Too many rows together.
    misreading("3 is before 12", |reading| reading.order.swap(CLASH, CROWDED)),
    misreading("3 is before 11", |reading| reading.order[OFF_GROUND..].rotate_right(1)),
    misreading("3 is before 7", |reading| reading.order[LENGTH..].rotate_right(1)),
    misreading("3 counts shared rows twice", |reading| {
        reading.order[CROWDED].fault = |asked| at_no_row(each_row(asked).len() > MOST_ROWS);
    }),
    misreading("1,024 rows are too many", |reading| {
        reading.order[CROWDED].fault = |asked| at_no_row(union(asked).len() >= MOST_ROWS);
    }),
    misreading("1,025 rows pass", |reading| {
        reading.order[CROWDED].fault = |asked| at_no_row(union(asked).len() > MOST_ROWS + 1);
    }),
    misreading("the first row that is too many is named", |reading| {
        reading.order[CROWDED].fault = |asked| right(CROWDED, asked).map(|_| MOST_ROWS);
    }),
];

const fn misreading(what: &'static str, change: fn(&mut Reading)) -> Misreading {
    Misreading { what, change }
}

/// What the right test at a place finds.
fn right(place: usize, asked: &Asked) -> Option<usize> {
    let Test { fault, .. } = ORDER[place];
    fault(asked)
}

/// The second's rows are moved by another offset.
fn second_by(merge: &Merge, offset: fn(Position) -> Position) -> [Vec<Placed>; 2] {
    [placed(&merge.first, [0; 3]), placed(&merge.second, offset(merge.offset))]
}

/// The rows of both, in order.
fn each_row(asked: &Asked) -> Vec<Placed> {
    let mut rows = [&asked.first[..], &asked.second].concat();
    rows.sort_by_key(|row| row.0);
    rows
}

/// The second's rows at positions that the first has not.
fn second_alone(asked: &Asked) -> Vec<Placed> {
    let own = |row: &&Placed| asked.first.iter().all(|other| other.0 != row.0);
    asked.second.iter().filter(own).copied().collect()
}

fn sorted(asked: &Asked, key: fn(&Placed) -> Vec<i64>) -> Vec<Placed> {
    let mut rows = union(asked);
    rows.sort_by_key(key);
    rows
}

fn bad_or_bulb(table: &[u8]) -> Option<usize> {
    let bulb = table.chunks_exact(ROW_BYTES).position(|row| row[12] == Kind::CopperBulb.code());
    [fault_of_table(4, table), bulb].into_iter().flatten().min()
}

fn after_first<const PLACE: usize>(asked: &Asked) -> Option<usize> {
    right(PLACE, asked).map(|row| asked.first.len() + row)
}

/// The right test with other positions.
fn tested_at(asked: &Asked, other: fn([i64; 3]) -> [i64; 3]) -> Option<usize> {
    let rows: Vec<_> = asked.second.iter().map(|(position, bytes)| (other(*position), *bytes)).collect();
    at_no_row(far_offset(asked.merge.offset) || off_ground(&rows))
}

fn clash_by(asked: &Asked, differ: fn([&[u8]; 2]) -> bool) -> Option<usize> {
    at_no_row(shared(asked).any(|rows| differ(rows.map(|row| &row.1[..]))))
}
