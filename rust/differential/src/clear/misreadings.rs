//! Wrong readings of Change 7, which the trials must tell from the right one.

use redstone::{FARTHEST, Kind, ROW_BYTES, Row, Shape};

use super::reading::{
    Cleared, Hold, ORDER, READING, Reading, falling, needs_support, ring, support, supports, write,
};
use crate::lent::fill;
use crate::refusals::{Asked, at_no_row};
use crate::table::{Position, UNDER, moved};

pub struct Misreading {
    pub what: &'static str,
    /// Makes the right reading the wrong one.
    pub change: fn(&mut Reading),
}

/// The places of the tests in the right order.
const PROFILE: usize = 0;
const RAGGED: usize = 1;
const CROWDED: usize = 2;
const BAD_ROW: usize = 3;
const MISPLACED: usize = 4;
const OVERDRIVEN: usize = 5;
const LENGTH: usize = 6;

/// The buffers among those that are lent to be written.
const KEPT: usize = 0;
const PASSES: usize = 1;

pub const MISREADINGS: [Misreading; 115] = [
    // When rows go.
    misreading("there is one pass: a support that went still counts", |reading| {
        reading.passes = |holds| passes_up_to(1, holds)
    }),
    misreading("there are two passes", |reading| reading.passes = |holds| passes_up_to(2, holds)),
    misreading("there are no more than 17 passes", |reading| {
        reading.passes = |holds| passes_up_to(17, holds);
    }),
    misreading("there are no more than 255 passes", |reading| {
        reading.passes = |holds| passes_up_to(255, holds);
    }),
    misreading("there are no more than 1,023 passes", |reading| {
        reading.passes = |holds| passes_up_to(1_023, holds);
    }),
    misreading("the last pass is left out", |reading| {
        reading.passes = |holds| passes_up_to(last(&falling(holds)).saturating_sub(1), holds);
    }),
    misreading("what went earlier in the pass is seen, from the first row on", |reading| {
        reading.passes = |holds| seen_within_a_pass(holds, (0..holds.len()).collect(), u16::MAX);
    }),
    misreading("what went earlier in the pass is seen, from the last row on", |reading| {
        reading.passes = |holds| seen_within_a_pass(holds, (0..holds.len()).rev().collect(), u16::MAX);
    }),
    misreading("the rows are gone through once, from the first on", |reading| {
        reading.passes = |holds| seen_within_a_pass(holds, (0..holds.len()).collect(), 1);
    }),
    misreading("the rows are gone through once, from the last on", |reading| {
        reading.passes = |holds| seen_within_a_pass(holds, (0..holds.len()).rev().collect(), 1);
    }),
    misreading("one row goes in a pass", |reading| reading.passes = one_row_a_pass),
    misreading("a row goes in the pass of the one that held it", |reading| {
        reading.passes = |holds| falling(holds).iter().map(|pass| *pass.min(&1)).collect();
    }),
    misreading("two rows of a tower go in a pass", |reading| {
        reading.passes = |holds| falling(holds).iter().map(|pass| pass.div_ceil(2)).collect();
    }),
    misreading("all rows that go have the last pass", |reading| {
        reading.passes = |holds| {
            let passes = falling(holds);
            passes.iter().map(|pass| if *pass == 0 { 0 } else { last(&passes) }).collect()
        };
    }),
    misreading("passes count down to 1", |reading| {
        reading.passes = |holds| {
            let passes = falling(holds);
            passes.iter().map(|pass| if *pass == 0 { 0 } else { last(&passes) + 1 - pass }).collect()
        };
    }),
    misreading("a row that holds itself goes", |reading| {
        reading.passes = |holds| without_rings(holds, |size| size == 1);
    }),
    misreading("two that hold each other go", |reading| {
        reading.passes = |holds| without_rings(holds, |size| size == 2);
    }),
    misreading("a ring of three or more goes", |reading| {
        reading.passes = |holds| without_rings(holds, |size| size >= 3);
    }),
    misreading("a ring of a hundred or more goes", |reading| {
        reading.passes = |holds| without_rings(holds, |size| size >= 100);
    }),
    misreading("every ring goes", |reading| reading.passes = |holds| without_rings(holds, |_| true)),
    misreading("what a row that holds itself holds goes", |reading| {
        reading.passes = |holds| {
            let on_itself = |hold| matches!(hold, Hold::Row(row) if holds[row] == Hold::Row(row));
            let unheld = |row: usize| on_itself(holds[row]) && holds[row] != Hold::Row(row);
            falling(&dropped(holds, unheld))
        };
    }),
    misreading("what needs support holds nothing", |reading| {
        reading.passes = |holds| {
            let needs = |hold| matches!(hold, Hold::Row(row) if holds[row] != Hold::NotNeeded);
            falling(&dropped(holds, |row| needs(holds[row])))
        };
    }),
    misreading("a support after the row is not looked for", |reading| {
        reading.passes = |holds| {
            let is_after = |row: usize| matches!(holds[row], Hold::Row(holder) if holder > row);
            falling(&dropped(holds, is_after))
        };
    }),
    misreading("a support before the row is not looked for", |reading| {
        reading.passes = |holds| {
            let is_before = |row: usize| matches!(holds[row], Hold::Row(holder) if holder < row);
            falling(&dropped(holds, is_before))
        };
    }),
    misreading("the first row always stays", |reading| {
        reading.passes = |holds| falling(&kept_up(holds, |row| row == 0));
    }),
    misreading("the last row always stays", |reading| {
        reading.passes = |holds| falling(&kept_up(holds, |row| row + 1 == holds.len()));
    }),
    misreading("row 1,023 is never looked at", |reading| {
        reading.passes = |holds| falling(&kept_up(holds, |row| row == 1_023));
    }),
    // What needs support.
    misreading("dust needs none", |reading| {
        reading.needs_support = |row| needs_support(row) && row.kind() != Kind::RedstoneWire;
    }),
    misreading("torches need none", |reading| {
        reading.needs_support = |row| needs_support(row) && row.kind() != Kind::RedstoneTorch;
    }),
    misreading("repeaters need none", |reading| {
        reading.needs_support = |row| needs_support(row) && row.kind() != Kind::Repeater;
    }),
    misreading("comparators need none", |reading| {
        reading.needs_support = |row| needs_support(row) && row.kind() != Kind::Comparator;
    }),
    misreading("levers need none", |reading| {
        reading.needs_support = |row| needs_support(row) && row.kind() != Kind::Lever;
    }),
    misreading("buttons need support", |reading| {
        reading.needs_support = |row| needs_support(row) || row.kind() == Kind::Button;
    }),
    misreading("plates need support", |reading| {
        reading.needs_support = |row| needs_support(row) || row.kind() == Kind::PressurePlate;
    }),
    misreading("pistons need support", |reading| {
        reading.needs_support = |row| needs_support(row) || row.kind() == Kind::Piston;
    }),
    misreading("bulbs need support", |reading| {
        reading.needs_support = |row| needs_support(row) || row.kind() == Kind::CopperBulb;
    }),
    misreading("whatever has an offset needs support", |reading| {
        reading.needs_support = |row| needs_support(row) || row.support().is_some();
    }),
    misreading("what has no offset needs none", |reading| {
        reading.needs_support = |row| needs_support(row) && row.support().is_some();
    }),
    misreading("what has a shape needs none", |reading| {
        reading.needs_support = |row| needs_support(row) && row.shape() == Shape::Plain;
    }),
    // Where the support is.
    misreading("without an offset it is below", |reading| {
        reading.support = |row| support(row).or(Some(moved(row.position(), UNDER)));
    }),
    misreading("without an offset it is the row itself", |reading| {
        reading.support = |row| support(row).or(Some(row.position()));
    }),
    misreading("it is below, whatever the offset", |reading| {
        reading.support = |row| support(row).map(|_| moved(row.position(), UNDER));
    }),
    misreading("it is at the other side", |reading| {
        reading.support = |row| support_by(row, |step| step.map(|along| -along));
    }),
    misreading("x and y are exchanged", |reading| {
        reading.support = |row| support_by(row, |[x, y, z]| [y, x, z]);
    }),
    misreading("x and z are exchanged", |reading| {
        reading.support = |row| support_by(row, |[x, y, z]| [z, y, x]);
    }),
    misreading("y and z are exchanged", |reading| {
        reading.support = |row| support_by(row, |[x, y, z]| [x, z, y]);
    }),
    misreading("x does not count", |reading| reading.support = |row| support_by(row, |[_, y, z]| [0, y, z])),
    misreading("y does not count", |reading| reading.support = |row| support_by(row, |[x, _, z]| [x, 0, z])),
    misreading("z does not count", |reading| reading.support = |row| support_by(row, |[x, y, _]| [x, y, 0])),
    misreading("an offset has no sign", |reading| {
        reading.support = |row| support_by(row, |step| step.map(|along| along & 0xff));
    }),
    misreading("an offset across a corner is none", |reading| {
        reading.support = |row| support(row).filter(|_| axes_of(row) <= 1);
    }),
    misreading("an offset along all axes is none", |reading| {
        reading.support = |row| support(row).filter(|_| axes_of(row) <= 2);
    }),
    misreading("an offset stops at the end of the ground", |reading| {
        reading.support = |row| support(row).map(|at| at.map(|along| along.clamp(-FARTHEST, FARTHEST)));
    }),
    // What supports.
    misreading("a top slab does not", |reading| {
        reading.supports =
            |profile, holder, held| supports(profile, holder, held) && holder.shape() != Shape::TopSlab;
    }),
    misreading("a double slab does not", |reading| {
        reading.supports =
            |profile, holder, held| supports(profile, holder, held) && holder.shape() != Shape::DoubleSlab;
    }),
    misreading("top stairs do not", |reading| {
        reading.supports =
            |profile, holder, held| supports(profile, holder, held) && holder.shape() != Shape::TopStairs;
    }),
    misreading("glass does not", |reading| {
        reading.supports =
            |profile, holder, held| supports(profile, holder, held) && holder.shape() != Shape::Glass;
    }),
    misreading("a bottom slab does", |reading| {
        reading.supports =
            |profile, holder, held| supports(profile, holder, held) || holder.shape() == Shape::BottomSlab;
    }),
    misreading("bottom stairs do", |reading| {
        reading.supports =
            |profile, holder, held| supports(profile, holder, held) || holder.shape() == Shape::BottomStairs;
    }),
    misreading("the kind counts in every shape", |reading| {
        reading.supports = |profile, holder, _| has(profile, holder, 1);
    }),
    misreading("the kind counts beside the shape", |reading| {
        reading.supports = |profile, holder, held| supports(profile, holder, held) || has(profile, holder, 1);
    }),
    misreading("the kind and the shape both have to", |reading| {
        reading.supports = |profile, holder, held| supports(profile, holder, held) && has(profile, holder, 1);
    }),
    misreading("whatever is there does", |reading| reading.supports = |_, _, _| true),
    misreading("value 2 of the profile counts", |reading| {
        reading.supports = |profile, holder, held| by_value(2, profile, holder, held);
    }),
    misreading("value 4 of the profile counts", |reading| {
        reading.supports = |profile, holder, held| by_value(4, profile, holder, held);
    }),
    misreading("any value of the profile counts", |reading| {
        reading.supports = |profile, holder, held| by_value(u8::MAX, profile, holder, held);
    }),
    misreading("value 32 of a torch counts", |reading| {
        reading.supports = |profile, holder, held| by_value(33, profile, holder, held);
    }),
    misreading("a bulb does not", |reading| {
        reading.supports =
            |profile, holder, held| supports(profile, holder, held) && holder.kind() != Kind::CopperBulb;
    }),
    misreading("the byte and the shape of the row that is held count", |reading| {
        reading.supports = |profile, holder, held| supports(profile, held, holder);
    }),
    // What is written and answered.
    misreading("passes are counted from 0", |reading| {
        reading.write = |cleared, kept, passes| {
            let answer = write(cleared, kept, passes);
            passes.iter_mut().for_each(|pass| *pass = pass.saturating_sub(1));
            answer
        };
    }),
    misreading("a pass has 8 bits", |reading| {
        reading.write = |cleared, kept, passes| {
            let answer = write(cleared, kept, passes);
            passes.iter_mut().for_each(|pass| *pass %= 256);
            answer
        };
    }),
    misreading("a pass has its high byte first", |reading| {
        reading.write = |cleared, kept, passes| {
            let answer = write(cleared, kept, passes);
            passes.iter_mut().for_each(|pass| *pass = pass.swap_bytes());
            answer
        };
    }),
    misreading("a kept row has 65,535 for its pass", |reading| {
        reading.write = |cleared, kept, passes| {
            let answer = write(cleared, kept, passes);
            passes.iter_mut().filter(|pass| **pass == 0).for_each(|pass| *pass = u16::MAX);
            answer
        };
    }),
    misreading("a kept row's pass is untouched", |reading| {
        reading.write = |cleared, kept, passes| {
            let before = passes.to_vec();
            let answer = write(cleared, kept, passes);
            passes.iter_mut().zip(before).filter(|(pass, _)| **pass == 0).for_each(|(pass, old)| *pass = old);
            answer
        };
    }),
    misreading("the passes stand in their own order", |reading| {
        reading.write = |cleared, kept, passes| {
            let answer = write(cleared, kept, passes);
            passes.sort_unstable();
            answer
        };
    }),
    misreading("no passes are written where no row goes", |reading| {
        reading.write = |cleared, kept, passes| match last(&cleared.passes) {
            0 => write(cleared, kept, &mut []),
            _ => write(cleared, kept, passes),
        };
    }),
    misreading("no rows are written where no row goes", |reading| {
        reading.write = |cleared, kept, passes| match last(&cleared.passes) {
            0 => write(cleared, &mut [], passes),
            _ => write(cleared, kept, passes),
        };
    }),
    misreading("kept rows are not written", |reading| {
        reading.write = |cleared, _, passes| write(cleared, &mut [], passes);
    }),
    misreading("the last kept row is not written", |reading| {
        reading.write = |cleared, kept, passes| {
            let bytes = ROW_BYTES * cleared.kept().count().saturating_sub(1);
            write(cleared, &mut kept[..bytes], passes)
        };
    }),
    misreading("kept rows stay where they were", |reading| {
        reading.write = |cleared, kept, passes| {
            let (places, _) = kept.as_chunks_mut::<ROW_BYTES>();
            for (place, row) in (0..).zip(cleared.rows).filter(|(row, _)| cleared.passes[*row] == 0) {
                places[place] = *row;
            }
            write(cleared, &mut [], passes)
        };
    }),
    misreading("kept rows stand at the end", |reading| {
        reading.write = |cleared, kept, passes| {
            let from = kept.len() - ROW_BYTES * cleared.kept().count();
            write(cleared, &mut kept[from..], passes)
        };
    }),
    misreading("kept rows stand in the opposite order", |reading| {
        reading.write = |cleared, kept, passes| {
            let rows: Vec<_> = cleared.kept().collect();
            fill(kept, rows.into_iter().rev().flatten().copied());
            write(cleared, &mut [], passes)
        };
    }),
    misreading("the rows that went are written", |reading| {
        reading.write = |cleared, kept, passes| {
            fill(kept, gone(cleared));
            write(cleared, &mut [], passes)
        };
    }),
    misreading("the rows that went stand after the kept ones", |reading| {
        reading.write = |cleared, kept, passes| {
            fill(kept, cleared.kept().flatten().copied().chain(gone(cleared)));
            write(cleared, &mut [], passes)
        };
    }),
    misreading("the table is written, and over it the kept rows", |reading| {
        reading.write = |cleared, kept, passes| {
            fill(kept, cleared.rows.as_flattened().iter().copied());
            write(cleared, kept, passes)
        };
    }),
    misreading("the rest is cleared", |reading| {
        reading.write = |cleared, kept, passes| {
            kept.fill(0);
            write(cleared, kept, passes)
        };
    }),
    misreading("the byte after the kept rows is cleared", |reading| {
        reading.write = |cleared, kept, passes| {
            fill(kept, cleared.kept().flatten().copied().chain([0]));
            write(cleared, &mut [], passes)
        };
    }),
    misreading("the last byte is cleared first", |reading| {
        reading.write = |cleared, kept, passes| {
            kept.iter_mut().last().into_iter().for_each(|byte| *byte = 0);
            write(cleared, kept, passes)
        };
    }),
    misreading("the answer is the number of rows that went", |reading| {
        reading.write = |cleared, kept, passes| cleared.rows.len() as u32 - write(cleared, kept, passes);
    }),
    misreading("the answer is the number of passes", |reading| {
        reading.write = |cleared, kept, passes| {
            write(cleared, kept, passes);
            last(&cleared.passes).into()
        };
    }),
    misreading("the answer is the length of the kept rows", |reading| {
        reading.write = |cleared, kept, passes| ROW_BYTES as u32 * write(cleared, kept, passes);
    }),
    misreading("a refused call clears a byte of the kept table", |reading| {
        reading.on_refusal = |kept, _| fill(kept, [0]);
    }),
    misreading("a refused call clears an entry of the passes", |reading| {
        reading.on_refusal = |_, passes| fill(passes, [0]);
    }),
    // The tests.
    misreading("overdriven rows pass", |reading| reading.order[OVERDRIVEN].fault = |_| None),
    misreading("10 is before 5", |reading| reading.order.swap(MISPLACED, OVERDRIVEN)),
    misreading("5 is before 4", |reading| reading.order.swap(BAD_ROW, MISPLACED)),
    misreading("3 is before 2", |reading| reading.order.swap(RAGGED, CROWDED)),
    misreading("2 is before 1", |reading| reading.order.swap(PROFILE, RAGGED)),
    misreading("7 is before all else", |reading| reading.order.rotate_right(1)),
    misreading("7 is before 4", |reading| reading.order[BAD_ROW..].rotate_right(1)),
    misreading("7 is before 10", |reading| reading.order.swap(OVERDRIVEN, LENGTH)),
    misreading("a longer table passes", |reading| {
        reading.order[LENGTH].fault =
            |asked| by_lengths(asked, |[kept, right], [passes, rows]| kept < right || passes != rows);
    }),
    misreading("a shorter table passes", |reading| {
        reading.order[LENGTH].fault =
            |asked| by_lengths(asked, |[kept, right], [passes, rows]| kept > right || passes != rows);
    }),
    misreading("a table of any length passes", |reading| {
        reading.order[LENGTH].fault = |asked| by_lengths(asked, |_, [passes, rows]| passes != rows);
    }),
    misreading("a table of as many whole rows passes", |reading| {
        reading.order[LENGTH].fault =
            |asked| by_lengths(asked, |[kept, _], [passes, rows]| kept / ROW_BYTES != rows || passes != rows);
    }),
    misreading("a table into which the kept rows fit passes", |reading| {
        reading.order[LENGTH].fault = |asked| {
            let rows = redstone::rows(asked.table).unwrap_or_default();
            let passes = falling(&READING.holds(asked.profile, &rows));
            let needed = ROW_BYTES * passes.iter().filter(|pass| **pass == 0).count();
            at_no_row(asked.lent[KEPT].entries < needed || asked.lent[PASSES].entries != rows.len())
        };
    }),
    misreading("the table is to have 32,768 bytes", |reading| {
        reading.order[LENGTH].fault =
            |asked| by_lengths(asked, |[kept, _], [passes, rows]| kept != 32_768 || passes != rows);
    }),
    misreading("more passes pass", |reading| {
        reading.order[LENGTH].fault =
            |asked| by_lengths(asked, |[kept, right], [passes, rows]| kept != right || passes < rows);
    }),
    misreading("fewer passes pass", |reading| {
        reading.order[LENGTH].fault =
            |asked| by_lengths(asked, |[kept, right], [passes, rows]| kept != right || passes > rows);
    }),
    misreading("any number of passes passes", |reading| {
        reading.order[LENGTH].fault = |asked| by_lengths(asked, |[kept, right], _| kept != right);
    }),
    misreading("the passes are as many as the table's bytes", |reading| {
        reading.order[LENGTH].fault =
            |asked| by_lengths(asked, |[kept, right], [passes, _]| kept != right || passes != right);
    }),
    misreading("both lengths have to be wrong", |reading| {
        reading.order[LENGTH].fault =
            |asked| by_lengths(asked, |[kept, right], [passes, rows]| kept != right && passes != rows);
    }),
    misreading("7 names the buffer", |reading| {
        reading.order[LENGTH].fault = |asked| {
            let is_of_passes = by_lengths(asked, |[kept, right], _| kept != right).is_none();
            (ORDER[LENGTH].fault)(asked).map(|_| usize::from(is_of_passes))
        };
    }),
    misreading("a bad row is counted from 1", |reading| {
        reading.order[BAD_ROW].fault = |asked| (ORDER[BAD_ROW].fault)(asked).map(|row| row + 1);
    }),
    misreading("a bad row that would go passes", |reading| {
        reading.order[BAD_ROW].fault = |asked| {
            (ORDER[BAD_ROW].fault)(asked)
                .filter(|row| asked.table[ROW_BYTES * row + 12] != Kind::Comparator.code())
        };
    }),
];

const fn misreading(what: &'static str, change: fn(&mut Reading)) -> Misreading {
    Misreading { what, change }
}

fn last(passes: &[u16]) -> u16 {
    passes.iter().copied().max().unwrap_or(0)
}

/// What goes later stays.
fn passes_up_to(most: u16, holds: &[Hold]) -> Vec<u16> {
    falling(holds).iter().map(|pass| if *pass > most { 0 } else { *pass }).collect()
}

/// Rows in such an order, in so many passes at most. A row that went earlier in the pass holds no more.
fn seen_within_a_pass(holds: &[Hold], order: Vec<usize>, most: u16) -> Vec<u16> {
    let mut passes = vec![0; holds.len()];
    for pass in 1..=most {
        let mut is_done = true;
        for row in &order {
            if passes[*row] == 0 && is_unheld(holds, &passes, *row) {
                passes[*row] = pass;
                is_done = false;
            }
        }
        if is_done {
            break;
        }
    }
    passes
}

/// Whether nothing that is still there holds a row.
fn is_unheld(holds: &[Hold], passes: &[u16], row: usize) -> bool {
    match holds[row] {
        Hold::NotNeeded => false,
        Hold::Nothing => true,
        Hold::Row(holder) => passes[holder] > 0,
    }
}

/// Always the first that nothing holds.
fn one_row_a_pass(holds: &[Hold]) -> Vec<u16> {
    let mut passes = vec![0; holds.len()];
    let next =
        |passes: &[u16]| (0..holds.len()).find(|row| passes[*row] == 0 && is_unheld(holds, passes, *row));
    let mut pass = 0;
    while let Some(row) = next(&passes) {
        pass += 1;
        passes[row] = pass;
    }
    passes
}

/// Nothing holds the rows that are so.
fn dropped(holds: &[Hold], is: impl Fn(usize) -> bool) -> Vec<Hold> {
    holds.iter().enumerate().map(|(row, hold)| if is(row) { Hold::Nothing } else { *hold }).collect()
}

/// The rows that are so need no support.
fn kept_up(holds: &[Hold], is: impl Fn(usize) -> bool) -> Vec<Hold> {
    holds.iter().enumerate().map(|(row, hold)| if is(row) { Hold::NotNeeded } else { *hold }).collect()
}

/// The rows of rings of such sizes go.
fn without_rings(holds: &[Hold], is: fn(usize) -> bool) -> Vec<u16> {
    falling(&dropped(holds, |row| ring(holds, row).is_some_and(is)))
}

fn support_by(row: &Row, other: fn([i32; 3]) -> [i32; 3]) -> Option<Position> {
    row.support().map(|step| moved(row.position(), other(step.map(i32::from))))
}

/// Along how many axes a row's support is away from it.
fn axes_of(row: &Row) -> usize {
    row.support().into_iter().flatten().filter(|along| *along != 0).count()
}

/// Whether the profile has a value for a row's kind, or one of several.
fn has(profile: &[u8], row: &Row, values: u8) -> bool {
    profile[usize::from(row.kind().code())] & values != 0
}

/// The right test with another value, or several, in the place of 1.
fn by_value(values: u8, profile: &[u8], holder: &Row, held: &Row) -> bool {
    match holder.shape() {
        Shape::Plain => has(profile, holder, values),
        _ => supports(profile, holder, held),
    }
}

/// The bytes of the rows that went.
fn gone(cleared: &Cleared) -> impl Iterator<Item = u8> {
    let rows = cleared.rows.iter().zip(&cleared.passes).filter(|(_, pass)| **pass > 0);
    rows.flat_map(|(row, _)| *row)
}

/// Whether the lengths of the table and of the passes, each with the right one, are wrong.
fn by_lengths(asked: &Asked, are_wrong: fn([usize; 2], [usize; 2]) -> bool) -> Option<usize> {
    let rows = asked.table.len() / ROW_BYTES;
    let [kept, passes] = [KEPT, PASSES].map(|buffer| asked.lent[buffer].entries);
    at_no_row(are_wrong([kept, ROW_BYTES * rows], [passes, rows]))
}
