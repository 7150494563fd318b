//! Wrong readings of the redraw and of the switch, each with the laws that tell it.
//!
//! The laws say nothing of what is drawn or where it is switched: only that drawing again changes nothing, and that it does
//! not matter which comes first. A wrong reading that keeps to this breaks none of them. It is told by the tables by hand
//! alone.

use redstone::{Arm, Kind, ROW_BYTES, Row};

use super::Law;
use super::reading::{
    Packed, READING, Reading, arms, arms_by, blocks, lone, redraw_by, redraw_with, row_at, switch,
    with_opposite,
};
use crate::dust::{Arms, Blocks, entry, inferred, is_dust, opposite};
use crate::refusals::{Asked, ORDER};
use crate::table::{ABOVE, HORIZONTAL, Position, coordinates, is_on_ground, moved};

pub struct Misreading {
    pub what: &'static str,
    /// The laws that it breaks, in their order.
    pub broken: &'static [Law],
    /// Whether it shows in the tables of calls that are not refused: a law is broken there.
    pub shows_in_tables: bool,
    /// Makes the right reading the wrong one.
    pub change: fn(&mut Reading),
}

const TWICE: &[Law] = &[Law::Twice];
const EITHER_ORDER: &[Law] = &[Law::EitherOrder];
const BOTH: &[Law] = &Law::ALL;
const NONE: &[Law] = &[];

/// The places of bytes in a row.
const KIND: usize = 12;
const POWERED: usize = 14;
const STORED: usize = 23;
const NORTH: usize = 24;

/// The places of tests in their order.
const BAD_ROW: usize = 3;
const OVERDRIVEN: usize = 5;

pub const MISREADINGS: [Misreading; 61] = [
    // The redraw looks at stored arms.
    misreading("a lone arm gains its opposite only where none are stored", TWICE, |reading| {
        reading.redraw = |profile, rows| opposite_where(profile, rows, |dust| dust.arms().is_none());
    }),
    misreading("a lone arm gains its opposite only where arms are stored", TWICE, |reading| {
        reading.redraw = |profile, rows| opposite_where(profile, rows, |dust| dust.arms().is_some());
    }),
    misreading("a lone arm gains its opposite only where it is stored itself", TWICE, |reading| {
        reading.redraw = |profile, rows| {
            redraw_with(profile, rows, |blocks, dust| {
                let arms = arms(blocks, dust);
                let is_stored = lone(&arms).is_some_and(|side| entry(dust, side).is_some());
                if is_stored { with_opposite(arms) } else { arms }
            })
        };
    }),
    misreading("the opposite of a lone arm that is stored is Up", TWICE, |reading| {
        reading.redraw = |profile, rows| {
            redraw_with(profile, rows, |blocks, dust| {
                let mut arms = arms(blocks, dust);
                if let Some(side) = lone(&arms) {
                    let is_stored = entry(dust, opposite(side)).is_some();
                    arms[opposite(side)] = Some(if is_stored { Arm::Up } else { Arm::Side });
                }
                arms
            })
        };
    }),
    misreading("an arm to the West is drawn where one to the East is stored", TWICE, |reading| {
        reading.redraw = |profile, rows| {
            redraw_with(profile, rows, |blocks, dust| {
                let mut arms = with_opposite(arms(blocks, dust));
                arms[3] = arms[3].or(entry(dust, 1).map(|_| Arm::Side));
                arms
            })
        };
    }),
    misreading("the stored arms are turned by a quarter", TWICE, |reading| {
        reading.redraw = |profile, rows| {
            redraw_with(profile, rows, |blocks, dust| match dust.arms() {
                Some([north, east, south, west]) => [west, north, east, south],
                None => with_opposite(arms(blocks, dust)),
            })
        };
    }),
    misreading("an arm that is stored is taken away", TWICE, |reading| {
        reading.redraw = |profile, rows| {
            redraw_with(profile, rows, |blocks, dust| {
                let drawn = with_opposite(arms(blocks, dust));
                arms_by(|side| drawn[side].filter(|_| entry(dust, side).is_none()))
            })
        };
    }),
    misreading("stored arms are given up before new ones are drawn", TWICE, |reading| {
        reading.redraw = |profile, rows| {
            redraw_by(profile, rows, |blocks, dust| match dust.arms() {
                Some(_) => dust.with_arms(None).bytes(),
                None => dust.with_arms(with_opposite(arms(blocks, dust))).bytes(),
            })
        };
    }),
    misreading("dust beside is led to only where it leads back", TWICE, |reading| {
        reading.redraw =
            |profile, rows| redraw_with(profile, rows, |blocks, dust| with_opposite(led_back(blocks, dust)));
    }),
    misreading("the same, row by row", TWICE, |reading| reading.redraw = led_back_row_by_row),
    misreading("dust beside is led to only where it has no arms yet", TWICE, |reading| {
        reading.redraw = |profile, rows| {
            redraw_with(profile, rows, |blocks, dust| {
                with_opposite(arms_unless(blocks, dust, |block| is_dust(block) && block.arms().is_some()))
            })
        };
    }),
    misreading("arms that dust beside stores are drawn, too", TWICE, |reading| {
        reading.redraw = |profile, rows| {
            redraw_with(profile, rows, |blocks, dust| {
                let near =
                    || (0..4).filter_map(|side| beside(blocks, dust, side)).filter(|block| is_dust(block));
                let drawn = with_opposite(arms(blocks, dust));
                arms_by(|side| drawn[side].or_else(|| near().find_map(|block| entry(block, side))))
            })
        };
    }),
    misreading("one dust without stored arms is drawn in a call", TWICE, |reading| {
        reading.redraw = |profile, rows| {
            let first = rows.iter().position(|row| row[KIND] == DUST && row[STORED] == 0);
            let mut drawn = rows.to_vec();
            (READING.redraw)(profile, &mut drawn);
            first.into_iter().for_each(|row| rows[row] = drawn[row]);
            0
        };
    }),
    misreading("byte 23 stays as it was", BOTH, |reading| {
        reading.redraw = |profile, rows| {
            redraw_by(profile, rows, |blocks, dust| {
                let mut row = dust.with_arms(with_opposite(arms(blocks, dust))).bytes();
                row[STORED] = dust.bytes()[STORED];
                row
            })
        };
    }),
    misreading("byte 23 counts the redraws", BOTH, |reading| {
        reading.redraw = |profile, rows| {
            redraw_by(profile, rows, |blocks, dust| {
                let mut row = dust.with_arms(with_opposite(arms(blocks, dust))).bytes();
                row[STORED] += dust.bytes()[STORED];
                row
            })
        };
    }),
    not_in_tables("the answer is the number of dust that was drawn otherwise", TWICE, |reading| {
        reading.redraw = |profile, rows| {
            let before = rows.to_vec();
            (READING.redraw)(profile, rows);
            rows.iter().zip(&before).filter(|(row, before)| row != before).count() as u32
        };
    }),
    // The redraw looks at byte 14.
    misreading("a lever that is not on is not led to", EITHER_ORDER, |reading| {
        reading.redraw =
            |profile, rows| drawn_unless(profile, rows, |block| block.kind() == Kind::Lever && !is_on(block));
    }),
    misreading("a lever that is off is not led to", EITHER_ORDER, |reading| {
        reading.redraw = |profile, rows| {
            drawn_unless(profile, rows, |block| block.kind() == Kind::Lever && block.powered() == Some(false))
        };
    }),
    misreading("a torch that is off is not led to", EITHER_ORDER, |reading| {
        reading.redraw = |profile, rows| {
            drawn_unless(profile, rows, |block| {
                block.kind() == Kind::RedstoneTorch && block.powered() == Some(false)
            })
        };
    }),
    misreading("a repeater that is on is not led to", EITHER_ORDER, |reading| {
        reading.redraw = |profile, rows| {
            drawn_unless(profile, rows, |block| block.kind() == Kind::Repeater && is_on(block))
        };
    }),
    misreading("dust that is on is not led to", EITHER_ORDER, |reading| {
        reading.redraw = |profile, rows| drawn_unless(profile, rows, |block| is_dust(block) && is_on(block));
    }),
    misreading("whatever is not on is not led to", EITHER_ORDER, |reading| {
        reading.redraw = |profile, rows| drawn_unless(profile, rows, |block| !is_on(block));
    }),
    misreading("a block whose byte 14 is missing is not led to", EITHER_ORDER, |reading| {
        reading.redraw = |profile, rows| drawn_unless(profile, rows, |block| block.powered().is_none());
    }),
    misreading("every block that is on is led to", EITHER_ORDER, |reading| {
        reading.redraw = |profile, rows| {
            redraw_with(profile, rows, |blocks, dust| {
                let on = |side| beside(blocks, dust, side).filter(|block| is_on(block)).map(|_| Arm::Side);
                with_opposite(arms_by(|side| inferred(blocks, dust, side).or_else(|| on(side))))
            })
        };
    }),
    misreading("no dust rises on a bulb that is on", EITHER_ORDER, |reading| {
        reading.redraw = |profile, rows| {
            drawn_unless(profile, rows, |block| block.kind() == Kind::CopperBulb && is_on(block))
        };
    }),
    misreading("a block that is on blocks the rise from above", EITHER_ORDER, |reading| {
        reading.redraw = |profile, rows| {
            redraw_with(profile, rows, |blocks, dust| {
                let above = blocks.at(moved(dust.position(), ABOVE));
                let is_blocked = above.is_some_and(is_on);
                with_opposite(arms(blocks, dust).map(|arm| arm.filter(|arm| *arm != Arm::Up || !is_blocked)))
            })
        };
    }),
    misreading("dust that is on leads to all sides", EITHER_ORDER, |reading| {
        reading.redraw = |profile, rows| {
            redraw_with(profile, rows, |blocks, dust| {
                if is_on(dust) { [Some(Arm::Side); 4] } else { with_opposite(arms(blocks, dust)) }
            })
        };
    }),
    misreading("dust that is off is not drawn", EITHER_ORDER, |reading| {
        reading.redraw = |profile, rows| drawn_where(profile, rows, |dust| dust.powered() != Some(false));
    }),
    misreading("dust whose byte 14 is missing is not drawn", EITHER_ORDER, |reading| {
        reading.redraw = |profile, rows| drawn_where(profile, rows, |dust| dust.powered().is_some());
    }),
    misreading("a lone arm gains its opposite only where the dust is on", EITHER_ORDER, |reading| {
        reading.redraw = |profile, rows| opposite_where(profile, rows, is_on);
    }),
    not_in_tables("the answer is the number of rows that are on", EITHER_ORDER, |reading| {
        reading.redraw = |profile, rows| {
            (READING.redraw)(profile, rows);
            rows.iter().filter(|row| row[POWERED] == 2).count() as u32
        };
    }),
    // The redraw writes byte 14.
    misreading("the redraw clears byte 14 of dust", EITHER_ORDER, |reading| {
        reading.redraw = |profile, rows| powered_after(profile, rows, |_| None);
    }),
    misreading("the redraw switches dust on", EITHER_ORDER, |reading| {
        reading.redraw = |profile, rows| powered_after(profile, rows, |_| Some(true));
    }),
    misreading("the redraw throws dust over", BOTH, |reading| {
        reading.redraw = |profile, rows| powered_after(profile, rows, |powered| Some(powered != Some(true)));
    }),
    misreading("the redraw clears byte 14 of every row", EITHER_ORDER, |reading| {
        reading.redraw = |profile, rows| {
            rows.iter_mut().for_each(|row| row[POWERED] = 0);
            (READING.redraw)(profile, rows)
        };
    }),
    // The switch looks at arms or writes them.
    misreading("a switch stores an arm to the North", EITHER_ORDER, |reading| {
        reading.switch = |_, rows, at, powered| {
            switch(rows, at, powered);
            row_at(rows, at).into_iter().for_each(|row| row[STORED..=NORTH].copy_from_slice(&[1, 2]));
        };
    }),
    misreading("a switch clears byte 23", EITHER_ORDER, |reading| {
        reading.switch = |_, rows, at, powered| {
            switch(rows, at, powered);
            row_at(rows, at).into_iter().for_each(|row| row[STORED] = 0);
        };
    }),
    misreading("a switch clears the arms of its row", EITHER_ORDER, |reading| {
        reading.switch = |_, rows, at, powered| {
            switch(rows, at, powered);
            row_at(rows, at).into_iter().for_each(clear_arms);
        };
    }),
    misreading("a switch clears the arms of dust beside it", EITHER_ORDER, |reading| {
        reading.switch = |_, rows, at, powered| {
            switch(rows, at, powered);
            for step in HORIZONTAL.into_iter().filter(|_| is_on_ground(at)) {
                row_at(rows, moved(at, step)).into_iter().for_each(clear_arms);
            }
        };
    }),
    misreading("a switch of an empty position clears the arms of the next row", EITHER_ORDER, |reading| {
        reading.switch = |_, rows, at, powered| {
            if row_at(rows, at).is_none() {
                rows.iter_mut().find(|row| coordinates(*row) > at).into_iter().for_each(clear_arms);
            }
            switch(rows, at, powered);
        };
    }),
    misreading("dust without stored arms is not switched", EITHER_ORDER, |reading| {
        reading.switch = |_, rows, at, powered| {
            switch_unless(rows, at, powered, |row| row[KIND] == DUST && row[STORED] == 0)
        };
    }),
    misreading("what has stored arms is not switched", EITHER_ORDER, |reading| {
        reading.switch = |_, rows, at, powered| switch_unless(rows, at, powered, |row| row[STORED] == 1);
    }),
    misreading("the switch writes its number as it is", EITHER_ORDER, |reading| {
        reading.switch =
            |_, rows, at, powered| row_at(rows, at).into_iter().for_each(|row| row[POWERED] = powered as u8);
    }),
    // Refused calls.
    not_in_tables("a refused redraw sets byte 23 of dust", BOTH, |reading| {
        reading.on_refused_redraw =
            |rows| rows.iter_mut().filter(|row| row[KIND] == DUST).for_each(|row| row[STORED] = 1);
    }),
    not_in_tables("a refused redraw flips a bit of the last row", BOTH, |reading| {
        reading.on_refused_redraw = |rows| rows.last_mut().into_iter().for_each(|row| row[31] ^= 1);
    }),
    not_in_tables("a refused switch clears the arms of its row", EITHER_ORDER, |reading| {
        reading.on_refused_switch = |rows, at, _| row_at(rows, at).into_iter().for_each(clear_arms);
    }),
    not_in_tables("a refused switch writes byte 14", EITHER_ORDER, |reading| {
        reading.on_refused_switch = switch;
    }),
    not_in_tables("the redraw refuses stored arms", TWICE, |reading| {
        reading.redraw_order[BAD_ROW].fault =
            |asked| bad_row_or(asked, |row| row[KIND] == DUST && row[STORED] == 1);
    }),
    misreading("the redraw refuses levers whose byte 14 is missing", EITHER_ORDER, |reading| {
        reading.redraw_order[BAD_ROW].fault =
            |asked| bad_row_or(asked, |row| row[KIND] == LEVER && row[POWERED] == 0);
    }),
    misreading("the switch refuses dust without stored arms", EITHER_ORDER, |reading| {
        reading.switch_order[BAD_ROW].fault =
            |asked| bad_row_or(asked, |row| row[KIND] == DUST && row[STORED] == 0);
    }),
    misreading("the redraw refuses rows that are on", EITHER_ORDER, |reading| {
        reading.redraw_order[BAD_ROW].fault = |asked| bad_row_or(asked, |row| row[POWERED] == 2);
    }),
    // What no law tells.
    misreading("nothing is drawn", NONE, |reading| reading.redraw = |_, _| 0),
    misreading("stored entries are kept, and only missing ones are drawn", NONE, |reading| {
        reading.redraw = |profile, rows| {
            redraw_with(profile, rows, |blocks, dust| {
                with_opposite(arms_by(|side| entry(dust, side).or_else(|| inferred(blocks, dust, side))))
            })
        };
    }),
    misreading("dust with stored arms is not drawn", NONE, |reading| {
        reading.redraw = |profile, rows| drawn_where(profile, rows, |dust| dust.arms().is_none());
    }),
    misreading("a lone arm stays alone", NONE, |reading| {
        reading.redraw = |profile, rows| opposite_where(profile, rows, |_| false);
    }),
    misreading("a switch of an empty position writes the next row", NONE, |reading| {
        reading.switch = |_, rows, at, powered| {
            let next = rows.iter().map(|row| coordinates(row)).find(|position| *position >= at);
            next.into_iter().for_each(|next| switch(rows, next, powered));
        };
    }),
    misreading("the switch throws what is there over", NONE, |reading| {
        reading.switch = |_, rows, at, _| {
            let is_off = row_at(rows, at).is_some_and(|row| row[POWERED] != 2);
            switch(rows, at, is_off.into());
        };
    }),
    misreading("the redraw draws overdriven tables", NONE, |reading| {
        reading.redraw_order[OVERDRIVEN].fault = |_| None;
    }),
    misreading("rows that are not dust lose their arms in the redraw", NONE, |reading| {
        reading.redraw = |profile, rows| {
            rows.iter_mut().filter(|row| row[KIND] != DUST).for_each(clear_arms);
            (READING.redraw)(profile, rows)
        };
    }),
    misreading("a refused switch writes byte 14 of a table whose rows are good", NONE, |reading| {
        reading.on_refused_switch = |rows, at, powered| {
            if rows.iter().all(|row| Row::try_from(row).is_ok()) {
                switch(rows, at, powered);
            }
        };
    }),
    misreading("the switch draws the arms, too", NONE, |reading| {
        reading.switch = |profile, rows, at, powered| {
            switch(rows, at, powered);
            (READING.redraw)(profile, rows);
        };
    }),
];

const DUST: u8 = Kind::RedstoneWire.code();
const LEVER: u8 = Kind::Lever.code();

/// One that shows in the tables if it breaks a law.
const fn misreading(what: &'static str, broken: &'static [Law], change: fn(&mut Reading)) -> Misreading {
    Misreading { what, broken, shows_in_tables: !broken.is_empty(), change }
}

/// One that shows only in an answer or in what a refused call leaves.
const fn not_in_tables(what: &'static str, broken: &'static [Law], change: fn(&mut Reading)) -> Misreading {
    Misreading { what, broken, shows_in_tables: false, change }
}

fn is_on(row: &Row) -> bool {
    row.powered() == Some(true)
}

fn beside<'a>(blocks: &'a Blocks, dust: &Row, side: usize) -> Option<&'a Row> {
    blocks.at(moved(dust.position(), HORIZONTAL[side]))
}

/// The arms but those to blocks that are so.
fn arms_unless(blocks: &Blocks, dust: &Row, is: fn(&Row) -> bool) -> Arms {
    arms_by(|side| inferred(blocks, dust, side).filter(|_| !beside(blocks, dust, side).is_some_and(is)))
}

fn drawn_unless(profile: &[u8], rows: &mut [Packed], is: fn(&Row) -> bool) -> u32 {
    redraw_with(profile, rows, |blocks, dust| with_opposite(arms_unless(blocks, dust, is)))
}

/// Draws the dust that is so.
fn drawn_where(profile: &[u8], rows: &mut [Packed], is: fn(&Row) -> bool) -> u32 {
    redraw_by(profile, rows, |blocks, dust| {
        let drawn = dust.with_arms(with_opposite(arms(blocks, dust)));
        if is(dust) { drawn.bytes() } else { dust.bytes() }
    })
}

/// Adds the opposite of a lone arm to the dust that is so.
fn opposite_where(profile: &[u8], rows: &mut [Packed], is: fn(&Row) -> bool) -> u32 {
    redraw_with(profile, rows, |blocks, dust| {
        let arms = arms(blocks, dust);
        if is(dust) { with_opposite(arms) } else { arms }
    })
}

/// Draws the dust and changes its byte 14.
fn powered_after(profile: &[u8], rows: &mut [Packed], change: fn(Option<bool>) -> Option<bool>) -> u32 {
    redraw_by(profile, rows, |blocks, dust| {
        let drawn = dust.with_arms(with_opposite(arms(blocks, dust)));
        drawn.with_powered(change(dust.powered())).bytes()
    })
}

/// The arms, but to dust beside only where it has an arm back, which it has where no entry is stored.
fn led_back(blocks: &Blocks, dust: &Row) -> Arms {
    arms_by(|side| {
        let leads_back = |block: &Row| !is_dust(block) || entry(block, opposite(side)) != Some(Arm::None);
        inferred(blocks, dust, side).filter(|_| beside(blocks, dust, side).is_none_or(leads_back))
    })
}

fn led_back_row_by_row(profile: &[u8], rows: &mut [Packed]) -> u32 {
    for row in 0..rows.len() {
        let blocks = blocks(profile, rows);
        if let Some(dust) = blocks.at(coordinates(&rows[row])).filter(|block| is_dust(block)) {
            rows[row] = dust.with_arms(with_opposite(led_back(&blocks, dust))).bytes();
        }
    }
    0
}

fn clear_arms(row: &mut Packed) {
    row[STORED..STORED + 5].fill(0);
}

fn switch_unless(rows: &mut [Packed], at: Position, powered: u32, is: fn(&Packed) -> bool) {
    if !row_at(rows, at).is_some_and(|row| is(row)) {
        switch(rows, at, powered);
    }
}

/// The first row that is bad or is so.
fn bad_row_or(asked: &Asked, is: fn(&[u8]) -> bool) -> Option<usize> {
    let rows = asked.table.chunks_exact(ROW_BYTES);
    let bad = (ORDER[BAD_ROW].fault)(asked);
    bad.into_iter().chain(rows.into_iter().position(is)).min()
}
