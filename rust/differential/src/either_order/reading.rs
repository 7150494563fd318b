//! The redraw and the switch, read from documents 01 and 02 a second time and apart from the proved code.

use redstone::{Arm, ROW_BYTES, Row};

use super::{Calls, Switch};
use crate::dust::{Arms, Blocks, inferred, is_dust, opposite};
use crate::refusals::{Asked, Devices, ORDER, Order, Written, refuse};
use crate::table::{Position, coordinates};

/// The bytes of a row.
pub type Packed = [u8; ROW_BYTES];

/// A way to read what both calls do.
#[derive(Clone, Copy)]
pub struct Reading {
    pub redraw_order: Order,
    /// Redraws the rows of an accepted table by a profile, and answers.
    pub redraw: fn(&[u8], &mut [Packed]) -> u32,
    /// What a refused redraw does to the rows that the table has whole.
    pub on_refused_redraw: fn(&mut [Packed]),
    pub switch_order: Order,
    /// Switches the row at a position of an accepted table, by a profile.
    pub switch: fn(&[u8], &mut [Packed], Position, u32),
    /// What a refused switch does to them.
    pub on_refused_switch: fn(&mut [Packed], Position, u32),
}

/// The right one.
pub const READING: Reading = Reading {
    redraw_order: ORDER,
    redraw: |profile, rows| redraw_with(profile, rows, |blocks, dust| with_opposite(arms(blocks, dust))),
    on_refused_redraw: |_| (),
    switch_order: ORDER,
    switch: |_, rows, at, powered| switch(rows, at, powered),
    on_refused_switch: |_, _, _| (),
};

/// Draws each dust by what stands around it before any is drawn.
pub fn redraw_by(profile: &[u8], rows: &mut [Packed], draw: impl Fn(&Blocks, &Row) -> Packed) -> u32 {
    let blocks = blocks(profile, rows);
    for row in rows {
        if let Some(dust) = blocks.at(coordinates(row)).filter(|block| is_dust(block)) {
            *row = draw(&blocks, dust);
        }
    }
    0
}

pub fn blocks<'a>(profile: &'a [u8], rows: &[Packed]) -> Blocks<'a> {
    Blocks::new(profile, rows.iter().map(|row| Row::try_from(row).expect("a good row")))
}

/// Stores these arms in each dust.
pub fn redraw_with(profile: &[u8], rows: &mut [Packed], arms: impl Fn(&Blocks, &Row) -> Arms) -> u32 {
    redraw_by(profile, rows, |blocks, dust| dust.with_arms(arms(blocks, dust)).bytes())
}

/// Document 01: "`update_wire_shapes` infers every dust's arms, drops None".
pub fn arms(blocks: &Blocks, dust: &Row) -> Arms {
    arms_by(|side| inferred(blocks, dust, side))
}

pub fn arms_by(arm: impl Fn(usize) -> Option<Arm>) -> Arms {
    [0, 1, 2, 3].map(arm)
}

/// "Where exactly one is left adds its opposite as Side".
pub fn with_opposite(mut arms: Arms) -> Arms {
    if let Some(only) = lone(&arms) {
        arms[opposite(only)] = Some(Arm::Side);
    }
    arms
}

/// The side of the only arm.
pub fn lone(arms: &Arms) -> Option<usize> {
    let mut sides = (0..arms.len()).filter(|side| arms[*side].is_some());
    sides.next().filter(|_| sides.next().is_none())
}

/// "Switching writes byte 14 of the row at that position, or nothing if empty"; "any number but 0 is true".
pub fn switch(rows: &mut [Packed], at: Position, powered: u32) {
    row_at(rows, at).into_iter().for_each(|row| row[14] = if powered == 0 { 1 } else { 2 });
}

pub fn row_at(rows: &mut [Packed], at: Position) -> Option<&mut Packed> {
    rows.iter_mut().find(|row| coordinates(*row) == at)
}

impl Calls for Reading {
    fn redraw(&self, [profile, table]: [&mut [u8]; 2]) -> u32 {
        let refused = refuse(&self.redraw_order, &Asked::new(profile, table));
        let (rows, _) = table.as_chunks_mut();
        match refused {
            Ok(()) => (self.redraw)(profile, rows),
            Err(refusal) => {
                (self.on_refused_redraw)(rows);
                refusal.code()
            }
        }
    }

    fn switch(&self, lent: [&mut [u8]; 6], Switch { at, powered, .. }: &Switch) -> u32 {
        let [profile, table, state, columns @ ..] = lent;
        let asked = Asked {
            devices: Some(Devices::state(state)),
            lent: columns.iter().map(|column| Written::column(column.len())).collect(),
            ..Asked::new(profile, table)
        };
        let refused = refuse(&self.switch_order, &asked);
        let (rows, _) = table.as_chunks_mut();
        match refused {
            Ok(()) => {
                (self.switch)(profile, rows, *at, *powered);
                0
            }
            Err(refusal) => {
                (self.on_refused_switch)(rows, *at, *powered);
                refusal.code()
            }
        }
    }
}
