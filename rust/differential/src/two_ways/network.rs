//! What reaches what in a table, read from documents 01 and 02 apart from the proved code.

use std::collections::BTreeMap;

use redstone::{Kind, Row, Shape, TORCH_CHARGES_ABOVE};

use super::keys::Reading;
use crate::dust::{Blocks, Pair, arm};
use crate::generate::{Case, TORCH};
use crate::table::{self, ABOVE, HORIZONTAL, Position, UNDER, back, moved};

/// The table of an accepted case.
pub struct Table<'a> {
    profile: &'a [u8],
    pub rows: Vec<Row>,
    numbers: BTreeMap<Position, usize>,
    blocks: Blocks<'a>,
    support: fn([i8; 3]) -> Option<Position>,
}

impl<'a> Table<'a> {
    pub fn new(case: &'a Case, reading: &Reading) -> Self {
        let placed = |row: Row| row.with_position((reading.place)(row.position()));
        let rows: Vec<_> = table::rows(&case.table).into_iter().map(placed).collect();
        let at = |(number, row): (usize, &Row)| {
            let found = (reading.found)(row.position());
            [Some(row.position()), found].into_iter().flatten().map(move |at| (at, number))
        };
        let numbers: BTreeMap<_, _> = rows.iter().enumerate().flat_map(at).collect();
        let found = numbers.iter().map(|(at, number)| rows[*number].with_position(*at));
        let blocks = Blocks::new(&case.profile, found);
        Self { profile: &case.profile, blocks, rows, numbers, support: reading.support }
    }

    /// The row a step away.
    fn beside(&self, row: usize, step: Position) -> Option<usize> {
        self.numbers.get(&moved(self.rows[row].position(), step)).copied()
    }

    /// Whether a row has a value of the profile; of the other shapes the double slab has those of power.
    pub fn has(&self, value: u8, row: usize) -> bool {
        match self.rows[row].shape() {
            Shape::Plain => self.profile[usize::from(self.rows[row].kind().code())] & value != 0,
            shape => shape == Shape::DoubleSlab,
        }
    }

    /// The steps along which dust has an arm.
    pub fn arms(&self, dust: usize) -> impl Iterator<Item = Position> {
        let sides = HORIZONTAL.into_iter().enumerate();
        sides
            .filter(move |(side, _)| arm(&self.blocks, &self.rows[dust], *side).is_some())
            .map(|(_, step)| step)
    }

    /// The steps along which a row gives strong power.
    pub fn charging(&self, row: usize) -> Vec<Position> {
        let charges_above = self.profile[TORCH] & TORCH_CHARGES_ABOVE != 0;
        let block = &self.rows[row];
        match block.kind() {
            Kind::Lever | Kind::Button | Kind::PressurePlate => {
                block.support().and_then(self.support).into_iter().collect()
            }
            Kind::Repeater | Kind::Comparator => output(block).into_iter().collect(),
            Kind::RedstoneBlock => around(),
            Kind::RedstoneTorch if charges_above => vec![ABOVE],
            _ => Vec::new(),
        }
    }

    /// The largest that arrives at each row, where each row gives its level to others.
    pub fn arriving(&self, levels: &[u8], to: impl Fn(usize) -> Vec<usize>) -> Vec<u8> {
        let mut arrived = vec![0; self.rows.len()];
        for (row, level) in levels.iter().enumerate().filter(|(_, level)| **level > 0) {
            for other in to(row) {
                arrived[other] = arrived[other].max(*level);
            }
        }
        arrived
    }

    /// The rows along these steps that have a value.
    pub fn along(&self, row: usize, steps: impl IntoIterator<Item = Position>, value: u8) -> Vec<usize> {
        let others = steps.into_iter().filter_map(|step| self.beside(row, step));
        others.filter(|other| self.has(value, *other)).collect()
    }

    /// What arrives at a dust from above, from below and along its arms.
    pub fn direct(&self, dust: usize, emitted: &[u8], strong: &[u8]) -> u8 {
        let steps = self.arms(dust).chain([ABOVE, UNDER]);
        let level = |step| {
            let other = self.beside(dust, step)?;
            Some(if feeds(&self.rows[other], back(step)) {
                emitted[other]
            } else if self.has(DRIVES, other) {
                strong[other]
            } else {
                0
            })
        };
        steps.filter_map(level).max().unwrap_or(0)
    }

    /// The dust to which a dust transmits.
    pub fn sinks(&self, dust: usize) -> Vec<usize> {
        let steps = HORIZONTAL.into_iter().flat_map(|[x, _, z]| [-1, 0, 1].map(|y| [x, y, z]));
        let source = &self.rows[dust];
        let sink = |step| {
            let sink = self.beside(dust, step)?;
            let found = self.rows[sink].with_position(moved(source.position(), step));
            Pair::new(&self.blocks, source, &found)?.rule().map(|_| sink)
        };
        steps.filter_map(sink).collect()
    }
}

/// Values of the profile.
pub const WEAK: u8 = 2;
pub const STRONG: u8 = 4;
const DRIVES: u8 = 16;

/// The steps to the six cells beside.
pub fn around() -> Vec<Position> {
    HORIZONTAL.into_iter().chain([ABOVE, UNDER]).collect()
}

/// The step to the output of a repeater or comparator.
fn output(row: &Row) -> Option<Position> {
    let facing = row.facing()?.code();
    HORIZONTAL.get(usize::from(facing) - 1).copied()
}

/// Whether dust a step away has what the row emits.
fn feeds(row: &Row, step: Position) -> bool {
    match row.kind() {
        Kind::Lever | Kind::Button | Kind::PressurePlate | Kind::RedstoneTorch | Kind::RedstoneBlock => true,
        Kind::Repeater | Kind::Comparator => output(row) == Some(step),
        _ => false,
    }
}

pub fn emitted(row: &Row, device: u8) -> u8 {
    match row.kind() {
        Kind::RedstoneBlock => 15,
        Kind::Lever | Kind::Button | Kind::PressurePlate if row.powered() == Some(true) => {
            row.power_level().unwrap_or(15).min(15)
        }
        Kind::RedstoneTorch | Kind::Repeater => 15 * device,
        Kind::Comparator => device,
        _ => 0,
    }
}
