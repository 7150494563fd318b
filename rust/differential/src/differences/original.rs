//! The original.

use super::bench::{Bench, Settled};
use crate::bulb::{READING, Reading};
use crate::clear;
use crate::compare::Answers;
use crate::oracle::Oracle;
use crate::redstone::{OriginalRun, Step};
use crate::refusals::Refusal;
use crate::settling::{SIGNAL, STATE, STRONG, WEAK};
use crate::table::Position;
use crate::wire::WireQuery;
use crate::world::WorldQuery;

pub struct Original<'a> {
    oracle: &'a Oracle<'a>,
    run: OriginalRun<'a>,
}

impl<'a> Original<'a> {
    pub fn new(oracle: &'a Oracle<'a>, reading: Reading) -> Self {
        Self { oracle, run: OriginalRun::reading(oracle, reading) }
    }

    fn step(&self, step: Step) -> Settled {
        let answer = self.run.answer(&step);
        let columns = [SIGNAL, WEAK, STRONG].map(|column| answer.bytes(column));
        Settled { rounds: answer.number as u32, state: answer.bytes(STATE), columns }
    }
}

impl Bench for Original<'_> {
    fn fresh(&mut self) -> Result<Settled, Refusal> {
        self.oracle.refusal?;
        Ok(self.step(Step::Fresh))
    }

    fn tick(&mut self, ticks: u32) -> Settled {
        self.step(Step::Ticks(ticks))
    }

    fn switch(&mut self, at: Position, powered: bool) -> Settled {
        self.step(Step::Switch { at, powered })
    }

    fn redrawn(&self) -> Vec<u8> {
        self.oracle.answer(&WireQuery::Redraw).bytes(0)
    }

    fn unsupported(&self) -> Vec<usize> {
        let answer = self.oracle.answer(&WorldQuery::SupportIssues { entries: self.oracle.rows.len() });
        let listed = &answer.buffers[0].entries[..answer.number as usize];
        listed.iter().map(|row| usize::from(*row)).collect()
    }

    fn passes(&self) -> Vec<u16> {
        clear::passes(self.oracle, self.oracle.case)
    }

    fn unrefused(&self) -> Option<Settled> {
        let oracle = Oracle::of_any_levels(self.oracle.case);
        Some(Original::new(&oracle, READING).step(Step::Fresh))
    }
}
