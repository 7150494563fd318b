//! Runs: a fresh state, then ticks, and switches thrown in between.

use std::cell::RefCell;

use original::electrical::InstantaneousElectricalState;
use redstone::{Kind, Row, STATE_BYTES};

use super::queries::LARGE;
use super::simulator::Simulator;
use super::write_powered;
use crate::bulb::{READING, Reading};
use crate::compare::{Answer, Answers, Query};
use crate::generate::Case;
use crate::oracle::Oracle;
use crate::positions::any_position;
use crate::probe::Probe;
use crate::random::Random;
use crate::settling::{Buffers, Call, Input, STATE, TABLE};
use crate::table::Position;

#[derive(Clone, Copy, Debug)]
pub enum Step {
    Fresh,
    Ticks(u32),
    Switch { at: Position, powered: bool },
}

impl Query for Step {
    fn function(&self) -> &'static str {
        match self {
            Self::Fresh => "fresh",
            Self::Ticks(_) => "tick",
            Self::Switch { .. } => "switch",
        }
    }
}

const STEPS: usize = 30;
const STEPS_IF_LARGE: usize = 3;

/// The steps of a case's run, some sixty ticks in all.
pub fn steps(oracle: &Oracle) -> Vec<Step> {
    let mut random = Random::new(oracle.case.seed);
    let mut steps = vec![Step::Fresh];
    for _ in 0..if oracle.rows.len() < LARGE { STEPS } else { STEPS_IF_LARGE } {
        if random.percent(50) {
            steps.push(Step::Switch {
                at: any_position(&mut random, &oracle.rows),
                powered: random.percent(50),
            });
        }
        steps.push(Step::Ticks(random.pick(&[0, 1, 1, 1, 1, 1, 2, 3, 8])));
    }
    steps
}

/// A hundred ticks, one by one, among which every lever is thrown and thrown back.
pub fn hundred_ticks(oracle: &Oracle) -> Vec<Step> {
    let levers = oracle.rows.iter().filter(|row| row.kind() == Kind::Lever);
    let throws = |back: bool| {
        let throw = move |row: &Row| Step::Switch {
            at: row.position(),
            powered: (row.powered() == Some(true)) == back,
        };
        levers.clone().map(throw)
    };
    let ticks = |number| vec![Step::Ticks(1); number];
    let first = [Step::Fresh].into_iter().chain(ticks(40)).chain(throws(false));
    first.chain(ticks(30)).chain(throws(true)).chain(ticks(30)).collect()
}

/// A run of the proved calls, each on the table, state and tick number that the one before left.
pub struct ProvedRun {
    now: RefCell<Now>,
    /// Many ticks are as many calls.
    single_ticks: bool,
}

struct Now {
    case: Case,
    state: Vec<u8>,
    tick: u32,
}

impl ProvedRun {
    pub fn new(case: &Case, single_ticks: bool) -> Self {
        let now = Now { case: case.clone(), state: Vec::new(), tick: 0 };
        Self { now: RefCell::new(now), single_ticks }
    }
}

impl Now {
    fn call(&mut self, step: Step) -> Answer {
        let rows = self.case.rows();
        let state = self.state.clone();
        let input = match step {
            Step::Fresh => Input::Fresh { state_bytes: STATE_BYTES * rows },
            Step::Ticks(ticks) => Input::Tick { state, tick: self.tick, ticks },
            Step::Switch { at, powered } => Input::Switch { state, at, powered },
        };
        let answer = Probe(&self.case).answer(&Call { input, columns: [rows; 3] });
        self.case.table = answer.bytes(TABLE);
        self.state = answer.bytes(STATE);
        if let Step::Ticks(ticks) = step {
            self.tick += ticks;
        }
        answer
    }
}

impl Answers<Step> for ProvedRun {
    fn answer(&self, step: &Step) -> Answer {
        let mut now = self.now.borrow_mut();
        match *step {
            Step::Ticks(ticks) if self.single_ticks && ticks > 1 => {
                (1..ticks).for_each(|_| drop(now.call(Step::Ticks(1))));
                now.call(Step::Ticks(1))
            }
            step => now.call(step),
        }
    }
}

/// A run of the original's simulator, never packed on the way.
pub struct OriginalRun<'a> {
    oracle: &'a Oracle<'a>,
    simulator: RefCell<Simulator<'a>>,
}

impl<'a> OriginalRun<'a> {
    pub fn new(oracle: &'a Oracle<'a>) -> Self {
        Self::reading(oracle, READING)
    }

    /// Where Change 4 is read so.
    pub fn reading(oracle: &'a Oracle<'a>, reading: Reading) -> Self {
        Self { oracle, simulator: RefCell::new(Simulator::started(oracle, reading)) }
    }

    fn step(&self, step: Step) -> InstantaneousElectricalState {
        let mut simulator = self.simulator.borrow_mut();
        match step {
            Step::Fresh => simulator.settled(),
            Step::Ticks(ticks) => simulator.tick(ticks),
            Step::Switch { at, powered } => simulator.switch(at, powered),
        }
    }
}

impl Answers<Step> for OriginalRun<'_> {
    fn answer(&self, step: &Step) -> Answer {
        let settled = self.step(*step);
        let simulator = self.simulator.borrow();
        let Oracle { case, rows, .. } = self.oracle;
        let mut table = case.table.clone();
        write_powered(&mut table, simulator.world());
        let column = vec![0; rows.len()];
        let state = simulator.packed();
        let mut buffers = Buffers::new([&case.profile, &table, &state, &column, &column, &column]);
        let [_, _, _, columns @ ..] = buffers.entries();
        self.oracle.write_columns(&settled, columns);
        buffers.answer(settled.iterations as u32)
    }
}
