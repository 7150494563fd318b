//! The proved library, by the editor's circuit.

use ::redstone::Circuit;

use super::bench::{Bench, Settled};
use crate::clear;
use crate::generate::Case;
use crate::probe::Probe;
use crate::refusals::Refusal;
use crate::settling::LIMIT;
use crate::table::Position;

const NOT_REFUSED: &str = "a table that fresh accepts is accepted by every call";

pub struct Proved(Result<Circuit, ::redstone::Refusal>);

impl Proved {
    pub fn new(case: Case) -> Self {
        Self(Circuit::from_table(&case.profile, case.table))
    }

    fn circuit(&self) -> &Circuit {
        self.0.as_ref().expect(NOT_REFUSED)
    }

    /// What a call leaves.
    fn called<T>(&mut self, call: impl FnOnce(&mut Circuit) -> Result<T, ::redstone::Refusal>) -> Settled {
        let circuit = self.0.as_mut().expect(NOT_REFUSED);
        call(circuit).expect(NOT_REFUSED);
        settled(circuit)
    }
}

fn settled(circuit: &Circuit) -> Settled {
    let columns = circuit.settled();
    Settled {
        rounds: circuit.rounds().get(),
        state: circuit.state().to_vec(),
        columns: [columns.signal(), columns.weak(), columns.strong()].map(<[u8]>::to_vec),
    }
}

impl Bench for Proved {
    /// Both calls that settle the fresh devices are to answer the same.
    fn fresh(&mut self) -> Result<Settled, Refusal> {
        let circuit = self.0.as_ref().map_err(|refusal| Refusal::from(*refusal))?;
        let other = circuit.settle(&circuit.devices(), LIMIT).expect(NOT_REFUSED);
        assert_eq!(circuit.settled(), &other);
        Ok(settled(circuit))
    }

    fn tick(&mut self, ticks: u32) -> Settled {
        self.called(|circuit| circuit.tick(ticks))
    }

    fn switch(&mut self, at: Position, powered: bool) -> Settled {
        self.called(|circuit| circuit.switch(at, powered))
    }

    fn redrawn(&self) -> Vec<u8> {
        let mut circuit = self.circuit().clone();
        circuit.redraw().expect(NOT_REFUSED);
        circuit.table().to_vec()
    }

    fn unsupported(&self) -> Vec<usize> {
        self.circuit().unsupported().expect(NOT_REFUSED)
    }

    fn passes(&self) -> Vec<u16> {
        let case = Case::of_bytes(self.circuit().profile(), self.circuit().table());
        clear::passes(&Probe(&case), &case)
    }

    fn unrefused(&self) -> Option<Settled> {
        None
    }
}
