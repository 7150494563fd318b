//! The four calls that settle a table, through the editor's crate, with every buffer between guards.

use redstone::{Columns, Rounds, STATE_BYTES};

use crate::compare::{Answer, Answers, Query};
use crate::generate::Case;
use crate::lent::Lent;
use crate::probe::{Probe, answered};
use crate::refusals::{Asked, Devices, Written};
use crate::table::Position;

/// The limit of the original's simulator.
pub const LIMIT: u32 = 128;

/// A call, with the lengths of the signal, weak and strong columns lent to it.
#[derive(Clone, Debug)]
pub struct Call {
    pub input: Input,
    pub columns: [usize; 3],
}

#[derive(Clone, Debug)]
pub enum Input {
    Fresh { state_bytes: usize },
    Settle { devices: Vec<u8>, limit: u32 },
    Tick { state: Vec<u8>, tick: u32, ticks: u32 },
    Switch { state: Vec<u8>, at: Position, powered: bool },
}

impl Input {
    /// The device column or the state, if the call reads one, and the bytes of it that are a row's.
    pub fn devices(&mut self) -> Option<(&mut Vec<u8>, usize)> {
        match self {
            Self::Fresh { .. } => None,
            Self::Settle { devices, .. } => Some((devices, 1)),
            Self::Tick { state, .. } | Self::Switch { state, .. } => Some((state, STATE_BYTES)),
        }
    }
}

impl Call {
    /// What a refusal may fall on.
    pub fn asked<'a>(&'a self, case: &'a Case) -> Asked<'a> {
        let columns = self.columns.map(Written::column);
        let asked = Asked { lent: columns.to_vec(), ..Asked::new(&case.profile, &case.table) };
        match &self.input {
            Input::Fresh { state_bytes } => {
                let state = Written::state(*state_bytes);
                Asked { lent: [state].into_iter().chain(columns).collect(), ..asked }
            }
            Input::Settle { devices, .. } => Asked { devices: Some(Devices::column(devices)), ..asked },
            Input::Tick { state, tick, ticks } => {
                Asked { devices: Some(Devices::state(state)), clock: Some([*tick, *ticks]), ..asked }
            }
            Input::Switch { state, .. } => Asked { devices: Some(Devices::state(state)), ..asked },
        }
    }

    /// The answer of a call that is refused with such a code: every buffer comes back as it was lent.
    pub fn refused(&self, case: &Case, code: u32) -> Answer {
        Buffers::for_call(case, self).answer(code)
    }
}

impl Query for Call {
    fn function(&self) -> &'static str {
        match self.input {
            Input::Fresh { .. } => "fresh",
            Input::Settle { .. } => "settle",
            Input::Tick { .. } => "tick",
            Input::Switch { .. } => "switch",
        }
    }

    fn counted(answer: &Answer) -> Option<(&'static str, i128)> {
        Some(match answer.refusal() {
            Some(number) => ("refusal", number),
            None => ("rounds", answer.number),
        })
    }
}

/// Where the buffers of a call stand in its answer. Those that it only reads are there too. STATE is the device column
/// for settle.
pub const PROFILE: usize = 0;
pub const TABLE: usize = 1;
pub const STATE: usize = 2;
pub const SIGNAL: usize = 3;
pub const WEAK: usize = 4;
pub const STRONG: usize = 5;

/// What a call is lent.
pub struct Buffers([Lent<u8>; 6]);

impl Buffers {
    pub fn new(buffers: [&[u8]; 6]) -> Self {
        Self(buffers.map(Lent::new))
    }

    pub fn for_call(case: &Case, call: &Call) -> Self {
        let state = match &call.input {
            Input::Fresh { state_bytes } => Lent::untouched(*state_bytes),
            Input::Settle { devices: state, .. }
            | Input::Tick { state, .. }
            | Input::Switch { state, .. } => Lent::new(state),
        };
        let [signal, weak, strong] = call.columns.map(Lent::untouched);
        Self([Lent::new(&case.profile), Lent::new(&case.table), state, signal, weak, strong])
    }

    pub fn entries(&mut self) -> [&mut [u8]; 6] {
        self.0.each_mut().map(Lent::entries)
    }

    pub fn answer(self, number: u32) -> Answer {
        Answer::with_buffers(number, self.0.map(Lent::returned))
    }
}

impl Answers<Call> for Probe<'_> {
    fn answer(&self, call: &Call) -> Answer {
        let mut buffers = Buffers::for_call(self.0, call);
        let [profile, table, state, signal, weak, strong] = buffers.entries();
        let columns = Columns { signal, weak, strong };
        let rounds = match call.input {
            Input::Fresh { .. } => redstone::fresh(profile, table, state, columns),
            Input::Settle { limit, .. } => redstone::settle(profile, table, state, limit, columns),
            Input::Tick { tick, ticks, .. } => redstone::tick(profile, table, state, tick, ticks, columns),
            Input::Switch { at, powered, .. } => {
                redstone::switch(profile, table, state, at, powered, columns)
            }
        };
        buffers.answer(answered(rounds.map(Rounds::get)))
    }
}
