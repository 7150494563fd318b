//! Six of the editor's calls on a table: the four that settle it, the support list and the redraw.

use redstone::STATE_BYTES;

use crate::compare::{Answer, Answers};
use crate::generate::Case;
use crate::lent::Lent;
use crate::oracle::Oracle;
use crate::probe::Probe;
use crate::refusals::Asked;
use crate::settling::{Call, Input, LIMIT};
use crate::wire::WireQuery;
use crate::world::{WorldQuery, supports_asked};

#[derive(Clone, Debug)]
pub enum AnyCall {
    Settling(Call),
    Supports { entries: usize },
    Redraw,
}

/// Each call, with buffers of the right lengths and these bytes of devices.
pub fn six_calls(rows: usize, devices: &[u8], state: &[u8]) -> [AnyCall; 6] {
    let settling = |input| AnyCall::Settling(Call { input, columns: [rows; 3] });
    [
        settling(Input::Fresh { state_bytes: STATE_BYTES * rows }),
        settling(Input::Settle { devices: devices.to_vec(), limit: LIMIT }),
        settling(Input::Tick { state: state.to_vec(), tick: 0, ticks: 1 }),
        settling(Input::Switch { state: state.to_vec(), at: [0; 3], powered: true }),
        AnyCall::Supports { entries: rows },
        AnyCall::Redraw,
    ]
}

/// The same, with devices that are all off.
pub fn six_calls_on(case: &Case) -> [AnyCall; 6] {
    let rows = case.rows();
    six_calls(rows, &vec![0; rows], &vec![0; STATE_BYTES * rows])
}

impl AnyCall {
    /// What a refusal may fall on.
    pub fn asked<'a>(&'a self, case: &'a Case) -> Asked<'a> {
        match self {
            Self::Settling(call) => call.asked(case),
            Self::Supports { entries } => supports_asked(case, *entries),
            Self::Redraw => Asked::new(&case.profile, &case.table),
        }
    }

    /// The answer of a call that is refused with such a code: every buffer comes back as it was lent.
    pub fn refused(&self, case: &Case, code: u32) -> Answer {
        match self {
            Self::Settling(call) => call.refused(case, code),
            Self::Supports { entries } => {
                Answer::with_buffers(code, [Lent::<u16>::untouched(*entries).returned()])
            }
            Self::Redraw => Answer::with_buffers(code, [Lent::new(&case.table).returned()]),
        }
    }

    /// Whether it reads a device column or a state.
    pub fn reads_devices(&self) -> bool {
        matches!(self, Self::Settling(Call { input, .. }) if !matches!(input, Input::Fresh { .. }))
    }

    /// The device column or the state of a call that reads one, and the bytes of it that are a row's.
    pub fn devices(&mut self) -> (&mut Vec<u8>, usize) {
        match self {
            Self::Settling(Call { input, .. }) => input.devices().expect("a call that reads devices"),
            other => unreachable!("{other:?} reads no devices"),
        }
    }

    /// Sets the device byte of a row.
    pub fn set_device(&mut self, row: usize, byte: u8) {
        let (bytes, width) = self.devices();
        bytes[width * row] = byte;
    }

    fn answer(&self, side: &(impl Answers<Call> + Answers<WorldQuery> + Answers<WireQuery>)) -> Answer {
        match self {
            Self::Settling(call) => side.answer(call),
            Self::Supports { entries } => side.answer(&WorldQuery::SupportIssues { entries: *entries }),
            Self::Redraw => side.answer(&WireQuery::Redraw),
        }
    }
}

impl Answers<AnyCall> for Probe<'_> {
    fn answer(&self, call: &AnyCall) -> Answer {
        call.answer(self)
    }
}

impl Answers<AnyCall> for Oracle<'_> {
    fn answer(&self, call: &AnyCall) -> Answer {
        call.answer(self)
    }
}
