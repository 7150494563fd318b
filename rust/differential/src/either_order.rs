//! The redraw twice, and the redraw and the switch in either order: the laws of document 02's Change 8, held to the proved
//! calls, to answers by hand, to a second reading and to the original.

mod faults;
mod generated;
mod misreadings;
mod moments;
#[cfg(not(no_original))]
mod original;
mod reading;
mod small;
mod trials;
mod written;

use redstone::{ROW_BYTES, STATE_BYTES};

use crate::compare::Answer;
use crate::generate::Case;
use crate::lent::{Entry, Lent, Returned};
use crate::probe::{redstone_redraw, redstone_switch};
use crate::refusals::Refusal;
use crate::settling::{Buffers, PROFILE, SIGNAL, STATE, TABLE};
use crate::table::Position;

pub use faults::{all_combinations, in_every_order};
pub use generated::{Generated, generated};
pub use misreadings::{MISREADINGS, Misreading};
pub use moments::{Edit, edits, tables_left};
#[cfg(not(no_original))]
pub use original::tables as tables_of_the_original;
pub use reading::{READING, Reading};
pub use small::{crosses, refused_crosses};
pub use trials::{POWERS, bad_powered, far_positions, kinds, single_bytes};
pub use written::{TRIALS, at_every_position};

/// A switch of a case.
#[derive(Clone, Debug)]
pub struct Switch {
    pub state: Vec<u8>,
    pub at: Position,
    pub powered: u32,
    /// The lengths of the signal, weak and strong columns.
    pub columns: [usize; 3],
}

impl Switch {
    /// With a state and columns of the right lengths. The devices are all off.
    pub fn of(case: &Case, at: Position, powered: u32) -> Self {
        let rows = case.rows();
        Self { state: vec![0; STATE_BYTES * rows], at, powered, columns: [rows; 3] }
    }
}

/// A side that redraws and switches. It is lent the profile and the table, and to switch also the state and the columns.
pub trait Calls {
    fn redraw(&self, lent: [&mut [u8]; 2]) -> u32;
    fn switch(&self, lent: [&mut [u8]; 6], switch: &Switch) -> u32;
}

/// The proved calls.
pub struct Library;

impl Calls for Library {
    fn redraw(&self, [profile, table]: [&mut [u8]; 2]) -> u32 {
        redstone_redraw(profile, table)
    }

    fn switch(&self, [profile, table, state, signal, weak, strong]: [&mut [u8]; 6], switch: &Switch) -> u32 {
        let Switch { at: [x, y, z], powered, .. } = *switch;
        redstone_switch(profile, table, state, x, y, z, powered, signal, weak, strong)
    }
}

/// The calls of a trial, each with its answer and every buffer, between guards. The rounds and the columns of a switch that
/// is not refused are left out, for the laws are not about them.
#[derive(Clone, Debug, Eq, PartialEq)]
pub struct Ran {
    pub redraw: Answer,
    pub redraw_again: Answer,
    pub switch: Answer,
    pub redraw_after_switch: Answer,
    pub switch_after_redraw: Answer,
}

/// How many calls it takes.
pub const CALLS: usize = 5;

impl Ran {
    pub fn new(calls: &impl Calls, case: &Case, switch: &Switch) -> Self {
        Self::of_switches(calls, case, [switch, switch])
    }

    /// The first switch is made before the redraw, and the other one after it.
    pub fn of_switches(calls: &impl Calls, case: &Case, [before, after]: [&Switch; 2]) -> Self {
        let redraw = redrawn(calls, case);
        let redrawn_once = left_by(&redraw, case);
        let switch = switched(calls, case, before);
        Self {
            redraw_again: redrawn(calls, &redrawn_once),
            redraw_after_switch: redrawn(calls, &left_by(&switch, case)),
            switch_after_redraw: switched(calls, &redrawn_once, after),
            redraw,
            switch,
        }
    }

    pub fn each(&self) -> [&Answer; CALLS] {
        let Self { redraw, redraw_again, switch, redraw_after_switch, switch_after_redraw } = self;
        [redraw, redraw_again, switch, redraw_after_switch, switch_after_redraw]
    }

    /// The numbers by which the switches are refused, before the redraw and after it.
    pub fn refused_switches(&self) -> [Option<i128>; 2] {
        [&self.switch, &self.switch_after_redraw].map(Answer::refusal)
    }

    /// Whether both orders end in the same table.
    pub fn ends_in_same_table(&self) -> bool {
        let [one, other] =
            [&self.redraw_after_switch, &self.switch_after_redraw].map(|last| &last.buffers[PROFILE..=TABLE]);
        one == other
    }

    /// Whether the redraw answers the same in both orders.
    pub fn redraws_answer_same(&self) -> bool {
        self.redraw_after_switch.number == self.redraw.number
    }

    /// Whether no call wrote to a guard, to the profile or to the state.
    pub fn is_confined(&self, case: &Case, [before, after]: [&Switch; 2]) -> bool {
        let is_as_lent = |buffer: &Returned, bytes: &[u8]| *buffer == Lent::new(bytes).returned();
        let states = [(&self.switch, before), (&self.switch_after_redraw, after)];
        self.each().iter().all(|answer| {
            let is_inside = answer.buffers.iter().all(|buffer| buffer.outside.is_empty());
            is_inside && is_as_lent(&answer.buffers[PROFILE], &case.profile)
        }) && states.iter().all(|(answer, switch)| is_as_lent(&answer.buffers[STATE], &switch.state))
    }
}

/// The case with the table that a call left.
fn left_by(answer: &Answer, case: &Case) -> Case {
    Case { table: answer.bytes(TABLE), profile: case.profile.clone(), ..*case }
}

/// The case with the table that the redraw leaves.
pub fn redrawn_case(calls: &impl Calls, case: &Case) -> Case {
    left_by(&redrawn(calls, case), case)
}

/// The case with the table that the switch leaves.
pub fn switched_case(calls: &impl Calls, case: &Case, switch: &Switch) -> Case {
    left_by(&switched(calls, case, switch), case)
}

fn redrawn(calls: &impl Calls, case: &Case) -> Answer {
    let mut lent = [&case.profile, &case.table].map(|bytes| Lent::new(bytes));
    let number = calls.redraw(lent.each_mut().map(Lent::entries));
    Answer::with_buffers(number, lent.map(Lent::returned))
}

fn switched(calls: &impl Calls, case: &Case, switch: &Switch) -> Answer {
    let [signal, weak, strong] = switch.columns.map(|entries| vec![u8::UNTOUCHED; entries]);
    let mut buffers = Buffers::new([&case.profile, &case.table, &switch.state, &signal, &weak, &strong]);
    let number = calls.switch(buffers.entries(), switch);
    without_rounds_and_columns(buffers.answer(number))
}

fn without_rounds_and_columns(mut answer: Answer) -> Answer {
    if answer.refusal().is_none() {
        answer.number = 0;
        answer.buffers[SIGNAL..].iter_mut().for_each(|column| column.entries.clear());
    }
    answer
}

/// The laws of Change 8. They are asked of refused calls, too.
#[derive(Clone, Copy, Debug, Eq, Ord, PartialEq, PartialOrd)]
pub enum Law {
    /// "Redrawing an accepted table twice gives the bytes of redrawing once": and the second redraw answers as the first.
    Twice,
    /// "Switching a position to a given power and then redrawing gives the same table as redrawing and then switching": and
    /// both redraws answer the same, and both switches, the rounds aside.
    EitherOrder,
}

impl Law {
    pub const ALL: [Self; 2] = [Self::Twice, Self::EitherOrder];

    pub fn holds(self, ran: &Ran) -> bool {
        match self {
            Self::Twice => ran.redraw_again == ran.redraw,
            Self::EitherOrder => {
                ran.ends_in_same_table()
                    && ran.redraws_answer_same()
                    && ran.switch.number == ran.switch_after_redraw.number
            }
        }
    }

    /// Those that do not hold.
    pub fn broken(ran: &Ran) -> impl Iterator<Item = Self> {
        Self::ALL.into_iter().filter(|law| !law.holds(ran))
    }
}

/// A case and a switch of it, and by hand what the redraw and the switch do. As `Calls` it answers by hand.
#[derive(Clone, Debug)]
pub struct Trial {
    pub case: Case,
    pub switch: Switch,
    /// The numbers of the dust's rows, and bytes 23 to 27 of each after the redraw.
    pub drawn: Result<Vec<(usize, Stored)>, Refusal>,
    /// The number of the row that is switched, if there is one.
    pub switched: Result<Option<usize>, Refusal>,
}

/// Bytes 23 to 27 of a row.
pub type Stored = [u8; 5];

/// Those of a dust whose arms are written so, as in a table by hand.
fn stored(arms: &str) -> Option<Stored> {
    let code = |arm| match arm {
        b'-' => 0,
        b'S' => 2,
        b'U' => 3,
        _ => panic!("{arms} is not written with -, S and U"),
    };
    let &[north, east, south, west] = arms.as_bytes() else { return None };
    Some([1, code(north), code(east), code(south), code(west)])
}

impl Calls for Trial {
    fn redraw(&self, [_, table]: [&mut [u8]; 2]) -> u32 {
        match &self.drawn {
            Ok(drawn) => {
                drawn.iter().for_each(|(row, stored)| *stored_of(table, *row) = *stored);
                0
            }
            Err(refusal) => refusal.code(),
        }
    }

    fn switch(&self, [_, table, ..]: [&mut [u8]; 6], switch: &Switch) -> u32 {
        match self.switched {
            Ok(row) => {
                let powered = if switch.powered == 0 { 1 } else { 2 };
                row.into_iter().for_each(|row| *powered_of(table, row) = powered);
                0
            }
            Err(refusal) => refusal.code(),
        }
    }
}

/// Bytes 23 to 27 of a table's row.
fn stored_of(table: &mut [u8], row: usize) -> &mut Stored {
    row_of(table, row)[23..].first_chunk_mut().expect("a row has 32 bytes")
}

/// Byte 14 of a table's row.
fn powered_of(table: &mut [u8], row: usize) -> &mut u8 {
    &mut row_of(table, row)[14]
}

fn row_of(table: &mut [u8], row: usize) -> &mut [u8; ROW_BYTES] {
    &mut table.as_chunks_mut().0[row]
}
