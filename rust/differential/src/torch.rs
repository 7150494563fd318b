//! The charge of the block above a torch, held to a second reading of document 02's Change 3.

mod misreadings;
mod trials;

use redstone::{Circuit, Kind, Row, Shape};

use crate::compare::{Answer, Answers, Query};
use crate::devices::any_devices;
use crate::generate::{Case, TORCH};
use crate::lent::Lent;
use crate::probe::Probe;
use crate::random::Random;
use crate::settling::LIMIT;
use crate::table::{self, ABOVE, Position, moved};

pub use misreadings::{MISREADINGS, Misreading};
pub use trials::{BYTES, Pair, TRIALS, Trial, pairs, profile, torches};

/// A table that is settled, and its devices.
pub struct Settling<'a> {
    pub profile: &'a [u8],
    pub rows: &'a [Row],
    pub devices: &'a [u8],
}

impl Settling<'_> {
    fn has_value(&self) -> bool {
        self.profile[TORCH] & 32 != 0
    }

    fn is_torch(&self, row: usize) -> bool {
        self.rows[row].kind() == Kind::RedstoneTorch
    }

    fn is_lit_torch(&self, row: usize) -> bool {
        self.is_torch(row) && self.devices[row] == 1
    }

    /// Whether a row stands so far from another.
    fn stands(&self, row: usize, step: Position, from: usize) -> bool {
        self.rows[row].position() == moved(self.rows[from].position(), step)
    }

    /// Document 01: "Plain traits come from the profile", 4 for strong power, and of the other shapes the double slab alone
    /// conducts it.
    fn receives_strong(&self, row: usize) -> bool {
        match self.rows[row].shape() {
            Shape::Plain => self.kind_has(4, row),
            shape => shape == Shape::DoubleSlab,
        }
    }

    /// Whether the profile has a value for the row's kind.
    fn kind_has(&self, value: u8, row: usize) -> bool {
        self.profile[usize::from(self.rows[row].kind().code())] & value != 0
    }
}

/// The strong power that a row gives by Change 3 to another.
pub type Charge = fn(&Settling, usize, usize) -> u8;

/// Change 3: with the value "a lit torch of any shape gives strong power 15 to the block above where that block receives
/// strong".
pub fn charge(settling: &Settling, from: usize, to: usize) -> u8 {
    let charges = settling.has_value()
        && settling.is_lit_torch(from)
        && settling.stands(to, ABOVE, from)
        && settling.receives_strong(to);
    if charges { 15 } else { 0 }
}

/// The strong column of a table that is settled with these devices. It is counted by the number of rows that have another
/// strong power than without the value.
#[derive(Debug)]
pub struct Strong(pub Vec<u8>);

impl Query for Strong {
    fn function(&self) -> &'static str {
        "strong"
    }

    fn counted(answer: &Answer) -> Option<(&'static str, i128)> {
        Some(("blocks charged", answer.number))
    }
}

/// The fresh devices, and others.
pub fn queries(case: &Case) -> Vec<Strong> {
    let any = any_devices(&mut Random::new(case.seed), &table::rows(&case.table));
    vec![Strong(circuit(case).devices()), Strong(any)]
}

fn circuit(case: &Case) -> Circuit {
    Circuit::from_table(&case.profile, &case.table[..]).expect("an accepted case")
}

/// The proved strong column.
fn strong(case: &Case, Strong(devices): &Strong) -> Vec<u8> {
    circuit(case).settle(devices, LIMIT).expect("a valid column").strong().to_vec()
}

/// The column without the value, which "is the Rust's".
fn strong_without(case: &Case, query: &Strong) -> Vec<u8> {
    strong(&case.with_torch_charging(false), query)
}

fn answer(strong: &[u8], without: &[u8]) -> Answer {
    let charged = strong.iter().zip(without).filter(|(strong, without)| strong != without).count();
    Answer::with_buffers(charged as u32, [Lent::new(strong).returned()])
}

impl Answers<Strong> for Probe<'_> {
    fn answer(&self, query: &Strong) -> Answer {
        answer(&strong(self.0, query), &strong_without(self.0, query))
    }
}

/// What is expected where the change is read so.
pub struct Reading<'a> {
    case: &'a Case,
    charge: Charge,
}

impl<'a> Reading<'a> {
    pub fn new(case: &'a Case, charge: Charge) -> Self {
        Self { case, charge }
    }
}

impl Answers<Strong> for Reading<'_> {
    /// Each takes the largest arriving.
    fn answer(&self, query: &Strong) -> Answer {
        let rows = table::rows(&self.case.table);
        let settling = Settling { profile: &self.case.profile, rows: &rows, devices: &query.0 };
        let charge = |to| (0..rows.len()).map(|from| (self.charge)(&settling, from, to)).max();
        let without = strong_without(self.case, query);
        let largest = |(to, strong): (usize, &u8)| charge(to).unwrap_or(0).max(*strong);
        let strong: Vec<_> = without.iter().enumerate().map(largest).collect();
        answer(&strong, &without)
    }
}
