//! What the tables are put through.

use crate::refusals::Refusal;
use crate::table::Position;

/// A table on its way through the calls.
pub trait Bench {
    /// Settles the table with its fresh devices, or refuses it.
    fn fresh(&mut self) -> Result<Settled, Refusal>;
    fn tick(&mut self, ticks: u32) -> Settled;
    fn switch(&mut self, at: Position, powered: bool) -> Settled;
    /// The table with its arms drawn anew.
    fn redrawn(&self) -> Vec<u8>;
    /// The numbers of the rows that the support list names.
    fn unsupported(&self) -> Vec<usize>;
    /// The pass in which clearing takes out each row, or 0.
    fn passes(&self) -> Vec<u16>;
    /// What the original settles the fresh devices to, be the table refused or not. The library cannot say.
    fn unrefused(&self) -> Option<Settled>;
}

/// What a call leaves.
#[derive(Debug, PartialEq)]
pub struct Settled {
    pub rounds: u32,
    pub state: Vec<u8>,
    /// Signal, weak and strong.
    pub columns: [Vec<u8>; 3],
}
