//! The text that the program `settle` writes.

use crate::refusals::Refusal;
use crate::table::Position;

pub fn refused(Refusal { number, row }: Refusal) -> String {
    format!("refusal={number}\nplace={row}\n")
}

/// Rows are given by their positions, each with its signal, weak and strong power.
pub fn settled(rounds: u32, rows: &[(Position, [u8; 3])]) -> String {
    let lines: String = rows.iter().map(|row| self::row(row) + "\n").collect();
    format!("blocks={}\nrounds={rounds}\n{lines}", rows.len())
}

pub fn row(([x, y, z], [signal, weak, strong]): &(Position, [u8; 3])) -> String {
    format!("row={x},{y},{z},{signal},{weak},{strong}")
}
