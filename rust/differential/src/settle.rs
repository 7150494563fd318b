//! What documents 01 and 02 say of the program `settle`.

use original::electrical::PoweredBlockState;
use redstone::Row;

use crate::generate::Case;
use crate::oracle::{Oracle, pos};
use crate::refusals::Refusal;
use crate::report;

/// What it is to write for an input.
pub fn expected(input: &[u8]) -> String {
    written(input).unwrap_or_else(report::refused)
}

fn written(input: &[u8]) -> Result<String, Refusal> {
    let (profile, table) = parts(input).map_err(|number| Refusal { number, row: 0 })?;
    let case = Case::of_bytes(profile, table);
    let oracle = Oracle::new(&case);
    oracle.refusal?;
    Ok(settled(&oracle))
}

/// The profile and the table, or the number by which the input's length is refused. Change 4: `settle` "tells 13 from 14
/// by the length's remainder by 32 and calls any other remainder number 2, before number 1's other cases".
fn parts(input: &[u8]) -> Result<(&[u8], &[u8]), u32> {
    let profile_bytes = input.len() % 32;
    let most = if profile_bytes == 14 { 32_782 } else { 32_781 };
    match (input.len(), profile_bytes) {
        (..13, _) => Err(1),
        (length, _) if length > most => Err(3),
        (_, 13 | 14) => Ok(input.split_at(profile_bytes)),
        _ => Err(2),
    }
}

fn settled(oracle: &Oracle) -> String {
    let settled = oracle.settle_fresh();
    let numbers = |row: &Row| {
        let at = pos(row.position());
        let PoweredBlockState { weak, strong } = settled.power(at);
        (row.position(), [settled.signal(at), weak, strong])
    };
    let rows: Vec<_> = oracle.rows.iter().map(numbers).collect();
    report::settled(settled.iterations as u32, &rows)
}
