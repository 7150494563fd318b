//! Settling in two ways: in one pass over keys of the dust, by the editor's call, and round by round, by a call of the library
//! `probe`. Held to each other, to the original and to a reading of the keys, at every limit and with every byte of every
//! buffer.

mod alterations;
mod faults;
mod full;
mod keys;
mod misreadings;
mod network;
mod written;

use redstone::{Kind, ROW_BYTES, Row, STATE_BYTES};

use crate::compare::{Answer, Answers, Compared, Tally, compare};
use crate::damage::{damage_bytes, other_length, overdrive};
use crate::devices::{any_devices, first_devices};
use crate::generate::Case;
use crate::probe::probe_settle_by_rounds;
use crate::random::Random;
use crate::refusals::check;
use crate::settling::{Buffers, Call, Input, LIMIT, STATE, TABLE};
use crate::table;

pub use alterations::ALTERATIONS;
pub use faults::{
    Refused, all_combinations, device_bytes, in_every_order, lengths, limits_beside_faults, single_bytes,
};
pub use full::full_tables;
pub use keys::{Keys, READING, Reading};
pub use misreadings::{LINES_GOING_ON, MISPLACINGS, MISREADINGS, Misreading, SEARCHES};
pub use written::{ByHand, TABLES, Trial, lines, single_rows, turned};

/// The plain way.
pub struct ByRounds<'a>(pub &'a Case);

impl Answers<Call> for ByRounds<'_> {
    fn answer(&self, call: &Call) -> Answer {
        let Input::Settle { limit, .. } = call.input else { panic!("{call:?} has one way alone") };
        let mut buffers = Buffers::for_call(self.0, call);
        let [profile, table, devices, signal, weak, strong] = buffers.entries();
        let number = probe_settle_by_rounds(profile, table, devices, limit, signal, weak, strong);
        buffers.answer(number)
    }
}

/// Every limit up to a few above the most rounds, the simulator's and the highest.
pub fn limits() -> impl Iterator<Item = u32> {
    (0..=20).chain([LIMIT, u32::MAX])
}

/// A call with columns of the right lengths.
pub fn settle(case: &Case, devices: &[u8], limit: u32) -> Call {
    Call { input: Input::Settle { devices: devices.to_vec(), limit }, columns: [case.rows(); 3] }
}

/// The device columns with which a case is settled: of an accepted one those that it starts with, any and all on; of another
/// one that is all off.
pub fn device_columns(case: &Case) -> Vec<Vec<u8>> {
    if check(&case.profile, &case.table).is_err() {
        return vec![vec![0; case.rows()]];
    }
    let rows = table::rows(&case.table);
    let any = any_devices(&mut Random::new(case.seed), &rows);
    let mut columns = vec![first_devices(&rows), any, all_on(&rows)];
    columns.dedup();
    columns
}

fn all_on(rows: &[Row]) -> Vec<u8> {
    let on = |row: &Row| match row.kind() {
        Kind::Repeater | Kind::RedstoneTorch => 1,
        Kind::Comparator => 15,
        _ => 0,
    };
    rows.iter().map(on).collect()
}

/// From this many rows on a table is asked for less.
pub const LARGE: usize = 100;

/// The calls on a case: with each device column at every limit, or with the first alone where the table is large; and one that
/// is damaged.
pub fn queries(case: &Case) -> Vec<Call> {
    let columns = device_columns(case);
    let limits = |column: usize| {
        let few = [0, 1, 2, 16, 17, LIMIT];
        if column == 0 || case.rows() < LARGE { limits().collect() } else { few.to_vec() }
    };
    let of_column = |(number, devices): (usize, &Vec<u8>)| {
        limits(number).into_iter().map(|limit| settle(case, devices, limit)).collect::<Vec<_>>()
    };
    let damaged = damaged(case, settle(case, &columns[0], LIMIT));
    columns.iter().enumerate().flat_map(of_column).chain([damaged]).collect()
}

/// The call with another length or byte of its device column, with comparators overdriven, or with another length of a column.
fn damaged(case: &Case, mut call: Call) -> Call {
    let random = &mut Random::new(!case.seed ^ case.table.len() as u64);
    let Call { input: Input::Settle { devices, .. }, columns } = &mut call else { return call };
    match random.below(4) {
        0 => damage_bytes(random, devices),
        1 => overdrive_any(random, case, devices),
        _ => {
            let column = random.below(columns.len());
            columns[column] = other_length(random, columns[column]);
        }
    }
    call
}

fn overdrive_any(random: &mut Random, case: &Case, devices: &mut [u8]) {
    let rows: Vec<_> = case.table.chunks_exact(ROW_BYTES).flat_map(Row::try_from).collect();
    if rows.len() == devices.len() {
        overdrive(random, &rows, devices, 1);
    }
}

/// The plain way against the given side.
pub fn compare_case(case: &Case, actual: &dyn Answers<Call>, tally: &mut Tally) -> Compared {
    compare(queries(case), &ByRounds(case), actual, tally)
}

/// The plain way of what a call of the editor's has settled: the table and the devices that it leaves.
pub fn by_rounds_after(case: &Case, answer: &Answer) -> Answer {
    let left = Case { table: answer.bytes(TABLE), profile: case.profile.clone(), ..*case };
    let devices: Vec<_> = answer.bytes(STATE).into_iter().step_by(STATE_BYTES).collect();
    ByRounds(&left).answer(&settle(&left, &devices, LIMIT))
}
