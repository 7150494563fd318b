//! Settles redstone and runs it tick by tick, through the proved calls of the static library `redstone`.
//!
//! A table of at most 1,024 blocks goes in, and out come three figures for each: its signal, and its weak and its
//! strong power. [`Circuit`] keeps a table with its state and its figures. A redstone block, and beside it two dust on
//! solid blocks:
//!
//! ```
//! use redstone::{BENCH_PROFILE, Circuit, Kind, Row};
//!
//! let circuit = Circuit::new(&BENCH_PROFILE, [
//!     Row::new(Kind::RedstoneBlock, [0, 1, 0]),
//!     Row::new(Kind::Solid, [1, 0, 0]),
//!     Row::new(Kind::RedstoneWire, [1, 1, 0]),
//!     Row::new(Kind::Solid, [2, 0, 0]),
//!     Row::new(Kind::RedstoneWire, [2, 1, 0]),
//! ])?;
//!
//! assert_eq!(circuit.rounds().get(), 4);
//! assert_eq!(circuit.at([2, 1, 0]).map(|block| block.figures.signal), Some(14));
//! assert_eq!(circuit.settled().signal(), [15, 0, 15, 0, 14]);
//! assert_eq!(circuit.settled().weak(), [0, 15, 0, 14, 0]);
//! # Ok::<(), redstone::Refusal>(())
//! ```
//!
//! # Rows
//!
//! A [`Row`] is a block and its position, in fields; [`table()`] packs rows, [`rows()`] reads them back, and [`find`]
//! looks a position up. y is up. What a newcomer has to know:
//!
//! - A repeater or comparator faces its output; its input is at the opposite side. Without a horizontal facing it has
//!   neither.
//! - A lever, button or plate powers the block at its support offset, `[0, -1, 0]` for the one below. Without an offset
//!   it powers no block, and still gives its level to dust beside it.
//! - A torch goes out while the block at its support offset has power. One whose `powered` is missing starts lit.
//! - A copper bulb is a lamp whose light flips each time that power arrives, and then stays. It starts as its `powered`
//!   says, and dark where that is missing. It takes a profile with its byte, such as [`BENCH_PROFILE_WITH_BULB`].
//! - The support offset is what the [support list](supports) looks at, too: settling itself asks for no floor. What
//!   has no support to be fixed to, [`clear`] takes away.
//!
//! # Figures
//!
//! - The *signal* is the level that a source or device gives, and a dust's own; 0 for all other blocks.
//! - *Strong power* is what levers, buttons, plates, repeaters, comparators and redstone blocks give to a block; and
//!   lit torches to the one above, if the profile has [`TORCH_CHARGES_ABOVE`].
//! - *Weak power* is what dust, and strongly powered neighbours, give to a block.
//!
//! Each is from 0 to 15, whatever the block. Lamps, bulbs, torches, repeaters and comparators answer to both powers;
//! strong power alone drives dust. What a table settles to is an instant: the devices stand as the state has them, and a
//! tick, a tenth of a second, lets them answer. So a torch on a powered block is lit in the fresh state and out after one
//! tick.
//!
//! # Calls
//!
//! There are ten calls over plain slices, which an editor with buffers of its own can use as they are. [`Circuit`] is
//! made of eight: [`fresh`] once for a table, then [`tick`] and [`switch`] as the player waits and throws levers;
//! [`settle`] asks what a table settles to with other devices; [`redraw`] draws the arms of dust; [`supports`] lists
//! what nothing holds up, and [`clear`] takes it away, with all that it held up; [`feeders`] lists what dust feeds which.
//! The ninth, [`replace`], puts a block in the place of another and updates that list, which [`Feeders`] does with buffers
//! of its own. The tenth, [`merge`], puts two tables in one. [`cleared`] and [`merged`] are the same as
//! [`clear`] and [`merge`] without buffers to lend. The repository's README has their formats byte by byte:
//!
//! - The profile has [`PROFILE_BYTES`], one for each kind of block from Air on, such as [`BENCH_PROFILE`]; or
//!   [`PROFILE_BYTES_WITH_BULB`], such as [`BENCH_PROFILE_WITH_BULB`], and only then may the table have bulbs.
//! - The table has [`ROW_BYTES`] for each row, ordered by x, then y, then z, each position once. Rows are numbered in
//!   that order, from 0.
//! - A device column has a byte for each row: a repeater's or torch's is 1 where it is on, a comparator's is its
//!   level, from 0 to 15, any other is 0.
//! - A state has [`STATE_BYTES`] for each row, which [`Device::read`] reads. [`fresh`] writes it, and [`tick`] moves it
//!   on.
//! - A list of feeders has [`MOST_FEEDERS`] entries for each row: the numbers of the rows of dust that transmits into it,
//!   and then [`NO_ROW`].
//!
//! ```
//! use redstone::{BENCH_PROFILE, Columns, Kind, ROW_BYTES, Row, STATE_BYTES};
//!
//! let table = redstone::table([Row::new(Kind::RedstoneBlock, [0, 0, 0]), Row::new(Kind::RedstoneLamp, [1, 0, 0])]);
//! let rows = table.len() / ROW_BYTES;
//! let mut state = vec![0; STATE_BYTES * rows];
//! let [mut signal, mut weak, mut strong] = [vec![0; rows], vec![0; rows], vec![0; rows]];
//! let columns = Columns { signal: &mut signal, weak: &mut weak, strong: &mut strong };
//!
//! redstone::fresh(&BENCH_PROFILE, &table, &mut state, columns)?;
//!
//! assert_eq!((signal, strong), (vec![15, 0], vec![0, 15]));
//! # Ok::<(), redstone::Refusal>(())
//! ```
//!
//! # Refusals
//!
//! A call reads any bytes of any length. What it cannot do it refuses, and then it has written to none of the
//! buffers lent to it. [`Refusal`] has the number and the row that the call answered, and a [`Fault`] that says what
//! exactly is wrong and what would be right; of two tables that are merged also in which of them it is.
//!
//! # Threads and stack
//!
//! There are no globals: any thread may call at any time. A call allocates nothing, and a thread with 48 KiB of free
//! stack is enough for it.

#![deny(unsafe_code, unsafe_op_in_unsafe_fn)]
#![warn(missing_docs)]

mod answer;
#[allow(unsafe_code)]
mod c;
mod checks;
mod circuit;
mod clear;
mod code;
mod device;
mod fault;
mod feeders;
mod field;
mod merge;
mod row;
mod table;
#[cfg(test)]
mod tests;

use answer::answered;
pub use answer::{Refusal, RefusalKind, Rounds};
pub use circuit::{Block, Circuit, Figures, Settled};
pub use clear::Cleared;
pub use code::{Arm, Facing, Kind, Shape, UnknownCode, UnknownName};
pub use device::Device;
pub use fault::{Buffer, Fault, WhichTable};
pub use feeders::{DustTransfer, Feeder, Feeders};
pub use field::BadField;
pub use merge::{Clash, clashes};
pub use row::{Row, RowError};
pub use table::{find, rows, table};

/// The program in the README.
#[cfg(doctest)]
#[doc = include_str!("../../../README.md")]
struct Readme;

/// Bytes of a row of the table.
pub const ROW_BYTES: usize = 32;
/// Bytes of a row of a state.
pub const STATE_BYTES: usize = 16;
/// Bytes of a profile for tables without bulbs.
pub const PROFILE_BYTES: usize = 13;
/// Bytes of a profile for tables that may have bulbs, whose byte is the last. It is good for any table.
pub const PROFILE_BYTES_WITH_BULB: usize = 14;
/// The most rows that a table may have.
pub const MOST_ROWS: usize = 1024;
/// The largest coordinate; its negative is the smallest.
pub const FARTHEST: i32 = 1_000_000;
/// The largest part of the offset that [`merge`] moves a table by; its negative is the smallest.
pub const FARTHEST_OFFSET: i32 = 2_000_000;
/// Bytes of the room that is lent to [`merge`]: those of the most rows.
pub const MERGE_BYTES: usize = MOST_ROWS * ROW_BYTES;
/// The most dust that transmits into one, and the entries that a list of feeders has for a row.
pub const MOST_FEEDERS: usize = 12;
/// The entry of a list of feeders that is no row's.
pub const NO_ROW: u16 = u16::MAX;

/// The largest level: every signal, every weak and every strong power that a call writes is from 0 to this.
///
/// A comparator with a larger one is refused. Who has such rows clips them:
///
/// ```
/// use redstone::{BENCH_PROFILE, Circuit, Kind, MOST_LEVEL, Row};
///
/// let comparator = Row::new(Kind::Comparator, [0, 0, 0]).with_power_level(200);
/// let refusal = Circuit::new(&BENCH_PROFILE, [comparator]).unwrap_err();
/// assert_eq!(
///     refusal.to_string(),
///     "refusal 10, overdriven: row 0 at 0,0,0: power level (byte 16) is 200; a comparator's may be at most 15"
/// );
///
/// let clipped = comparator.with_power_level(comparator.power_level().map(|level| level.min(MOST_LEVEL)));
/// assert_eq!(Circuit::new(&BENCH_PROFILE, [clipped])?.settled().signal(), [15]);
/// # Ok::<(), redstone::Refusal>(())
/// ```
pub const MOST_LEVEL: u8 = 15;

/// The bench's own profile: solid blocks and lamps conduct, and they, transparent blocks and redstone blocks carry
/// components. Torches power no block: [`TORCH_CHARGES_ABOVE`] is clear.
pub const BENCH_PROFILE: [u8; PROFILE_BYTES] = [0, 31, 1, 0, 0, 0, 0, 0, 0, 0, 31, 1, 0];

/// The bench's own profile, and then the bulb's byte.
///
/// The byte is 7: components stand on a bulb, and weak and strong power that reach it count, but no repeater reads them
/// and they drive no dust. So it is in the game: a full block that does not conduct. What still differs, such as what a
/// comparator reads from a bulb, is in the repository's docs/DIFFERENCES.md.
pub const BENCH_PROFILE_WITH_BULB: [u8; PROFILE_BYTES_WITH_BULB] =
    [0, 31, 1, 0, 0, 0, 0, 0, 0, 0, 31, 1, 0, 7];

/// The value of the torch's byte of a profile by which a lit torch gives strong power 15 to the block above it, where
/// that block receives strong power. The bench profile does not have it; no other kind's byte may.
///
/// A torch, a block over it, and dust on the block:
///
/// ```
/// use redstone::{BENCH_PROFILE, Circuit, Kind, Refusal, Row, TORCH_CHARGES_ABOVE};
///
/// fn levels(profile: &[u8]) -> Result<[u8; 2], Refusal> {
///     let circuit = Circuit::new(profile, [
///         Row::new(Kind::RedstoneTorch, [0, 0, 0]),
///         Row::new(Kind::Solid, [0, 1, 0]),
///         Row::new(Kind::RedstoneWire, [0, 2, 0]),
///     ])?;
///     Ok([circuit.settled().strong()[1], circuit.settled().signal()[2]])
/// }
///
/// let mut profile = BENCH_PROFILE;
/// profile[usize::from(Kind::RedstoneTorch.code())] |= TORCH_CHARGES_ABOVE;
/// assert_eq!(levels(&profile)?, [15, 15]);
/// assert_eq!(levels(&BENCH_PROFILE)?, [0, 0]);
/// # Ok::<(), Refusal>(())
/// ```
pub const TORCH_CHARGES_ABOVE: u8 = 32;

/// The columns that a call fills, each of one byte for each row, from 0 to [`MOST_LEVEL`].
#[derive(Debug)]
pub struct Columns<'a> {
    /// The level that a source or device gives, and a dust's own.
    pub signal: &'a mut [u8],
    /// The power that dust, and strongly powered neighbours, give to a block.
    pub weak: &'a mut [u8],
    /// The power that levers, buttons, plates, repeaters, comparators, redstone blocks and, by the profile, torches give
    /// to a block.
    pub strong: &'a mut [u8],
}

impl Columns<'_> {
    fn lengths(&self) -> [(Buffer, usize); 3] {
        [
            (Buffer::Signal, self.signal.len()),
            (Buffer::Weak, self.weak.len()),
            (Buffer::Strong, self.strong.len()),
        ]
    }
}

/// Writes the state in which a table starts, and settles it.
///
/// A repeater starts as its `powered` says, and off where that is missing; a torch likewise, but lit where it is
/// missing; a comparator with its power level, or where that is missing with 15 or 0 by `powered`; and a lamp lit where
/// the settled table powers it. A bulb starts lit where its `powered` is true. Power that the settled table gives it is
/// not about to arrive: the bulb [had it](Device::Bulb), and so the first tick does not flip it.
///
/// # Errors
///
/// Refusals 1 to 5, 10 on a row, and 7 on the state or a column.
pub fn fresh(
    profile: &[u8],
    table: &[u8],
    state: &mut [u8],
    columns: Columns<'_>,
) -> Result<Rounds, Refusal> {
    let lengths = columns.lengths();
    let Columns { signal, weak, strong } = columns;
    let answer = c::redstone_fresh(profile, table, state, signal, weak, strong);
    answered(answer, || checks::fresh(profile, table, state, &lengths)).map(Rounds)
}

/// Settles a table with these devices, in at most `limit` rounds.
///
/// # Errors
///
/// Refusals 1 to 5, 10 on a row, 6 and 10 on the device column, 7 on a column, and 8 where the limit is too low, which
/// one of [`Rounds::MOST`] never is.
pub fn settle(
    profile: &[u8],
    table: &[u8],
    devices: &[u8],
    limit: u32,
    columns: Columns<'_>,
) -> Result<Rounds, Refusal> {
    let lengths = columns.lengths();
    let Columns { signal, weak, strong } = columns;
    let answer = c::redstone_settle(profile, table, devices, limit, signal, weak, strong);
    answered(answer, || checks::settle(profile, table, devices, limit, &lengths)).map(Rounds)
}

/// Moves a state on by `ticks` ticks, of a tenth of a second each, and settles it. It stands at tick number `tick`
/// before and at `tick + ticks` after. No ticks at all settle it as it is. Any number is run, however long it takes.
///
/// Once a tick has settled, the light of a bulb flips if it has power and had none after the tick before.
///
/// # Errors
///
/// Refusals 1 to 5, 10 on a row, 6 and 10 on the state, 7 on a column, and 9 where the tick's number would pass the last.
pub fn tick(
    profile: &[u8],
    table: &[u8],
    state: &mut [u8],
    tick: u32,
    ticks: u32,
    columns: Columns<'_>,
) -> Result<Rounds, Refusal> {
    let lengths = columns.lengths();
    let Columns { signal, weak, strong } = columns;
    let answer = c::redstone_tick(profile, table, state, tick, ticks, signal, weak, strong);
    answered(answer, || checks::tick(profile, table, state, tick, ticks, &lengths)).map(Rounds)
}

/// Sets whether the block at x, y, z is powered, in the table itself, and settles it. Where no block is, it settles
/// the table as it is. The state stays as it is: a bulb that is powered by it flips at the next tick.
///
/// A switch before a [`redraw`] and the same switch after it, under one profile, end in the same table. Rounds and columns
/// are by the arms that the table has at this call: where the redraw comes last, settle again, as by a [`tick`] of no ticks.
///
/// # Errors
///
/// Refusals 1 to 5, 10 on a row, 6 and 10 on the state, and 7 on a column.
pub fn switch(
    profile: &[u8],
    table: &mut [u8],
    state: &[u8],
    [x, y, z]: [i32; 3],
    powered: bool,
    columns: Columns<'_>,
) -> Result<Rounds, Refusal> {
    let lengths = columns.lengths();
    let Columns { signal, weak, strong } = columns;
    let answer = c::redstone_switch(profile, table, state, x, y, z, powered.into(), signal, weak, strong);
    answered(answer, || checks::switch(profile, table, state, &lengths)).map(Rounds)
}

/// Draws the arms of every dust anew, in the table itself: those that are inferred from what stands around it, and where
/// that is one alone its opposite, too. An editor does so when a block is set or taken away. Dust whose arms are not
/// stored settles with the inferred ones, without such an opposite.
///
/// A second redraw under the same profile changes no byte and answers the same. A redraw and then a [`switch`] leave the
/// same table as that switch and then the redraw, whether a block is at its position or none. With the same state and
/// columns of the same lengths that holds of refused calls, too, the refusal being the same in both orders; with others it
/// holds where neither switch is refused. That is proved of the calls, in the repository's
/// crates/either_order/proofs/Calls.antt.
///
/// # Errors
///
/// Refusals 1 to 5, and 10 on a row.
pub fn redraw(profile: &[u8], table: &mut [u8]) -> Result<(), Refusal> {
    let answer = c::redstone_redraw(profile, table);
    answered(answer, || checks::redraw(profile, table)).map(drop)
}

/// Writes the numbers of the rows that nothing holds up to the front of `rows`, which has an entry for each row of the
/// table, and answers how many they are. They are dust, torches, repeaters, comparators and levers whose support offset
/// is missing, leads to an empty place, or leads to a block that carries no components.
///
/// ```
/// use redstone::{BENCH_PROFILE, Kind, Row};
///
/// let dust = Row::new(Kind::RedstoneWire, [0, 1, 0]);
/// let table = redstone::table([Row::new(Kind::Solid, [0, 0, 0]), dust, dust.with_position([1, 1, 0])]);
/// let mut rows = [0; 3];
/// let count = redstone::supports(&BENCH_PROFILE, &table, &mut rows)?;
/// assert_eq!(rows[..count], [1, 2]);
/// # Ok::<(), redstone::Refusal>(())
/// ```
///
/// # Errors
///
/// Refusals 1 to 5, 10 on a row, and 7 on `rows`.
pub fn supports(profile: &[u8], table: &[u8], rows: &mut [u16]) -> Result<usize, Refusal> {
    let answer = c::redstone_supports(profile, table, rows);
    answered(answer, || checks::supports(profile, table, rows)).map(|count| count as usize)
}

/// Writes the table that holds the rows of the first table and those of the second, moved by the offset, to the front of
/// `out`, and answers how many rows it has. They are in the table's order, and all bytes after them stay as they were.
/// `out` has [`MERGE_BYTES`], whatever the tables have. [`merged`] lends it such a room.
///
/// The offset is dx, dy and dz, each from -[`FARTHEST_OFFSET`] to [`FARTHEST_OFFSET`]. A position may be in both tables if
/// the row's 32 bytes, once moved, are the same in both; it is written once. There is no profile, and bulbs are taken:
/// whether a profile has a byte for them, the other calls say.
///
/// ```
/// use redstone::{Kind, MERGE_BYTES, ROW_BYTES, Row, rows, table};
///
/// let (floor, lamp) = (Row::new(Kind::Solid, [0, 0, 0]), Row::new(Kind::RedstoneLamp, [0, 1, 0]));
/// let first = table([floor, floor.with_position([1, 0, 0])]);
/// let second = table([floor, lamp]);
/// let mut out = vec![0; MERGE_BYTES];
/// let count = redstone::merge(&first, &second, [1, 0, 0], &mut out)?;
///
/// let positions: Vec<_> = rows(&out[..ROW_BYTES * count])?.iter().map(Row::position).collect();
/// assert_eq!(positions, [[0, 0, 0], [1, 0, 0], [1, 1, 0]]);
/// # Ok::<(), Box<dyn std::error::Error>>(())
/// ```
///
/// # Errors
///
/// Refusals 2 to 5 and 10 on the first table, then the same on the second, whose rows are taken as they are given, not
/// moved; [`Fault::table`] tells which it is. Then 7 on `out`; 11 where the offset, or a coordinate that it moves, is out of
/// range; 12 where a row differs from the one at its position in the other table, for which [`clashes`] lists all; and 3
/// where there are more than [`MOST_ROWS`] rows together.
pub fn merge(first: &[u8], second: &[u8], offset: [i32; 3], out: &mut [u8]) -> Result<usize, Refusal> {
    let ([dx, dy, dz], room) = (offset, out.len());
    let answer = c::redstone_merge(first, second, dx, dy, dz, out);
    answered(answer, || checks::merge(first, second, offset, room)).map(|count| count as usize)
}

/// The table that holds the rows of the first table and those of the second, moved by the offset, as [`merge`] writes it.
///
/// A lever's room, and a lamp's that has the same block at its West side:
///
/// ```
/// use redstone::{BENCH_PROFILE, Circuit, Kind, Row, merged, table};
///
/// let (floor, lamp) = (Row::new(Kind::Solid, [0, 0, 0]), Row::new(Kind::RedstoneLamp, [1, 0, 0]));
/// let lever = Row::new(Kind::Lever, [2, 1, 0]).with_support([0, -1, 0]).with_powered(true);
/// let first = table([lever, floor.with_position([2, 0, 0])]);
/// let second = table([floor, lamp]);
///
/// let hall = Circuit::from_table(&BENCH_PROFILE, merged(&first, &second, [2, 0, 0])?)?;
/// assert_eq!((hall.len(), hall.at([3, 0, 0]).map(|block| block.figures.weak)), (3, Some(15)));
///
/// let refusal = merged(&first, &second, [1, 0, 0]).unwrap_err();
/// assert_eq!(
///     refusal.to_string(),
///     "refusal 12, clash: row 0 of the first table and row 1 of the second, once moved, are both at 2,0,0, and kind \
///      (byte 12) is 1 in the first and 10 in the second; at one position the 32 bytes must be the same"
/// );
/// # Ok::<(), redstone::Refusal>(())
/// ```
///
/// # Errors
///
/// Those of [`merge`], but for 7.
pub fn merged(first: &[u8], second: &[u8], offset: [i32; 3]) -> Result<Vec<u8>, Refusal> {
    let mut out = vec![0; MERGE_BYTES];
    let count = merge(first, second, offset, &mut out)?;
    out.truncate(ROW_BYTES * count);
    Ok(out)
}

/// Takes away all rows that [`supports`] lists, then all that it lists of what is left, and so on, until it lists none.
/// Writes the rows that are kept to the front of `kept`, in the table's order, and answers how many they are; all bytes
/// after them stay as they were. Writes to `passes` the pass in which each row of the table went, from 1 on, or 0 where it
/// is kept. `kept` is as long as the table, and `passes` has an entry for each row. [`cleared`] lends it both.
///
/// The rows of a pass go together: until it is over each of them holds up what stands on it. Rows that hold each other up
/// are never listed, and are kept; so is one that holds itself up. There are at most as many passes as rows. What is kept
/// is the largest set of rows in which each that needs support has it; under the same profile it is an accepted table, of
/// which nothing would go.
///
/// ```
/// use redstone::{BENCH_PROFILE, Kind, ROW_BYTES, Row, table};
///
/// let lever = Row::new(Kind::Lever, [0, 1, 0]).with_support([0, -1, 0]);
/// let room = table([Row::new(Kind::Solid, [0, 0, 0]), lever, lever.with_position([1, 1, 0])]);
/// let (mut kept, mut passes) = (vec![0; room.len()], [0; 3]);
/// let count = redstone::clear(&BENCH_PROFILE, &room, &mut kept, &mut passes)?;
///
/// assert_eq!((count, passes), (2, [0, 0, 1]));
/// assert_eq!(kept[..ROW_BYTES * count], room[..ROW_BYTES * count]);
/// # Ok::<(), redstone::Refusal>(())
/// ```
///
/// # Errors
///
/// Refusals 1 to 5, 10 on a row, and 7 on `kept` or `passes`.
pub fn clear(profile: &[u8], table: &[u8], kept: &mut [u8], passes: &mut [u16]) -> Result<usize, Refusal> {
    let lengths = [(Buffer::Kept, kept.len()), (Buffer::Passes, passes.len())];
    let answer = c::redstone_clear(profile, table, kept, passes);
    answered(answer, || checks::clear(profile, table, &lengths)).map(|count| count as usize)
}

/// What is left of a table once all that would drop is gone, and when each row went, as [`clear`] writes it.
///
/// Under a profile by which repeaters support components, a tower of them whose floor is missing, and two that hold each
/// other up:
///
/// ```
/// use redstone::{BENCH_PROFILE, Kind, Row, cleared, rows, table};
///
/// let mut profile = BENCH_PROFILE;
/// profile[usize::from(Kind::Repeater.code())] = 1;
/// let repeater = |position, support| Row::new(Kind::Repeater, position).with_support(support);
/// let tower = [1, 2, 3].map(|y| repeater([0, y, 0], [0, -1, 0]));
/// let pair = [repeater([5, 1, 0], [1, 0, 0]), repeater([6, 1, 0], [-1, 0, 0])];
///
/// let cleared = cleared(&profile, &table([&tower[..], &pair].concat()))?;
/// assert_eq!(cleared.passes, [1, 2, 3, 0, 0]);
/// assert_eq!(cleared.gone(), [(0, 1), (1, 2), (2, 3)]);
/// assert_eq!(rows(&cleared.kept)?, pair);
/// # Ok::<(), Box<dyn std::error::Error>>(())
/// ```
///
/// # Errors
///
/// Those of [`clear`], but for 7.
pub fn cleared(profile: &[u8], table: &[u8]) -> Result<Cleared, Refusal> {
    let (mut kept, mut passes) = (vec![0; table.len()], vec![0; table.len() / ROW_BYTES]);
    let count = clear(profile, table, &mut kept, &mut passes)?;
    kept.truncate(ROW_BYTES * count);
    Ok(Cleared { kept, passes })
}

/// Writes the numbers of the rows of all dust that transmits into each row of the table to `list`, which has
/// [`MOST_FEEDERS`] entries for each: the numbers, rising, and then [`NO_ROW`]. A row that is no dust has [`NO_ROW`] alone.
/// Answers how many rows there are. [`DustTransfer`] has the rules by which dust transmits; whether it has power does not
/// matter. [`Feeders`] lends it the list.
///
/// Dust transmits by the arms that are stored, and where none is by what stands around it. So after a [`redraw`] the list
/// may be another, and after a [`switch`] it is the same.
///
/// ```
/// use redstone::{BENCH_PROFILE, Kind, MOST_FEEDERS, NO_ROW, Row, table};
///
/// let line = table([0, 1, 2].map(|x| Row::new(Kind::RedstoneWire, [x, 0, 0])));
/// let mut list = [0; 3 * MOST_FEEDERS];
/// redstone::feeders(&BENCH_PROFILE, &line, &mut list)?;
///
/// let of_row = |row: usize| &list[MOST_FEEDERS * row..][..3];
/// assert_eq!([of_row(0), of_row(1)], [[1, NO_ROW, NO_ROW], [0, 2, NO_ROW]]);
/// # Ok::<(), redstone::Refusal>(())
/// ```
///
/// # Errors
///
/// Refusals 1 to 5, 10 on a row, and 7 on `list`.
pub fn feeders(profile: &[u8], table: &[u8], list: &mut [u16]) -> Result<usize, Refusal> {
    let answer = c::redstone_feeders(profile, table, list);
    answered(answer, || checks::feeders(profile, table, list)).map(|count| count as usize)
}

/// Writes the 32 bytes of `new_row` over the row of number `row`, which stands at the same position. In the list of feeders
/// it writes afresh the entries of that row, and those of dust at most two cells away from it on every axis, as they are in
/// the table after it. All other entries stay as they were, and none is tested. Answers how many rows there are.
/// [`Feeders::replace`] finds the row by its position, and lends it table and list.
///
/// If the list was the one that [`feeders`] writes of the table before, under this profile, it is now the one that it
/// writes of the table after.
///
/// ```
/// use redstone::{BENCH_PROFILE, Kind, MOST_FEEDERS, NO_ROW, Row, table};
///
/// let mut line = table([0, 1, 2].map(|x| Row::new(Kind::RedstoneWire, [x, 0, 0])));
/// let mut list = [0; 3 * MOST_FEEDERS];
/// redstone::feeders(&BENCH_PROFILE, &line, &mut list)?;
///
/// let block = Row::new(Kind::Solid, [1, 0, 0]);
/// redstone::replace(&BENCH_PROFILE, &mut line, 1, &block.bytes(), &mut list)?;
/// assert_eq!(list, [NO_ROW; 3 * MOST_FEEDERS]);
/// # Ok::<(), redstone::Refusal>(())
/// ```
///
/// # Errors
///
/// Refusals 1 to 5, and 10 on a row of the table. Then, with `row` as the row, 4 where the new row is bad or has not 32
/// bytes, 5 where it stands at another position or there is no such row, and 10 where it is overdriven. Then 7 on `list`.
pub fn replace(
    profile: &[u8],
    table: &mut [u8],
    row: u16,
    new_row: &[u8],
    list: &mut [u16],
) -> Result<usize, Refusal> {
    let answer = c::redstone_replace(profile, table, row, new_row, list);
    answered(answer, || checks::replace(profile, table, row, new_row, list)).map(|count| count as usize)
}
