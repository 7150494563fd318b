//! The tests of the refusal table, in their order, for the reason that a refusal gives. Whether a call is refused, and
//! with which number, is the proved call's to say.

use crate::device::{Device, check_device_level, read_device_byte};
use crate::merge::{clashes, shared};
use crate::row::position_of;
use crate::table::rows_under;
use crate::{
    BadField, Buffer, FARTHEST, FARTHEST_OFFSET, Fault, Kind, MERGE_BYTES, MOST_FEEDERS, MOST_ROWS,
    PROFILE_BYTES, PROFILE_BYTES_WITH_BULB, ROW_BYTES, Row, STATE_BYTES, TORCH_CHARGES_ABOVE, WhichTable,
};

/// The sum of the values that the byte of every kind may have.
const MOST_PROPERTIES: u8 = 31;

/// The lengths of buffers that are lent to be written.
pub(crate) type Lengths<'a> = &'a [(Buffer, usize)];

/// What [`fresh`](crate::fresh) refuses.
pub(crate) fn fresh(profile: &[u8], table: &[u8], state: &[u8], columns: Lengths) -> Result<(), Fault> {
    let rows = input(profile, table)?;
    check_lengths(&rows, &[(Buffer::State, state.len())])?;
    check_lengths(&rows, columns)
}

/// What [`settle`](crate::settle) refuses: where nothing else is wrong it is the limit.
pub(crate) fn settle(
    profile: &[u8],
    table: &[u8],
    devices: &[u8],
    limit: u32,
    columns: Lengths,
) -> Result<(), Fault> {
    let rows = input(profile, table)?;
    check_devices(&rows, devices)?;
    check_lengths(&rows, columns)?;
    Err(Fault::Unsettled { limit })
}

/// What [`tick`](crate::tick) refuses.
pub(crate) fn tick(
    profile: &[u8],
    table: &[u8],
    state: &[u8],
    tick: u32,
    ticks: u32,
    columns: Lengths,
) -> Result<(), Fault> {
    switch(profile, table, state, columns)?;
    check_clock(tick, ticks)
}

/// What [`switch`](crate::switch) refuses.
pub(crate) fn switch(profile: &[u8], table: &[u8], state: &[u8], columns: Lengths) -> Result<(), Fault> {
    let rows = input(profile, table)?;
    check_state(&rows, state)?;
    check_lengths(&rows, columns)
}

/// What [`redraw`](crate::redraw) refuses.
pub(crate) fn redraw(profile: &[u8], table: &[u8]) -> Result<(), Fault> {
    input(profile, table).map(drop)
}

/// What [`supports`](crate::supports) refuses.
pub(crate) fn supports(profile: &[u8], table: &[u8], list: &[u16]) -> Result<(), Fault> {
    check_lengths(&input(profile, table)?, &[(Buffer::Rows, list.len())])
}

/// What [`merge`](crate::merge) refuses, with room of so many bytes.
pub(crate) fn merge(first: &[u8], second: &[u8], offset: [i32; 3], room: usize) -> Result<(), Fault> {
    let rows =
        |table, which| table_input(PROFILE_BYTES_WITH_BULB, table).map_err(|fault| fault.in_table(which));
    let first_rows = rows(first, WhichTable::First)?;
    let second_rows = rows(second, WhichTable::Second)?;
    if room != MERGE_BYTES {
        return Err(Fault::Column { buffer: Buffer::Merged, length: room, expected: MERGE_BYTES });
    }
    check_offset(offset)?;
    check_ground(&second_rows, offset)?;
    if let Some(clash) = clashes(first, second, offset).next() {
        return Err(Fault::Clash(clash));
    }
    check_together(first_rows.len(), second_rows.len(), shared(first, second, offset).count())
}

/// What [`clear`](crate::clear) refuses.
pub(crate) fn clear(profile: &[u8], table: &[u8], lent: Lengths) -> Result<(), Fault> {
    check_lengths(&input(profile, table)?, lent)
}

/// What [`feeders`](crate::feeders) refuses.
pub(crate) fn feeders(profile: &[u8], table: &[u8], list: &[u16]) -> Result<(), Fault> {
    check_lengths(&input(profile, table)?, &[(Buffer::Feeders, list.len())])
}

/// What [`replace`](crate::replace) refuses.
pub(crate) fn replace(
    profile: &[u8],
    table: &[u8],
    row: u16,
    new_row: &[u8],
    list: &[u16],
) -> Result<(), Fault> {
    let rows = input(profile, table)?;
    check_new_row(profile.len(), &rows, row.into(), new_row)?;
    check_lengths(&rows, &[(Buffer::Feeders, list.len())])
}

/// 1 to 5, and 10 on the rows. The rows are those of the accepted table.
fn input(profile: &[u8], table: &[u8]) -> Result<Vec<Row>, Fault> {
    check_profile(profile)?;
    table_input(profile.len(), table)
}

/// 2 to 5, and 10 on the rows, under a profile of so many bytes.
fn table_input(profile_bytes: usize, table: &[u8]) -> Result<Vec<Row>, Fault> {
    check_number(table)?;
    let rows = rows_under(profile_bytes, table)?;
    check_order(&rows)?;
    check_levels(&rows)?;
    Ok(rows)
}

fn check_profile(profile: &[u8]) -> Result<(), Fault> {
    if ![PROFILE_BYTES, PROFILE_BYTES_WITH_BULB].contains(&profile.len()) {
        return Err(Fault::ProfileLength { length: profile.len() });
    }
    for (kind, &value) in (0..).zip(profile) {
        let most = most_properties(kind);
        if value > most {
            return Err(Fault::ProfileByte { kind, value, most });
        }
    }
    Ok(())
}

/// The largest byte of a profile for the kind of a code.
fn most_properties(kind: u8) -> u8 {
    match Kind::try_from(kind) {
        Ok(Kind::RedstoneTorch) => MOST_PROPERTIES + TORCH_CHARGES_ABOVE,
        Ok(_) => MOST_PROPERTIES,
        // Air, which is no block's kind.
        Err(_) => 0,
    }
}

/// 3, which falls on a table of whole rows alone.
fn check_number(table: &[u8]) -> Result<(), Fault> {
    match table.as_chunks::<ROW_BYTES>() {
        (rows, []) if rows.len() > MOST_ROWS => {
            Err(Fault::Crowded { table: WhichTable::Only, rows: rows.len() })
        }
        _ => Ok(()),
    }
}

fn check_order(rows: &[Row]) -> Result<(), Fault> {
    for (row, pair) in (1..).zip(rows.windows(2)) {
        let (before, position) = (pair[0].position(), pair[1].position());
        if position <= before {
            return Err(Fault::Misplaced { table: WhichTable::Only, row, position, before });
        }
    }
    Ok(())
}

/// 10, of the rows.
fn check_levels(rows: &[Row]) -> Result<(), Fault> {
    for (number, row) in rows.iter().enumerate() {
        let (table, position) = (WhichTable::Only, row.position());
        row.check_level().map_err(|field| Fault::OverdrivenRow { table, row: number, position, field })?;
    }
    Ok(())
}

/// 4, 5 and 10, of what is to replace the row of a number, under a profile of so many bytes.
fn check_new_row(profile_bytes: usize, rows: &[Row], row: usize, bytes: &[u8]) -> Result<(), Fault> {
    let too_few_or_many = |_| Fault::NewRowLength { row, length: bytes.len() };
    let bytes: &[u8; ROW_BYTES] = bytes.try_into().map_err(too_few_or_many)?;
    let position = position_of(bytes);
    let new = Row::read(bytes, profile_bytes).map_err(|field| Fault::BadNewRow { row, position, field })?;
    match rows.get(row).map(Row::position) {
        None => {
            let found = rows.iter().position(|row| row.position() == position);
            Err(Fault::NoSuchRow { row, position, found, rows: rows.len() })
        }
        Some(expected) if position != expected => Err(Fault::OtherPosition { row, position, expected }),
        Some(_) => new.check_level().map_err(|field| Fault::OverdrivenNewRow { row, position, field }),
    }
}

/// 6 and 10, of a device column.
fn check_devices(rows: &[Row], devices: &[u8]) -> Result<(), Fault> {
    check_values(Buffer::Devices, rows, devices, |row, &[byte]| read_device_byte(row.kind(), byte).map(drop))
}

/// 6 and 10, of a state.
fn check_state(rows: &[Row], state: &[u8]) -> Result<(), Fault> {
    check_values(Buffer::State, rows, state, |row, bytes: &[u8; STATE_BYTES]| {
        Device::read_at_any_level(row, bytes).map(drop)
    })
}

/// The length, then the bytes of each row, whose first is the device byte; then the levels.
fn check_values<const WIDTH: usize>(
    buffer: Buffer,
    rows: &[Row],
    values: &[u8],
    check: impl Fn(&Row, &[u8; WIDTH]) -> Result<(), BadField>,
) -> Result<(), Fault> {
    let (length, expected) = (values.len(), WIDTH * rows.len());
    if length != expected {
        return Err(Fault::StateLength { buffer, length, expected });
    }
    let each_row = || rows.iter().zip(values.as_chunks().0).enumerate();
    for (number, (row, bytes)) in each_row() {
        let (position, kind) = (row.position(), row.kind());
        check(row, bytes).map_err(|field| Fault::BadState { buffer, row: number, position, kind, field })?;
    }
    for (number, (row, bytes)) in each_row() {
        let position = row.position();
        let overdriven = |field| Fault::OverdrivenState { buffer, row: number, position, field };
        check_device_level(bytes).map_err(overdriven)?;
    }
    Ok(())
}

/// 7: each buffer with its length and the entries that it has for a row.
fn check_lengths(rows: &[Row], buffers: Lengths) -> Result<(), Fault> {
    for &(buffer, length) in buffers {
        let expected = match buffer {
            Buffer::State => STATE_BYTES * rows.len(),
            Buffer::Kept => ROW_BYTES * rows.len(),
            Buffer::Feeders => MOST_FEEDERS * rows.len(),
            _ => rows.len(),
        };
        if length != expected {
            return Err(Fault::Column { buffer, length, expected });
        }
    }
    Ok(())
}

/// 9.
fn check_clock(tick: u32, ticks: u32) -> Result<(), Fault> {
    match tick.checked_add(ticks) {
        Some(_) => Ok(()),
        None => Err(Fault::ClockEnd { tick, ticks }),
    }
}

const AXES: [char; 3] = ['x', 'y', 'z'];

/// 11, of the offset.
fn check_offset(offset: [i32; 3]) -> Result<(), Fault> {
    for (axis, value) in AXES.into_iter().zip(offset) {
        if !(-FARTHEST_OFFSET..=FARTHEST_OFFSET).contains(&value) {
            return Err(Fault::FarOffset { axis, value });
        }
    }
    Ok(())
}

/// 11, of the rows that an offset moves, which is in range as they are.
fn check_ground(rows: &[Row], offset: [i32; 3]) -> Result<(), Fault> {
    for (second, row) in rows.iter().enumerate() {
        let position = row.position();
        let moved = [0, 1, 2].map(|axis| position[axis] + offset[axis]);
        if let Some(axis) = moved.iter().position(|coordinate| !(-FARTHEST..=FARTHEST).contains(coordinate)) {
            let along = || rows.iter().map(|row| row.position()[axis]);
            let least = -FARTHEST - along().fold(position[axis], i32::min);
            let most = FARTHEST - along().fold(position[axis], i32::max);
            return Err(Fault::OffGround { second, position, moved, axis: AXES[axis], least, most });
        }
    }
    Ok(())
}

/// 3, of two tables that share so many rows.
fn check_together(first: usize, second: usize, shared: usize) -> Result<(), Fault> {
    if first + second - shared > MOST_ROWS {
        return Err(Fault::CrowdedTogether { first, second, shared });
    }
    Ok(())
}
