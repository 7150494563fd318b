//! A whole table, in rows and in bytes.

use crate::row::position_of;
use crate::{Fault, PROFILE_BYTES_WITH_BULB, ROW_BYTES, Row, WhichTable};

/// Packs rows into a table, in the table's order.
///
/// Two rows at one position stay two, which every call refuses.
#[must_use]
pub fn table(rows: impl IntoIterator<Item = Row>) -> Vec<u8> {
    let mut rows: Vec<_> = rows.into_iter().collect();
    rows.sort_by_key(Row::position);
    rows.iter().flat_map(Row::bytes).collect()
}

/// Reads the rows of a packed table, as they stand in it.
///
/// Their number, their order and the levels of comparators are for the calls to judge, and so is whether their profile
/// has a byte for bulbs: what this reads and [`table()`] packs again has the table's order.
///
/// ```
/// use redstone::{Kind, Row, find, rows, table};
///
/// let packed = table([Row::new(Kind::RedstoneWire, [0, 1, 0]), Row::new(Kind::Solid, [0, 0, 0])]);
/// let read = rows(&packed)?;
/// assert_eq!(read[1].kind(), Kind::RedstoneWire);
/// assert_eq!(find(&packed, [0, 1, 0]), Some(1));
/// # Ok::<(), redstone::Fault>(())
/// ```
///
/// # Errors
///
/// [`Fault::Ragged`] and [`Fault::BadRow`].
pub fn rows(table: &[u8]) -> Result<Vec<Row>, Fault> {
    rows_under(PROFILE_BYTES_WITH_BULB, table)
}

/// Reads rows whose kinds have a byte in a profile of so many.
pub(crate) fn rows_under(profile_bytes: usize, table: &[u8]) -> Result<Vec<Row>, Fault> {
    let (packed, rest) = table.as_chunks();
    let only = WhichTable::Only;
    if !rest.is_empty() {
        return Err(Fault::Ragged { table: only, length: table.len() });
    }
    let read = |(row, bytes): (usize, &[u8; ROW_BYTES])| {
        let position = position_of(bytes);
        Row::read(bytes, profile_bytes).map_err(|field| Fault::BadRow { table: only, row, position, field })
    };
    packed.iter().enumerate().map(read).collect()
}

/// The number of the first row at or past x, y, z, by x, then y, then z, if it stands there.
///
/// In a table that the calls accept it is the row at x, y, z. Bytes after the last whole row are not read.
#[must_use]
pub fn find(table: &[u8], position: [i32; 3]) -> Option<usize> {
    let (packed, _) = table.as_chunks::<ROW_BYTES>();
    let first = packed.iter().position(|bytes| position_of(bytes) >= position)?;
    (position_of(&packed[first]) == position).then_some(first)
}
