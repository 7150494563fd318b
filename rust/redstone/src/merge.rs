//! What two tables have at the same positions, with the second one moved.

use std::fmt::{self, Display, Formatter};

use crate::fault::At;
use crate::row::{AFTER_POSITION, position_of};
use crate::{ROW_BYTES, find};

/// A position where two tables have different rows, the second table's moved there.
///
/// [`clashes`] finds them, and [`merge`](crate::merge) refuses tables that have one.
#[derive(Clone, Copy, Debug, Eq, Hash, PartialEq)]
#[non_exhaustive]
pub struct Clash {
    /// The position, which is that of the first table's row.
    pub position: [i32; 3],
    /// The number of the first table's row.
    pub first: usize,
    /// The number of the second table's row.
    pub second: usize,
    /// The name of the first field in which they differ.
    pub field: &'static str,
    /// That field's byte, counted from the row's first.
    pub byte: usize,
    /// What it holds in the first table and in the second.
    pub values: [u8; 2],
}

impl Display for Clash {
    fn fmt(&self, f: &mut Formatter<'_>) -> fmt::Result {
        let Self { position, first, second, field, byte, values: [one, other] } = *self;
        write!(f, "row {first} of the first table and row {second} of the second, once moved, are both at ")?;
        write!(
            f,
            "{}, and {field} (byte {byte}) is {one} in the first and {other} in the second; ",
            At(position)
        )?;
        write!(f, "at one position the 32 bytes must be the same")
    }
}

/// The positions where two tables have different rows once the second is moved by the offset, in the second table's
/// order. An editor shows them all where [`merge`](crate::merge), which tells of one, refuses two tables.
///
/// ```
/// use redstone::{Kind, Row, clashes, table};
///
/// let floor = |kind| table([0, 1, 2].map(|x| Row::new(kind, [x, 0, 0])));
/// let (first, second) = (floor(Kind::Solid), floor(Kind::Transparent));
/// let positions: Vec<_> = clashes(&first, &second, [1, 0, 0]).map(|clash| clash.position).collect();
/// assert_eq!(positions, [[1, 0, 0], [2, 0, 0]]);
/// assert_eq!(clashes(&first, &first, [1, 0, 0]).count(), 0);
/// ```
///
/// It is about tables that the calls accept. A row that an offset moves past what 32 bits hold has no position.
pub fn clashes<'a>(first: &'a [u8], second: &'a [u8], offset: [i32; 3]) -> impl Iterator<Item = Clash> {
    shared(first, second, offset).filter_map(|[(first, one), (second, other)]| {
        let field = AFTER_POSITION.into_iter().find(|field| field.byte(one) != field.byte(other))?;
        Some(Clash {
            position: position_of(one),
            first,
            second,
            field: field.name,
            byte: field.at,
            values: [field.byte(one), field.byte(other)],
        })
    })
}

/// A row's number and its bytes.
type Numbered<'a> = (usize, &'a [u8; ROW_BYTES]);

/// The rows of two tables that are at one position, once the second is moved, in the second's order.
pub(crate) fn shared<'a>(
    first: &'a [u8],
    second: &'a [u8],
    offset: [i32; 3],
) -> impl Iterator<Item = [Numbered<'a>; 2]> {
    second.as_chunks().0.iter().enumerate().filter_map(move |(number, bytes)| {
        let at = find(first, moved(position_of(bytes), offset)?)?;
        Some([(at, first.as_chunks().0.get(at)?), (number, bytes)])
    })
}

/// A position moved by an offset, if 32 bits hold it.
fn moved(position: [i32; 3], offset: [i32; 3]) -> Option<[i32; 3]> {
    let [x, y, z] = [0, 1, 2].map(|axis| position[axis].checked_add(offset[axis]));
    Some([x?, y?, z?])
}
