//! Wrong readings of Change 2, which the comparison must report.

use redstone::{MOST_ROWS, ROW_BYTES};

use super::{Find, first_at_or_past, first_that_stands};
use crate::table::{Position, coordinates, positions};

pub struct Misreading {
    pub what: &'static str,
    pub find: Find,
    /// Whether it shows on rows in order, too.
    pub in_order: bool,
}

pub const MISREADINGS: [Misreading; 17] = [
    Misreading { what: "the search runs on past that row", find: first_that_stands, in_order: false },
    Misreading {
        what: "the row after that one is looked at, too",
        find: |table, position| {
            let first = positions(table).position(|at| at >= position)?;
            (first..first + 2).find(|row| positions(table).nth(*row) == Some(position))
        },
        in_order: false,
    },
    Misreading {
        what: "the search is by halves",
        find: |table, position| {
            let rows: Vec<_> = positions(table).collect();
            let first = rows.partition_point(|at| *at < position);
            (rows.get(first) == Some(&position)).then_some(first)
        },
        in_order: false,
    },
    Misreading { what: "nothing is found", find: |_, _| None, in_order: true },
    Misreading {
        what: "the row need not stand at the position",
        find: |table, position| positions(table).position(|at| at >= position),
        in_order: true,
    },
    Misreading {
        what: "where every row is before the position the first is found",
        find: |table, position| {
            let all_before = positions(table).all(|at| at < position);
            if all_before { positions(table).next().map(|_| 0) } else { first_at_or_past(table, position) }
        },
        in_order: true,
    },
    Misreading {
        what: "the row before that one is answered",
        find: |table, position| first_at_or_past(table, position)?.checked_sub(1),
        in_order: true,
    },
    Misreading {
        what: "the last row is not looked at",
        find: |table, position| {
            let last = (table.len() / ROW_BYTES).saturating_sub(1);
            first_at_or_past(&table[..ROW_BYTES * last], position)
        },
        in_order: true,
    },
    Misreading {
        what: "of rows at the position that follow each other the last is answered",
        find: |table, position| {
            let up_to = positions(table).enumerate().take_while(|(_, at)| *at <= position);
            up_to.filter(|(_, at)| *at == position).last().map(|(row, _)| row)
        },
        in_order: true,
    },
    Misreading {
        what: "the search ends at the first row at or before the position",
        find: |table, position| ended_by(table, position, |at| at <= position),
        in_order: true,
    },
    Misreading {
        what: "the search ends by x alone",
        find: |table, position| ended_by(table, position, |at| at[0] >= position[0]),
        in_order: true,
    },
    Misreading {
        what: "the search runs on among rows of the same x",
        find: |table, position| ended_by(table, position, |at| at == position || at[0] > position[0]),
        in_order: false,
    },
    Misreading {
        what: "the search ends where each coordinate is at or past its own",
        find: |table, position| ended_by(table, position, |at| (0..3).all(|axis| at[axis] >= position[axis])),
        in_order: false,
    },
    Misreading {
        what: "rows are ordered by z, then y, then x",
        find: |table, position| ended_by_order(table, position, |[x, y, z]| [z, y, x]),
        in_order: true,
    },
    Misreading {
        what: "rows are ordered by y, then x, then z",
        find: |table, position| ended_by_order(table, position, |[x, y, z]| [y, x, z]),
        in_order: true,
    },
    Misreading {
        what: "rows are ordered by x, then z, then y",
        find: |table, position| ended_by_order(table, position, |[x, y, z]| [x, z, y]),
        in_order: true,
    },
    Misreading {
        what: "coordinates are unsigned",
        find: |table, position| ended_by_order(table, position, |at| at.map(i32::cast_unsigned)),
        in_order: true,
    },
];

/// Those that show on no small table: on one with bytes left over, with many rows, or with rows far apart.
pub const MISREADINGS_AT_THE_ENDS: [Misreading; 3] = [
    Misreading {
        what: "bytes left over are a row",
        find: |table, position| {
            let rows = table.chunks(ROW_BYTES).filter(|row| row.len() > 12).map(coordinates);
            let (row, at) = rows.enumerate().find(|(_, at)| *at >= position)?;
            (at == position).then_some(row)
        },
        in_order: true,
    },
    Misreading {
        what: "rows past 1,024 are not looked at",
        find: |table, position| first_at_or_past(&table[..table.len().min(MOST_ROWS * ROW_BYTES)], position),
        in_order: true,
    },
    Misreading {
        what: "coordinates are compared by their difference in 32 bits",
        find: |table, position| {
            let difference = |at: Position| [0, 1, 2].map(|axis| at[axis].wrapping_sub(position[axis]));
            ended_by(table, position, |at| difference(at) >= [0; 3])
        },
        in_order: true,
    },
];

/// The row at which a search ends, if it stands at the position.
fn ended_by(table: &[u8], position: Position, ends: impl Fn(Position) -> bool) -> Option<usize> {
    let (row, at) = positions(table).enumerate().find(|(_, at)| ends(*at))?;
    (at == position).then_some(row)
}

/// The same where it is the first row at or past the position by another order.
fn ended_by_order<K: Ord>(table: &[u8], position: Position, key: fn(Position) -> K) -> Option<usize> {
    ended_by(table, position, |at| key(at) >= key(position))
}
