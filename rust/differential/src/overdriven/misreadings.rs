//! Wrong readings of Change 5, which the trials must tell from the right one.

use redstone::{Kind, ROW_BYTES};

use crate::refusals::{Asked, Devices, ORDER, Order, Test, overdriven};

pub struct Misreading {
    pub what: &'static str,
    /// Makes the right order the wrong one.
    pub change: fn(&mut Order),
}

/// The places of the tests in the right order.
const BAD_ROW: usize = 3;
const MISPLACED: usize = 4;
const OVERDRIVEN_ROW: usize = 5;
const LENGTH: usize = 6;
const BAD_DEVICE: usize = 7;
const OVERDRIVEN_DEVICE: usize = 8;
const COLUMN: usize = 9;
const CLOCK: usize = 10;

pub const MISREADINGS: [Misreading; 52] = [
    misreading("levels of rows are clipped, and not refused", |order| order[OVERDRIVEN_ROW].fault = |_| None),
    misreading("a level of 16 passes", |order| order[OVERDRIVEN_ROW].fault = |asked| above(asked, 16)),
    misreading("a level of 15 is overdriven", |order| {
        order[OVERDRIVEN_ROW].fault = |asked| above(asked, 14);
    }),
    misreading("levels above 127 are negative and pass", |order| {
        order[OVERDRIVEN_ROW].fault = |asked| row_with(asked, |row| overdriven(row) && row[16] < 128);
    }),
    misreading("the level 255 means none and passes", |order| {
        order[OVERDRIVEN_ROW].fault = |asked| row_with(asked, |row| overdriven(row) && row[16] < 255);
    }),
    misreading("a lever is overdriven, too", |order| order[OVERDRIVEN_ROW].fault = overdriven_or_of::<LEVER>),
    misreading("a button is overdriven, too", |order| {
        order[OVERDRIVEN_ROW].fault = overdriven_or_of::<BUTTON>
    }),
    misreading("a plate is overdriven, too", |order| order[OVERDRIVEN_ROW].fault = overdriven_or_of::<PLATE>),
    misreading("every kind is overdriven", |order| {
        order[OVERDRIVEN_ROW].fault = |asked| row_with(asked, |row| row[16] > 15);
    }),
    misreading("every kind but the lever, the button and the plate is overdriven", |order| {
        order[OVERDRIVEN_ROW].fault =
            |asked| row_with(asked, |row| row[16] > 15 && ![LEVER, BUTTON, PLATE].contains(&row[12]));
    }),
    misreading("a level that is not given is overdriven, and not bad", |order| {
        order[OVERDRIVEN_ROW].fault =
            |asked| row_with(asked, |row| is_of(Kind::Comparator, row) && row[16] > 15);
        order[BAD_ROW..=OVERDRIVEN_ROW].rotate_right(1);
    }),
    misreading("a comparator without a level is overdriven", |order| {
        order[OVERDRIVEN_ROW].fault =
            |asked| row_with(asked, |row| overdriven(row) || is_of(Kind::Comparator, row) && row[15] == 0);
    }),
    misreading("a level counts where powered is true", |order| {
        order[OVERDRIVEN_ROW].fault = |asked| row_with(asked, |row| overdriven(row) && row[14] == 2);
    }),
    misreading("a level counts where powered is not true", |order| {
        order[OVERDRIVEN_ROW].fault = |asked| row_with(asked, |row| overdriven(row) && row[14] != 2);
    }),
    misreading("a comparator that faces nowhere passes", |order| {
        order[OVERDRIVEN_ROW].fault = |asked| row_with(asked, |row| overdriven(row) && row[13] != 0);
    }),
    misreading("rows are tested where the call reads devices", |order| {
        order[OVERDRIVEN_ROW].fault = |asked| asked.devices.and_then(|_| right(OVERDRIVEN_ROW, asked));
    }),
    misreading("rows are tested where the call reads no devices", |order| {
        order[OVERDRIVEN_ROW].fault =
            |asked| right(OVERDRIVEN_ROW, asked).filter(|_| asked.devices.is_none());
    }),
    misreading("rows are tested where the call settles", |order| {
        order[OVERDRIVEN_ROW].fault = |asked| right(OVERDRIVEN_ROW, asked).filter(|_| asked.lent.len() > 1);
    }),
    misreading("an overdriven row is a bad row", |order| order[OVERDRIVEN_ROW].number = 4),
    misreading("an overdriven row is a misplaced one", |order| order[OVERDRIVEN_ROW].number = 5),
    misreading("the last overdriven row is named", |order| {
        order[OVERDRIVEN_ROW].fault = |asked| asked.table.chunks_exact(ROW_BYTES).rposition(overdriven);
    }),
    misreading("an overdriven row is named as row 0", |order| {
        order[OVERDRIVEN_ROW].fault = |asked| right(OVERDRIVEN_ROW, asked).map(|_| 0);
    }),
    misreading("overdriven rows are counted from 1", |order| {
        order[OVERDRIVEN_ROW].fault = |asked| right(OVERDRIVEN_ROW, asked).map(|row| row + 1);
    }),
    misreading("10 on rows is before 5", |order| order.swap(MISPLACED, OVERDRIVEN_ROW)),
    misreading("10 on rows is before 4", |order| order[BAD_ROW..=OVERDRIVEN_ROW].rotate_right(1)),
    misreading("10 on rows is before 3", |order| order[2..=OVERDRIVEN_ROW].rotate_right(1)),
    misreading("10 on rows is before 2", |order| order[1..=OVERDRIVEN_ROW].rotate_right(1)),
    misreading("10 on rows is before 1", |order| order[..=OVERDRIVEN_ROW].rotate_right(1)),
    misreading("10 on rows is after the length of 6", |order| order[OVERDRIVEN_ROW..=LENGTH].rotate_left(1)),
    misreading("10 on rows is after 6", |order| order[OVERDRIVEN_ROW..=BAD_DEVICE].rotate_left(1)),
    misreading("10 on rows is after 10 on devices", |order| {
        order[OVERDRIVEN_ROW..=OVERDRIVEN_DEVICE].rotate_left(1);
    }),
    misreading("10 on rows is after 7", |order| order[OVERDRIVEN_ROW..=COLUMN].rotate_left(1)),
    misreading("rows are tested for 4 and 10 one by one", |order| {
        order[BAD_ROW].fault = |asked| not_after(right(BAD_ROW, asked), right(OVERDRIVEN_ROW, asked));
    }),
    misreading("rows are tested for 5 and 10 one by one", |order| {
        order[MISPLACED].fault = |asked| not_after(right(MISPLACED, asked), right(OVERDRIVEN_ROW, asked));
    }),
    misreading("device bytes are clipped, and not refused", |order| {
        order[OVERDRIVEN_DEVICE].fault = |_| None
    }),
    misreading("columns are not tested", |order| {
        order[OVERDRIVEN_DEVICE].fault =
            |asked| right(OVERDRIVEN_DEVICE, asked).filter(|_| !is_column(asked));
    }),
    misreading("states are not tested", |order| {
        order[OVERDRIVEN_DEVICE].fault = |asked| right(OVERDRIVEN_DEVICE, asked).filter(|_| is_column(asked));
    }),
    misreading("a state that is not ticked is not tested", |order| {
        order[OVERDRIVEN_DEVICE].fault =
            |asked| right(OVERDRIVEN_DEVICE, asked).filter(|_| !matches!(asked.clock, Some([_, 0])));
    }),
    misreading("a device byte of 16 passes", |order| {
        order[OVERDRIVEN_DEVICE].fault = |asked| entry_with(asked, |entry| entry[0] > 16);
    }),
    misreading("a device byte of 15 is overdriven", |order| {
        order[OVERDRIVEN_DEVICE].fault = |asked| entry_with(asked, |entry| entry[0] > 14);
    }),
    misreading("device bytes above 127 are negative and pass", |order| {
        order[OVERDRIVEN_DEVICE].fault = |asked| entry_with(asked, |entry| (16..128).contains(&entry[0]));
    }),
    misreading("every byte of a state is tested", |order| {
        order[OVERDRIVEN_DEVICE].fault =
            |asked| entry_with(asked, |entry| entry.iter().any(|byte| *byte > 15));
    }),
    misreading("the last overdriven device is named", |order| {
        order[OVERDRIVEN_DEVICE].fault = |asked| {
            let entries: Vec<_> = asked.devices.into_iter().flat_map(Devices::rows).collect();
            entries.into_iter().rposition(|entry| entry[0] > 15)
        };
    }),
    misreading("an overdriven device is named as row 0", |order| {
        order[OVERDRIVEN_DEVICE].fault = |asked| right(OVERDRIVEN_DEVICE, asked).map(|_| 0);
    }),
    misreading("overdriven devices are counted from 1", |order| {
        order[OVERDRIVEN_DEVICE].fault = |asked| right(OVERDRIVEN_DEVICE, asked).map(|row| row + 1);
    }),
    misreading("a device byte above 15 is overdriven, and not bad, of every kind", |order| {
        order[BAD_DEVICE].fault = |asked| {
            let is_high = |row: usize| asked.devices?.rows().nth(row).map(|entry| entry[0] > 15);
            right(BAD_DEVICE, asked).filter(|row| is_high(*row) == Some(false))
        };
    }),
    misreading("an overdriven device is a bad one", |order| order[OVERDRIVEN_DEVICE].number = 6),
    misreading("10 on devices is before 6", |order| order[LENGTH..=OVERDRIVEN_DEVICE].rotate_right(1)),
    misreading("10 on devices is before the values of 6", |order| order.swap(BAD_DEVICE, OVERDRIVEN_DEVICE)),
    misreading("devices are tested for 6 and 10 one by one", |order| {
        order[BAD_DEVICE].fault =
            |asked| not_after(right(BAD_DEVICE, asked), right(OVERDRIVEN_DEVICE, asked));
    }),
    misreading("10 on devices is after 7", |order| order.swap(OVERDRIVEN_DEVICE, COLUMN)),
    misreading("10 on devices is after 9", |order| order[OVERDRIVEN_DEVICE..=CLOCK].rotate_left(1)),
];

const fn misreading(what: &'static str, change: fn(&mut Order)) -> Misreading {
    Misreading { what, change }
}

/// What the right test at a place finds.
fn right(place: usize, asked: &Asked) -> Option<usize> {
    let Test { fault, .. } = ORDER[place];
    fault(asked)
}

fn row_with(asked: &Asked, is_at_fault: impl Fn(&[u8]) -> bool) -> Option<usize> {
    asked.table.chunks_exact(ROW_BYTES).position(is_at_fault)
}

fn entry_with(asked: &Asked, is_at_fault: impl Fn(&[u8]) -> bool) -> Option<usize> {
    asked.devices?.rows().position(is_at_fault)
}

fn is_of(kind: Kind, row: &[u8]) -> bool {
    row[12] == kind.code()
}

const LEVER: u8 = Kind::Lever.code();
const BUTTON: u8 = Kind::Button.code();
const PLATE: u8 = Kind::PressurePlate.code();

/// The first row that is overdriven, or is of such a kind and has such a level.
fn overdriven_or_of<const KIND: u8>(asked: &Asked) -> Option<usize> {
    row_with(asked, |row| overdriven(row) || row[12] == KIND && row[16] > 15)
}

/// The first comparator with a given level above this one.
fn above(asked: &Asked, level: u8) -> Option<usize> {
    row_with(asked, |row| is_of(Kind::Comparator, row) && row[15] == 1 && row[16] > level)
}

fn is_column(asked: &Asked) -> bool {
    asked.devices.is_some_and(|devices| devices.width == 1)
}

/// A row, unless another is before it.
fn not_after(row: Option<usize>, other: Option<usize>) -> Option<usize> {
    row.filter(|row| other.is_none_or(|other| *row <= other))
}
