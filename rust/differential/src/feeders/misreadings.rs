//! Wrong readings of Change 9, which the trials must tell from the right one.
//!
//! Dust near the row may be judged on the old table or on the new one: they differ in the replaced row alone, whose own
//! entries are written in any case.

use redstone::{Arm, FARTHEST, Kind, ROW_BYTES, Row, Shape};

use super::Call;
use super::reading::{
    Entries, NO_ROW, ORDER, READING, Reading, Replaced, Table, WIDTH, at_new_row, build_where, distances,
    feeders, feeders_by, has_fault, is_afresh, listed,
};
use crate::dust::{Arms, Blocks, Pair, Rule, is_dust};
use crate::either_order;
use crate::generate::{BENCH_PROFILE, BENCH_PROFILE_WITH_BULB};
use crate::lent::fill;
use crate::refusals::{Asked, NewRow, at_no_row};

pub struct Misreading {
    pub what: &'static str,
    /// Makes the right reading the wrong one.
    pub change: fn(&mut Reading),
}

/// The places of the tests in the right order.
const BAD_ROW: usize = 3;
const MISPLACED: usize = 4;
const OVERDRIVEN: usize = 5;
const BAD_NEW_ROW: usize = 6;
const ELSEWHERE: usize = 7;
const OVERDRIVEN_NEW_ROW: usize = 8;
const LENGTH: usize = 9;

/// The places of bytes in a row.
const KIND: usize = 12;
const ARMS: std::ops::Range<usize> = 23..28;

pub const MISREADINGS: [Misreading; 149] = [
    // What feeds a dust.
    misreading("what it feeds", |reading| {
        reading.entries = |table, row| listed(fed(table, row));
    }),
    misreading("what feeds it or is fed by it", |reading| {
        reading.entries = |table, row| {
            let fed = fed(table, row);
            let either = |other: &usize| fed.contains(other) || feeders(table, row).contains(other);
            listed((0..table.rows.len()).filter(either))
        };
    }),
    misreading("what feeds it and is fed by it", |reading| {
        reading.entries = |table, row| {
            let fed = fed(table, row);
            listed(feeders(table, row).into_iter().filter(|other| fed.contains(other)))
        };
    }),
    misreading("dust at the twelve positions, whether it transmits or not", |reading| {
        reading.entries = |table, row| by(table, row, |_| true);
    }),
    misreading("dust beside it alone", |reading| {
        reading.entries = |table, row| by(table, row, |pair| pair.rule() == Some(Rule::Horizontal));
    }),
    misreading("nothing rises", |reading| {
        reading.entries =
            |table, row| by(table, row, |pair| pair.rule().is_some_and(|rule| rule != Rule::Rise));
    }),
    misreading("nothing falls", |reading| {
        reading.entries = |table, row| {
            by(table, row, |pair| pair.rule().is_some_and(|rule| rule != Rule::FallThroughConductor))
        };
    }),
    misreading("beside it the source's arm is enough", |reading| {
        reading.entries = |table, row| by_at(table, row, 0, |pair| pair.arm().is_some());
    }),
    misreading("beside it the sink's arm is enough", |reading| {
        reading.entries = |table, row| by_at(table, row, 0, |pair| pair.arm_back().is_some());
    }),
    misreading("beside it no arm is needed", |reading| {
        reading.entries = |table, row| by_at(table, row, 0, |_| true);
    }),
    misreading("beside it both arms are to be to the side", |reading| {
        reading.entries =
            |table, row| by_at(table, row, 0, |pair| [pair.arm(), pair.arm_back()] == [Some(Arm::Side); 2]);
    }),
    misreading("any arm rises", |reading| {
        reading.entries =
            |table, row| by_at(table, row, 1, |pair| pair.rise_beside().is_some() && pair.arm().is_some());
    }),
    misreading("a rise needs no arm", |reading| {
        reading.entries = |table, row| by_at(table, row, 1, |pair| pair.rise_beside().is_some());
    }),
    misreading("a rise needs an arm up", |reading| {
        reading.entries = |table, row| {
            by_at(table, row, 1, |pair| pair.rise_beside().is_some() && pair.arm() == Some(Arm::Up))
        };
    }),
    misreading("a rise needs an arm back", |reading| {
        reading.entries =
            |table, row| by_at(table, row, 1, |pair| pair.rule().is_some() && pair.arm_back().is_some());
    }),
    misreading("a rise needs no block", |reading| {
        reading.entries = |table, row| by_at(table, row, 1, |pair| pair.arm().is_some());
    }),
    misreading("a fall needs no conductor", |reading| {
        reading.entries = |table, row| {
            by_at(table, row, -1, |pair| pair.rise_under().is_some_and(|rise| pair.arm_back() == Some(rise)))
        };
    }),
    misreading("a fall needs no arm", |reading| {
        reading.entries =
            |table, row| by_at(table, row, -1, |pair| pair.is_on_conductor() && pair.rise_under().is_some());
    }),
    misreading("a fall needs the source's arm, too", |reading| {
        reading.entries =
            |table, row| by_at(table, row, -1, |pair| pair.rule().is_some() && pair.arm().is_some());
    }),
    misreading("any arm back falls", |reading| {
        reading.entries = |table, row| {
            by_at(table, row, -1, |pair| {
                pair.is_on_conductor() && pair.rise_under().is_some() && pair.arm_back().is_some()
            })
        };
    }),
    misreading("a fall needs no rise", |reading| {
        reading.entries = |table, row| by_at(table, row, -1, |pair| pair.is_on_conductor());
    }),
    misreading("stored arms do not count", |reading| {
        reading.entries = |table, row| with_arms(table, row, |_| None);
    }),
    misreading("an entry that a stored set does not have is None", |reading| {
        reading.entries = |table, row| with_entries(table, row, |entry| entry.or(Some(Arm::None)));
    }),
    misreading("a stored None is an arm", |reading| {
        reading.entries = |table, row| {
            with_entries(table, row, |entry| entry.map(|arm| if arm == Arm::None { Arm::Side } else { arm }))
        };
    }),
    misreading("a stored Up is an arm to the side", |reading| {
        reading.entries = |table, row| {
            with_entries(table, row, |entry| entry.map(|arm| if arm == Arm::Up { Arm::Side } else { arm }))
        };
    }),
    misreading("the table is redrawn first", |reading| {
        reading.entries = |table, row| {
            let mut packed: Vec<_> = table.rows.iter().map(Row::bytes).collect();
            (either_order::READING.redraw)(table.blocks.profile, &mut packed);
            listed(feeders(&Table::new(table.blocks.profile, packed.as_flattened()), row))
        };
    }),
    misreading("shapes do not count", |reading| {
        reading.entries =
            |table, row| listed(feeders(&altered(table, |row| row.with_shape(Shape::Plain)), row));
    }),
    misreading("facings do not count", |reading| {
        reading.entries = |table, row| listed(feeders(&altered(table, |row| row.with_facing(None)), row));
    }),
    misreading("the profile is the bench's", |reading| {
        reading.entries = |table, row| {
            let blocks = Blocks::new(&BENCH_PROFILE_WITH_BULB, table.rows.iter().copied());
            listed(feeders(&Table { rows: table.rows.clone(), blocks }, row))
        };
    }),
    misreading("what is not dust has what would feed dust there", |reading| {
        reading.entries = |table, row| {
            let at = table.rows[row].position();
            let dust = |other: Row| {
                if other.position() == at { other.with_kind(Kind::RedstoneWire) } else { other }
            };
            listed(feeders(&altered(table, dust), row))
        };
    }),
    misreading("whatever stands at the twelve positions", |reading| {
        reading.entries = |table, row| {
            let all = altered(table, |row| row.with_kind(Kind::RedstoneWire));
            match is_dust(&table.rows[row]) {
                true => by(&all, row, |_| true),
                false => [NO_ROW; _],
            }
        };
    }),
    // How the entries stand.
    misreading("in falling order", |reading| {
        reading.entries = |table, row| listed(feeders(table, row).into_iter().rev());
    }),
    misreading("in the order of the sides", |reading| {
        reading.entries = |table, row| {
            let mut feeders = feeders(table, row);
            feeders.sort_by_key(|source| slot(table, *source, row));
            listed(feeders)
        };
    }),
    misreading("each in the place of its position", |reading| {
        reading.entries = |table, row| {
            let mut entries = [NO_ROW; WIDTH];
            feeders(table, row).iter().for_each(|source| entries[slot(table, *source, row)] = *source as u16);
            entries
        };
    }),
    misreading("at the end of the twelve", |reading| {
        reading.entries = |table, row| {
            let mut entries = right(table, row);
            entries.rotate_left(feeders(table, row).len());
            entries
        };
    }),
    misreading("0 for 65,535", |reading| reading.entries = |table, row| with_rest(table, row, |_| 0)),
    misreading("1,024 for 65,535", |reading| reading.entries = |table, row| with_rest(table, row, |_| 1_024)),
    misreading("one 65,535, and then 0", |reading| {
        reading.entries = |table, row| with_rest(table, row, |at| if at == 0 { NO_ROW } else { 0 });
    }),
    misreading("the last number again for 65,535", |reading| {
        reading.entries = |table, row| {
            let last = feeders(table, row).last().map_or(NO_ROW, |last| *last as u16);
            right(table, row).map(|entry| if entry == NO_ROW { last } else { entry })
        };
    }),
    misreading("0 in the rows that are not dust", |reading| {
        reading.entries = |table, row| {
            if is_dust(&table.rows[row]) { right(table, row) } else { [0; _] }
        };
    }),
    misreading("rows are counted from 1", |reading| {
        reading.entries = |table, row| listed(feeders(table, row).into_iter().map(|source| source + 1));
    }),
    misreading("dust alone is counted", |reading| {
        reading.entries = |table, row| {
            let count = |source| table.rows[..source].iter().filter(|row| is_dust(row)).count();
            listed(feeders(table, row).into_iter().map(count))
        };
    }),
    misreading("a number has 8 bits", |reading| {
        reading.entries = |table, row| listed(feeders(table, row).into_iter().map(|source| source % 256));
    }),
    misreading("a number has its high byte first", |reading| {
        reading.entries = |table, row| right(table, row).map(u16::swap_bytes);
    }),
    misreading("the row's own number comes first", |reading| {
        reading.entries = |table, row| listed([row].into_iter().chain(feeders(table, row)));
    }),
    misreading("four at most", |reading| reading.entries = |table, row| at_most(table, row, 4)),
    misreading("eight at most", |reading| reading.entries = |table, row| at_most(table, row, 8)),
    misreading("eleven at most", |reading| reading.entries = |table, row| at_most(table, row, 11)),
    // What is written of a list that is built.
    misreading("entries of rows that are not dust are left", |reading| {
        reading.build = |reading, table, list| {
            build_where(reading, table, list, |row| is_dust(&table.rows[row]));
        };
    }),
    misreading("entries of dust that nothing feeds are left", |reading| {
        reading.build = |reading, table, list| {
            let is_fed = |row: usize| !feeders(table, row).is_empty();
            build_where(reading, table, list, |row| !is_dust(&table.rows[row]) || is_fed(row));
        };
    }),
    misreading("the entry after the last number is left", |reading| {
        reading.build = |reading, table, list| {
            for (row, place) in list.iter_mut().enumerate().take(table.rows.len()) {
                let (count, entries) = (feeders(table, row).len(), (reading.entries)(table, row));
                place[..count].copy_from_slice(&entries[..count]);
            }
        };
    }),
    misreading("the last row is left out", |reading| {
        reading.build = |reading, table, list| {
            build_where(reading, table, list, |row| row + 1 < table.rows.len());
        };
    }),
    misreading("row 1,023 is left out", |reading| {
        reading.build = |reading, table, list| build_where(reading, table, list, |row| row != 1_023);
    }),
    // Whose entries are written afresh.
    misreading("one cell away", |reading| {
        reading.update = |reading, replaced, list| {
            near(reading, replaced, list, |apart| apart.iter().all(|along| *along <= 1));
        };
    }),
    misreading("three cells away", |reading| {
        reading.update = |reading, replaced, list| {
            near(reading, replaced, list, |apart| apart.iter().all(|along| *along <= 3));
        };
    }),
    misreading("two cells away in all", |reading| {
        reading.update = |reading, replaced, list| {
            near(reading, replaced, list, |apart| sum(apart) <= 2);
        };
    }),
    misreading("six cells away in all", |reading| {
        reading.update = |reading, replaced, list| {
            near(reading, replaced, list, |apart| sum(apart) <= 6);
        };
    }),
    misreading("two cells away in a straight line", |reading| {
        reading.update = |reading, replaced, list| {
            near(reading, replaced, list, |apart| sum(apart.map(|along| along.saturating_mul(along))) <= 4);
        };
    }),
    misreading("two cells away on one axis at least", |reading| {
        reading.update = |reading, replaced, list| {
            near(reading, replaced, list, |apart| apart.iter().any(|along| *along <= 2));
        };
    }),
    misreading("at the same height alone", |reading| {
        reading.update = |reading, replaced, list| {
            near(reading, replaced, list, |[x, y, z]| x <= 2 && y == 0 && z <= 2);
        };
    }),
    misreading("one cell up and down", |reading| {
        reading.update = |reading, replaced, list| {
            near(reading, replaced, list, |[x, y, z]| x <= 2 && y <= 1 && z <= 2);
        };
    }),
    misreading("at any height", |reading| {
        reading.update =
            |reading, replaced, list| near(reading, replaced, list, |[x, _, z]| x <= 2 && z <= 2);
    }),
    misreading("at any x", |reading| {
        reading.update =
            |reading, replaced, list| near(reading, replaced, list, |[_, y, z]| y <= 2 && z <= 2);
    }),
    misreading("at any z", |reading| {
        reading.update =
            |reading, replaced, list| near(reading, replaced, list, |[x, y, _]| x <= 2 && y <= 2);
    }),
    misreading("a distance has 8 bits", |reading| {
        reading.update = |reading, replaced, list| {
            near(reading, replaced, list, |apart| apart.iter().all(|along| along % 256 <= 2));
        };
    }),
    misreading("a distance has 16 bits", |reading| {
        reading.update = |reading, replaced, list| {
            near(reading, replaced, list, |apart| apart.iter().all(|along| along % 65_536 <= 2));
        };
    }),
    misreading("the ground goes round", |reading| {
        reading.update = |reading, replaced, list| {
            let round = |along: u32| along.min(along.abs_diff(2 * FARTHEST as u32));
            near(reading, replaced, list, |apart| apart.map(round).iter().all(|along| *along <= 2));
        };
    }),
    misreading("at the twelve positions around it", |reading| {
        reading.update = |reading, replaced, list| {
            near(reading, replaced, list, |[x, y, z]| x + z == 1 && y <= 1);
        };
    }),
    misreading("dust that it feeds or is fed by, before or after", |reading| {
        reading.update = |reading, replaced, list| {
            let Replaced { row, before, after } = replaced;
            let meets =
                |table, other| feeders(table, other).contains(row) || feeders(table, *row).contains(&other);
            let is = |other: usize| other == *row || meets(before, other) || meets(after, other);
            build_where(reading, after, list, is);
        };
    }),
    misreading("two rows before it and after it", |reading| {
        reading.update = |reading, replaced, list| {
            build_where(reading, &replaced.after, list, |row| row.abs_diff(replaced.row) <= 2);
        };
    }),
    misreading("itself alone", |reading| {
        reading.update =
            |reading, replaced, list| build_where(reading, &replaced.after, list, |row| row == replaced.row);
    }),
    misreading("all dust", |reading| {
        reading.update = |reading, replaced, list| near(reading, replaced, list, |_| true);
    }),
    misreading("all rows", |reading| {
        reading.update = |reading, replaced, list| build_where(reading, &replaced.after, list, |_| true);
    }),
    misreading("all rows near it, whether dust or not", |reading| {
        reading.update = |reading, replaced, list| {
            let apart = |row| distances(&replaced.after.rows, replaced.row, row);
            build_where(reading, &replaced.after, list, |row| apart(row).iter().all(|along| *along <= 2));
        };
    }),
    misreading("all rows that are not dust, too", |reading| {
        reading.update = |reading, replaced, list| {
            where_right(reading, replaced, list, |row, is| is || !is_dust(&replaced.after.rows[row]));
        };
    }),
    misreading("its own entries are forgotten", |reading| {
        reading.update = |reading, replaced, list| {
            where_right(reading, replaced, list, |row, is| is && row != replaced.row);
        };
    }),
    misreading("its own entries are written only where it is dust now", |reading| {
        reading.update = |reading, replaced, list| {
            where_right(reading, replaced, list, |row, is| is && is_dust(&replaced.after.rows[row]));
        };
    }),
    misreading("its own entries are written only where it was dust", |reading| {
        reading.update = |reading, replaced, list| {
            where_right(reading, replaced, list, |row, is| is && is_dust(&replaced.before.rows[row]));
        };
    }),
    misreading("rows before it are left", |reading| {
        reading.update = |reading, replaced, list| {
            where_right(reading, replaced, list, |row, is| is && row >= replaced.row);
        };
    }),
    misreading("rows after it are left", |reading| {
        reading.update = |reading, replaced, list| {
            where_right(reading, replaced, list, |row, is| is && row <= replaced.row);
        };
    }),
    misreading("nothing is written where the row stays as it is", |reading| {
        reading.update = |reading, replaced, list| {
            where_right(reading, replaced, list, |_, is| {
                is && own(&replaced.before, replaced) != own(&replaced.after, replaced)
            });
        };
    }),
    misreading("other rows are left where its kind stays", |reading| {
        reading.update = |reading, replaced, list| {
            let [before, after] =
                [&replaced.before, &replaced.after].map(|table| own(table, replaced).kind());
            where_right(reading, replaced, list, |row, is| is && (row == replaced.row || before != after));
        };
    }),
    misreading("other rows are left where neither is dust", |reading| {
        reading.update = |reading, replaced, list| {
            let is_any =
                [&replaced.before, &replaced.after].iter().any(|table| is_dust(own(table, replaced)));
            where_right(reading, replaced, list, |row, is| is && (row == replaced.row || is_any));
        };
    }),
    misreading("entries that differ before and after alone are written", |reading| {
        reading.update = |reading, replaced, list| {
            let differ = |row| feeders(&replaced.before, row) != feeders(&replaced.after, row);
            where_right(reading, replaced, list, |row, is| is && differ(row));
        };
    }),
    misreading("entries are of the table before", |reading| {
        reading.update = |reading, replaced, list| {
            let is = |row| is_afresh(&replaced.after.rows, replaced.row, row);
            build_where(reading, &replaced.before, list, is);
        };
    }),
    misreading("its own entries are of the table before", |reading| {
        reading.update = |reading, replaced, list| {
            (READING.update)(reading, replaced, list);
            build_where(reading, &replaced.before, list, |row| row == replaced.row);
        };
    }),
    misreading("the others' entries are of the table before", |reading| {
        reading.update = |reading, replaced, list| {
            let is = |row| row != replaced.row && is_afresh(&replaced.after.rows, replaced.row, row);
            build_where(reading, &replaced.before, list, is);
            build_where(reading, &replaced.after, list, |row| row == replaced.row);
        };
    }),
    misreading("of the others its number alone is put in or taken out", |reading| {
        reading.update = |reading, replaced, list| {
            for (row, place) in list.iter_mut().enumerate().take(replaced.after.rows.len()) {
                if row == replaced.row {
                    *place = (reading.entries)(&replaced.after, row);
                } else if is_afresh(&replaced.after.rows, replaced.row, row) {
                    *place = with_number(place, replaced, row);
                }
            }
        };
    }),
    misreading("entries are written only where none stand", |reading| {
        reading.update = |reading, replaced, list| {
            let before = list.to_vec();
            let is_empty = |row: usize| before[row] == [NO_ROW; WIDTH];
            where_right(reading, replaced, list, |row, is| is && (row == replaced.row || is_empty(row)));
        };
    }),
    misreading("no entries are written", |reading| reading.update = |_, _, _| ()),
    // The table and the answer.
    misreading("the new row is not written", |reading| reading.put = |_, _| ()),
    misreading("its kind alone is written", |reading| {
        reading.put = |place, new_row| place[KIND] = new_row[KIND]
    }),
    misreading("its stored arms are not written", |reading| {
        reading.put = |place, new_row| {
            let stored = place[ARMS].to_vec();
            fill(place, new_row.iter().copied());
            place[ARMS].copy_from_slice(&stored);
        };
    }),
    misreading("the answer is 0", |reading| reading.answer = |_, _| 0),
    misreading("the answer is the number of entries", |reading| {
        reading.answer = |_, rows| (WIDTH * rows) as u32;
    }),
    misreading("the answer is the row that is replaced", |reading| {
        reading.answer =
            |call, rows| call.replacement.as_ref().map_or(rows as u32, |replacement| replacement.row.into());
    }),
    misreading("the answer is the length of the list", |reading| {
        reading.answer = |call, _| call.list.len() as u32;
    }),
    // The tests and their order.
    misreading("a bad new row is at row 0", |reading| {
        reading.order[BAD_NEW_ROW].fault = |asked| (ORDER[BAD_NEW_ROW].fault)(asked).map(|_| 0);
    }),
    misreading("another position is at row 0", |reading| {
        reading.order[ELSEWHERE].fault = |asked| (ORDER[ELSEWHERE].fault)(asked).map(|_| 0);
    }),
    misreading("an overdriven new row is at row 0", |reading| {
        reading.order[OVERDRIVEN_NEW_ROW].fault = |asked| (ORDER[OVERDRIVEN_NEW_ROW].fault)(asked).map(|_| 0);
    }),
    misreading("a row that is not there is at the last row", |reading| {
        reading.order[ELSEWHERE].fault = |asked| {
            let rows = asked.table.len() / ROW_BYTES;
            (ORDER[ELSEWHERE].fault)(asked).map(|row| row.min(rows.saturating_sub(1)))
        };
    }),
    misreading("a row that is not there is at the number of rows", |reading| {
        reading.order[ELSEWHERE].fault =
            |asked| (ORDER[ELSEWHERE].fault)(asked).map(|row| row.min(asked.table.len() / ROW_BYTES));
    }),
    misreading("a row has ten bits", |reading| {
        reading.order[ELSEWHERE].fault = |asked| (ORDER[ELSEWHERE].fault)(asked).map(|row| row % 1_024);
    }),
    misreading("rows as given are counted from 1", |reading| {
        reading.order[BAD_NEW_ROW].fault = |asked| (ORDER[BAD_NEW_ROW].fault)(asked).map(|row| row + 1);
    }),
    misreading("a bad new row is 5", |reading| reading.order[BAD_NEW_ROW].number = 5),
    misreading("a bad new row is 2", |reading| reading.order[BAD_NEW_ROW].number = 2),
    misreading("another position is 4", |reading| reading.order[ELSEWHERE].number = 4),
    misreading("an overdriven new row is 4", |reading| reading.order[OVERDRIVEN_NEW_ROW].number = 4),
    misreading("a wrong list length is 6", |reading| reading.order[LENGTH].number = 6),
    misreading("5 is before 4", |reading| reading.order.swap(BAD_NEW_ROW, ELSEWHERE)),
    misreading("10 is before 5", |reading| reading.order.swap(ELSEWHERE, OVERDRIVEN_NEW_ROW)),
    misreading("10 is before 4", |reading| reading.order[BAD_NEW_ROW..LENGTH].rotate_right(1)),
    misreading("7 is before all else", |reading| reading.order.rotate_right(1)),
    misreading("7 is before the new row's tests", |reading| reading.order[BAD_NEW_ROW..].rotate_right(1)),
    misreading("7 is before 10", |reading| reading.order.swap(OVERDRIVEN_NEW_ROW, LENGTH)),
    misreading("the new row's tests are before the table's", |reading| {
        reading.order[..LENGTH].rotate_right(3);
    }),
    misreading("the new row's 4 is before the table's 5", |reading| {
        reading.order[MISPLACED..=BAD_NEW_ROW].rotate_right(1);
    }),
    misreading("the new row's 5 is before the table's 10", |reading| {
        reading.order[OVERDRIVEN..=ELSEWHERE].rotate_right(1);
    }),
    misreading("the table's 5 is before its 4", |reading| reading.order.swap(BAD_ROW, MISPLACED)),
    misreading("the table's 10 is before its 5", |reading| reading.order.swap(MISPLACED, OVERDRIVEN)),
    misreading("the list's length is in bytes", |reading| {
        reading.order[LENGTH].fault = |asked| by_length(asked, |entries, right| entries != 2 * right);
    }),
    misreading("the list has an entry for a row", |reading| {
        reading.order[LENGTH].fault = |asked| by_length(asked, |entries, right| entries != right / WIDTH);
    }),
    misreading("a longer list passes", |reading| {
        reading.order[LENGTH].fault = |asked| by_length(asked, |entries, right| entries < right);
    }),
    misreading("a shorter list passes", |reading| {
        reading.order[LENGTH].fault = |asked| by_length(asked, |entries, right| entries > right);
    }),
    misreading("a list of as many whole rows passes", |reading| {
        reading.order[LENGTH].fault =
            |asked| by_length(asked, |entries, right| entries / WIDTH != right / WIDTH);
    }),
    misreading("a list of any whole number of rows passes", |reading| {
        reading.order[LENGTH].fault = |asked| by_length(asked, |entries, _| entries % WIDTH != 0);
    }),
    misreading("the list is to have 12,288 entries", |reading| {
        reading.order[LENGTH].fault = |asked| by_length(asked, |entries, _| entries != 12_288);
    }),
    misreading("a list of any length passes", |reading| reading.order[LENGTH].fault = |_| None),
    misreading("a wrong list length is at the row as given", |reading| {
        reading.order[LENGTH].fault =
            |asked| (ORDER[LENGTH].fault)(asked).map(|_| asked.new_row.map_or(0, |new| new.row));
    }),
    misreading("a longer new row passes", |reading| {
        reading.order[BAD_NEW_ROW].fault =
            |asked| at_new_row(asked, |new| new.bytes.len() < ROW_BYTES || has_fault(4, asked, new));
    }),
    misreading("several new rows pass", |reading| {
        reading.order[BAD_NEW_ROW].fault = |asked| {
            let are_rows = |bytes: &[u8]| !bytes.is_empty() && bytes.len().is_multiple_of(ROW_BYTES);
            at_new_row(asked, |new| !are_rows(new.bytes) || has_fault(4, asked, new))
        };
    }),
    misreading("the new row's length has 8 bits", |reading| {
        reading.order[BAD_NEW_ROW].fault =
            |asked| at_new_row(asked, |new| new.bytes.len() % 256 != ROW_BYTES || has_fault(4, asked, new));
    }),
    misreading("the new row's length has 16 bits", |reading| {
        reading.order[BAD_NEW_ROW].fault = |asked| {
            at_new_row(asked, |new| new.bytes.len() % 65_536 != ROW_BYTES || has_fault(4, asked, new))
        };
    }),
    misreading("a new row of no bytes passes", |reading| {
        reading.order[BAD_NEW_ROW].fault = |asked| {
            (ORDER[BAD_NEW_ROW].fault)(asked)
                .filter(|_| asked.new_row.is_some_and(|new| !new.bytes.is_empty()))
        };
    }),
    misreading("the new row's fields may have any values", |reading| {
        reading.order[BAD_NEW_ROW].fault = |asked| at_new_row(asked, |new| new.bytes.len() != ROW_BYTES);
    }),
    misreading("a bulb passes without a byte for it", |reading| {
        reading.order[BAD_NEW_ROW].fault = |asked| {
            let with_bulb = Asked::new(&BENCH_PROFILE_WITH_BULB, asked.table);
            at_new_row(asked, |new| new.bytes.len() != ROW_BYTES || has_fault(4, &with_bulb, new))
        };
    }),
    misreading("no bulb passes", |reading| {
        reading.order[BAD_NEW_ROW].fault = |asked| {
            let without_bulb = Asked::new(&BENCH_PROFILE, asked.table);
            at_new_row(asked, |new| new.bytes.len() != ROW_BYTES || has_fault(4, &without_bulb, new))
        };
    }),
    misreading("another position passes where the rows stay in order", |reading| {
        reading.order[ELSEWHERE].fault = |asked| at_new_row(asked, |new| put_out_of_order(asked, new));
    }),
    misreading("another height passes", |reading| {
        reading.order[ELSEWHERE].fault = |asked| {
            let at = |bytes: &[u8]| [0, 1, 2, 3, 8, 9, 10, 11].map(|at| bytes.get(at).copied());
            let old = |new: &NewRow| asked.table.chunks_exact(ROW_BYTES).nth(new.row);
            at_new_row(asked, |new| old(new).is_none_or(|old| at(old) != at(new.bytes)))
        };
    }),
    misreading("a row that is not there is not refused", |reading| {
        reading.order[ELSEWHERE].fault =
            |asked| (ORDER[ELSEWHERE].fault)(asked).filter(|row| *row < asked.table.len() / ROW_BYTES);
    }),
    misreading("overdriven new rows pass", |reading| reading.order[OVERDRIVEN_NEW_ROW].fault = |_| None),
    misreading("a level of 15 is overdriven", |reading| {
        reading.order[OVERDRIVEN_NEW_ROW].fault =
            |asked| at_new_row(asked, |new| has_fault(10, asked, new) || new.bytes[LEVEL] == 15);
    }),
    misreading("a level above 15 is overdriven in every kind", |reading| {
        reading.order[OVERDRIVEN_NEW_ROW].fault = |asked| at_new_row(asked, |new| new.bytes[LEVEL] > 15);
    }),
    // What a refused call does.
    misreading("the table is written before the list's length is tested", |reading| {
        reading.on_refusal = |call, refusal, table, _| put_where(call, table, refusal.number == 7);
    }),
    misreading("the table is written before 10 is tested", |reading| {
        reading.on_refusal =
            |call, refusal, table, _| put_where(call, table, [7, 10].contains(&refusal.number));
    }),
    misreading("a refused call flips a bit of the table", |reading| {
        reading.on_refusal = |_, _, table, _| table.iter_mut().take(1).for_each(|byte| *byte ^= 1);
    }),
    misreading("a refused call clears an entry of the list", |reading| {
        reading.on_refusal = |_, _, _, list| fill(list, [0]);
    }),
    misreading("a list of a wrong length is cleared", |reading| {
        reading.on_refusal = |_, refusal, _, list| {
            if refusal.number == 7 {
                list.fill(NO_ROW);
            }
        };
    }),
    misreading("the row's entries are cleared before its position is tested", |reading| {
        reading.on_refusal = |call, refusal, _, list| {
            let row = call.replacement.as_ref().map(|replacement| usize::from(replacement.row));
            let (list, _) = list.as_chunks_mut::<WIDTH>();
            if let Some(entries) = row.filter(|_| refusal.number == 5).and_then(|row| list.get_mut(row)) {
                *entries = [NO_ROW; _];
            }
        };
    }),
];

/// The place of the level in a row.
const LEVEL: usize = 16;

const fn misreading(what: &'static str, change: fn(&mut Reading)) -> Misreading {
    Misreading { what, change }
}

/// The right entries.
fn right(table: &Table, row: usize) -> Entries {
    (READING.entries)(table, row)
}

/// The rows that a row feeds.
fn fed(table: &Table, source: usize) -> Vec<usize> {
    (0..table.rows.len()).filter(|sink| feeders(table, *sink).contains(&source)).collect()
}

/// The entries by another test of two dust.
fn by(table: &Table, row: usize, transmits: fn(&Pair) -> bool) -> Entries {
    listed(feeders_by(table, row, transmits))
}

/// The entries by another test where the sink is so much higher.
fn by_at(table: &Table, row: usize, height: i32, transmits: fn(&Pair) -> bool) -> Entries {
    let by_height = |pair: &Pair| if pair.height == height { transmits(pair) } else { pair.rule().is_some() };
    listed(feeders_by(table, row, by_height))
}

/// The table with other rows at their positions.
fn altered<'a>(table: &Table<'a>, alter: impl Fn(Row) -> Row) -> Table<'a> {
    let rows: Vec<_> = table.rows.iter().copied().map(alter).collect();
    Table { blocks: Blocks::new(table.blocks.profile, rows.iter().copied()), rows }
}

/// The entries where other arms are stored.
fn with_arms(table: &Table, row: usize, arms: fn(Arms) -> Option<Arms>) -> Entries {
    listed(feeders(&altered(table, |row| row.with_arms(row.arms().and_then(arms))), row))
}

/// The entries where each entry of a stored set is another.
fn with_entries(table: &Table, row: usize, entry: fn(Option<Arm>) -> Option<Arm>) -> Entries {
    listed(feeders(&altered(table, |row| row.with_arms(row.arms().map(|arms| arms.map(entry)))), row))
}

/// The number of the position, of the twelve around a sink, that a source is at.
fn slot(table: &Table, source: usize, sink: usize) -> usize {
    let pair = Pair::new(&table.blocks, &table.rows[source], &table.rows[sink]);
    pair.map_or(0, |pair| 3 * pair.side + (pair.height + 1) as usize)
}

/// Other entries after the last number, by how many are before them.
fn with_rest(table: &Table, row: usize, rest: fn(usize) -> u16) -> Entries {
    let mut entries = right(table, row);
    let count = feeders(table, row).len();
    entries[count..].iter_mut().enumerate().for_each(|(at, entry)| *entry = rest(at));
    entries
}

fn at_most(table: &Table, row: usize, most: usize) -> Entries {
    listed(feeders(table, row).into_iter().take(most))
}

/// Writes the row's own entries, and those of dust at other distances.
fn near(reading: &Reading, replaced: &Replaced, list: &mut [Entries], is: impl Fn([u32; 3]) -> bool) {
    let Replaced { row: own, after, .. } = replaced;
    let is_near = |row| is_dust(&after.rows[row]) && is(distances(&after.rows, *own, row));
    build_where(reading, after, list, |row| row == *own || is_near(row));
}

fn sum(numbers: [u32; 3]) -> u64 {
    numbers.iter().map(|number| u64::from(*number)).sum()
}

/// Writes the entries of other rows, by their numbers and whether they should be written.
fn where_right(
    reading: &Reading,
    replaced: &Replaced,
    list: &mut [Entries],
    is: impl Fn(usize, bool) -> bool,
) {
    let Replaced { row: own, after, .. } = replaced;
    build_where(reading, after, list, |row| is(row, is_afresh(&after.rows, *own, row)));
}

/// The row that is replaced, in one of the tables.
fn own<'a>(table: &'a Table, replaced: &Replaced) -> &'a Row {
    &table.rows[replaced.row]
}

/// The entries of a row, with the replaced row's number where that feeds it now and without it where it does not.
fn with_number(entries: &Entries, replaced: &Replaced, row: usize) -> Entries {
    let is_fed = feeders(&replaced.after, row).contains(&replaced.row);
    let others = entries.iter().map(|entry| usize::from(*entry));
    let others = others.filter(|other| *other != usize::from(NO_ROW) && *other != replaced.row);
    let mut numbers: Vec<_> = others.chain(is_fed.then_some(replaced.row)).collect();
    numbers.sort_unstable();
    listed(numbers)
}

/// Whether the length of the list, beside the right one, is wrong.
fn by_length(asked: &Asked, is_wrong: fn(usize, usize) -> bool) -> Option<usize> {
    let right = WIDTH * (asked.table.len() / ROW_BYTES);
    at_no_row(asked.lent.iter().any(|list| is_wrong(list.entries, right)))
}

/// Whether there is no such row, or the rows are out of order with the new one in its place.
fn put_out_of_order(asked: &Asked, new: &NewRow) -> bool {
    let mut table = asked.table.to_vec();
    match table.chunks_exact_mut(ROW_BYTES).nth(new.row) {
        Some(place) => fill(place, new.bytes.iter().copied()),
        None => return true,
    }
    (ORDER[MISPLACED].fault)(&Asked::new(asked.profile, &table)).is_some()
}

/// Puts the new row in its place all the same.
fn put_where(call: &Call, table: &mut [u8], is: bool) {
    let Some(replacement) = call.replacement.as_ref().filter(|_| is) else { return };
    if let Some(place) = table.chunks_exact_mut(ROW_BYTES).nth(replacement.row.into()) {
        fill(place, replacement.new_row.iter().copied());
    }
}
