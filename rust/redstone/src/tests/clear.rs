//! What is left once all that would drop is gone: what is answered and written, beside the support list made again and
//! again, and beside every set of rows.

use super::{Draws, UNTOUCHED, cube};
use crate::{
    Arm, BENCH_PROFILE, BENCH_PROFILE_WITH_BULB, Buffer, Circuit, Cleared, Facing, Fault, Kind, MOST_ROWS,
    PROFILE_BYTES_WITH_BULB, ROW_BYTES, Refusal, Row, Shape, clear, cleared, supports, table,
};

/// A profile by which every kind supports components.
const ALL_SUPPORT: [u8; PROFILE_BYTES_WITH_BULB] = [0, 1, 1, 1, 1, 1, 1, 1, 1, 1, 1, 1, 1, 1];

const BELOW: [i8; 3] = [0, -1, 0];

fn repeater(position: [i32; 3], support: [i8; 3]) -> Row {
    Row::new(Kind::Repeater, position).with_support(support)
}

fn solid(position: [i32; 3]) -> Row {
    Row::new(Kind::Solid, position)
}

/// What the call writes. The bytes after the kept rows are as they were, and `cleared` gives the same.
fn written(profile: &[u8], table: &[u8]) -> Cleared {
    let (mut kept, mut passes) = (vec![UNTOUCHED; table.len()], vec![u16::MAX; table.len() / ROW_BYTES]);
    let count = clear(profile, table, &mut kept, &mut passes).expect("an accepted table");
    let rest = kept.split_off(ROW_BYTES * count);
    assert!(rest.iter().all(|byte| *byte == UNTOUCHED));
    let written = Cleared { kept, passes };
    assert_eq!(cleared(profile, table).as_ref(), Ok(&written));
    written
}

/// The passes of rows in the table's order.
fn passes(profile: &[u8], rows: &[Row]) -> Vec<u16> {
    written(profile, &table(rows.iter().copied())).passes
}

/// The numbers of the rows that nothing holds up.
fn listed(profile: &[u8], table: &[u8]) -> Vec<usize> {
    let mut list = vec![0; table.len() / ROW_BYTES];
    let count = supports(profile, table, &mut list).expect("an accepted table");
    list[..count].iter().copied().map(usize::from).collect()
}

/// The same as the call by the support list, made again after each pass.
fn by_list(profile: &[u8], rows: &[Row]) -> Cleared {
    let mut passes = vec![0; rows.len()];
    let mut left: Vec<_> = (0..rows.len()).collect();
    let mut pass = 0;
    loop {
        pass += 1;
        let kept = table(left.iter().map(|&row| rows[row]));
        let listed = listed(profile, &kept);
        if listed.is_empty() {
            return Cleared { kept, passes };
        }
        for at in listed {
            passes[left[at]] = pass;
        }
        left.retain(|&row| passes[row] == 0);
    }
}

impl Draws {
    /// A profile by which about half of the kinds support components.
    fn profile(&mut self) -> Vec<u8> {
        [0].into_iter().chain((1..PROFILE_BYTES_WITH_BULB).map(|_| self.below(2) as u8)).collect()
    }

    /// Rows in a cube of so many cells along each axis, of which about one in four is empty.
    fn rows(&mut self, cells: i32) -> Vec<Row> {
        let mut rows = Vec::new();
        for [x, y, z] in cube(cells) {
            let step = [(); 3].map(|()| self.one_of(&[-1, 0, 1]));
            let support = self.one_of(&[Some(step), Some(step), Some(BELOW), None]);
            let shape = self.one_of(&[&[Shape::Plain; 5][..], Shape::ALL].concat());
            let row = Row::new(self.one_of(Kind::ALL), [x, y, z]).with_support(support).with_shape(shape);
            if self.below(4) > 0 {
                rows.push(row);
            }
        }
        rows
    }
}

#[test]
fn what_is_written_is_what_the_support_list_leaves() {
    let (mut gone, mut kept, mut most_passes) = (0, 0, 0);
    for seed in 0..600 {
        let mut draws = Draws(seed);
        let (profile, rows) = (draws.profile(), draws.rows(2 + (seed % 5) as i32));
        let written = written(&profile, &table(rows.iter().copied()));
        assert_eq!(written, by_list(&profile, &rows), "{seed}");

        // It is a table of its own, of which nothing would drop.
        let again = self::written(&profile, &written.kept);
        assert_eq!((&again.kept, again.gone()), (&written.kept, vec![]), "{seed}");
        Circuit::from_table(&profile, &written.kept[..]).expect("an accepted table");

        let passes = written.passes.iter().copied().max().unwrap_or(0);
        assert!(usize::from(passes) <= rows.len());
        gone += written.gone().len();
        kept += written.kept.len() / ROW_BYTES;
        most_passes = passes.max(most_passes);
    }
    assert!(gone > 5000 && kept > 5000 && most_passes > 4, "{gone} gone, {kept} kept, {most_passes} passes");
}

/// Of all sets of rows in which each that needs support has it, it has every other one within it.
#[test]
fn what_is_kept_is_the_largest_set_of_rows_that_have_support() {
    let mut supported = 0;
    for seed in 0..60 {
        let mut draws = Draws(1000 + seed);
        let (profile, rows) = (draws.profile(), draws.rows(2));
        let written = written(&profile, &table(rows.iter().copied()));
        let kept = |row: usize| written.passes[row] == 0;
        for set in 0..1_u32 << rows.len() {
            let is_in = |row: usize| set >> row & 1 == 1;
            let chosen = table((0..rows.len()).filter(|row| is_in(*row)).map(|row| rows[row]));
            if listed(&profile, &chosen).is_empty() {
                assert!((0..rows.len()).all(|row| kept(row) || !is_in(row)), "{seed}, {set:b}");
                supported += 1;
            }
        }
        assert_eq!(listed(&profile, &written.kept), [], "{seed}");
    }
    assert!(supported > 500, "only {supported} sets");
}

/// So many repeaters over each other, each fixed to the one at this step.
fn tower(height: usize, step: [i8; 3]) -> Vec<Row> {
    (0..).take(height).map(|y| repeater([0, y, 0], step)).collect()
}

#[test]
fn a_row_goes_in_the_pass_after_the_one_that_held_it_up() {
    const HEIGHT: usize = 200;
    let (up, down) = (tower(HEIGHT, BELOW), tower(HEIGHT, [0, 1, 0]));
    let rising: Vec<_> = (1..).take(HEIGHT).collect();
    let falling: Vec<_> = rising.iter().rev().copied().collect();
    assert_eq!(passes(&ALL_SUPPORT, &up), rising);
    assert_eq!(passes(&ALL_SUPPORT, &down), falling);
    // With a block in the place of one of them, what is on its far side is kept.
    let with_block = |rows: &[Row], at: usize| {
        let mut rows = rows.to_vec();
        rows[at] = solid(rows[at].position());
        passes(&ALL_SUPPORT, &rows)
    };
    assert_eq!(with_block(&up, 0), [0; HEIGHT]);
    assert_eq!(with_block(&up, 50), [&rising[..50], &[0; HEIGHT - 50]].concat());
    assert_eq!(with_block(&down, 50), [&[0; 51], &falling[51..]].concat());
    assert_eq!(with_block(&down, HEIGHT - 1), [0; HEIGHT]);
}

#[test]
fn there_are_as_many_passes_as_rows_at_most() {
    let cleared = cleared(&ALL_SUPPORT, &table(tower(MOST_ROWS, BELOW))).expect("an accepted table");
    assert_eq!(cleared.kept, []);
    assert_eq!(cleared.passes, (1..=MOST_ROWS as u16).collect::<Vec<_>>());
}

/// Each of two that hang on one that goes, whichever comes first in the table.
#[test]
fn the_rows_of_a_pass_go_together() {
    let rows = [
        repeater([0, 0, 0], [1, 0, 0]),
        repeater([1, 0, 0], BELOW),
        repeater([2, 0, 0], [-1, 0, 0]),
        repeater([3, 0, 0], BELOW),
        repeater([3, 1, 0], BELOW),
    ];
    assert_eq!(passes(&ALL_SUPPORT, &rows), [2, 1, 2, 1, 2]);
    let cleared = cleared(&ALL_SUPPORT, &table(rows)).expect("an accepted table");
    assert_eq!(cleared.gone(), [(1, 1), (3, 1), (0, 2), (2, 2), (4, 2)]);
}

#[test]
fn rows_that_hold_each_other_up_are_kept() {
    let pair = [repeater([0, 0, 0], [1, 0, 0]), repeater([1, 0, 0], [-1, 0, 0])];
    let ring = [
        repeater([5, 0, 0], [0, 0, 1]),
        repeater([5, 0, 1], [1, 0, 0]),
        repeater([6, 0, 0], [-1, 0, 0]),
        repeater([6, 0, 1], [0, 0, -1]),
    ];
    let itself = repeater([9, 0, 0], [0, 0, 0]);
    let on_them = [repeater([6, 1, 1], BELOW), repeater([9, 1, 0], BELOW)];
    let rows = [&pair[..], &ring, &on_them[..1], &[itself], &on_them[1..]].concat();
    assert_eq!(passes(&ALL_SUPPORT, &rows), vec![0; rows.len()]);
    // Without one of its four the ring goes, one after the other.
    let broken = [ring[0], ring[1], ring[2]];
    assert_eq!(passes(&ALL_SUPPORT, &broken), [2, 1, 3]);
    // Under the bench profile none of them supports components.
    assert_eq!(passes(&BENCH_PROFILE, &rows), vec![1; rows.len()]);
}

#[test]
fn dust_torches_repeaters_comparators_and_levers_need_support() {
    for &kind in Kind::ALL {
        let needs = matches!(
            kind,
            Kind::RedstoneWire | Kind::RedstoneTorch | Kind::Repeater | Kind::Comparator | Kind::Lever
        );
        let of = |support: Option<[i8; 3]>, floor: Row| {
            let row = Row::new(kind, [0, 1, 0]).with_support(support);
            passes(&BENCH_PROFILE_WITH_BULB, &[floor, row])[1]
        };
        let goes = u16::from(needs);
        assert_eq!(of(Some(BELOW), solid([0, 0, 0])), 0, "{kind}");
        assert_eq!(of(None, solid([0, 0, 0])), goes, "{kind}: no offset");
        assert_eq!(of(Some([0, 1, 0]), solid([0, 0, 0])), goes, "{kind}: no block");
        let slab = solid([0, 0, 0]).with_shape(Shape::BottomSlab);
        assert_eq!(of(Some(BELOW), slab), goes, "{kind}: no component stands on it");
    }
}

/// Rows with every field, before and after one that goes.
#[test]
fn the_rows_are_kept_byte_by_byte() {
    let full = |x| {
        Row::new(Kind::Comparator, [x, 1, -1_000_000])
            .with_facing(Facing::Up)
            .with_powered(true)
            .with_power_level(15)
            .with_delay(255)
            .with_support([-1, -1, 0])
            .with_arms([Some(Arm::Up); 4])
            .with_shape(Shape::Glass)
            .with_subtract(true)
    };
    let floor = |x| Row::new(Kind::CopperBulb, [x, 0, -1_000_000]).with_powered(false);
    let all = table([floor(-3), full(-2), floor(4), full(5), full(7), floor(8)]);
    let written = written(&BENCH_PROFILE_WITH_BULB, &all);
    assert_eq!(written.kept, table([floor(-3), full(-2), floor(4), full(5), floor(8)]));
    assert_eq!(written.passes, [0, 0, 0, 0, 1, 0]);
}

#[test]
fn a_table_without_rows_is_cleared() {
    assert_eq!(written(&BENCH_PROFILE, &[]), Cleared { kept: vec![], passes: vec![] });
}

/// What the call answers with buffers of these lengths. Refused, it writes to neither.
fn lent(table: &[u8], [room, entries]: [usize; 2]) -> Result<usize, Refusal> {
    let (mut kept, mut passes) = (vec![UNTOUCHED; room], vec![u16::MAX; entries]);
    let answer = clear(&ALL_SUPPORT, table, &mut kept, &mut passes);
    if answer.is_err() {
        assert!(kept.iter().all(|byte| *byte == UNTOUCHED) && passes.iter().all(|pass| *pass == u16::MAX));
    }
    answer
}

/// Rows that are kept, and rows that go: the lengths are those of the whole table.
#[test]
fn both_lengths_are_the_tables() {
    let column = |buffer, length, expected| (7, 0, Fault::Column { buffer, length, expected });
    for rows in [vec![], vec![solid([0; 3])], vec![solid([0; 3]), repeater([5, 0, 0], BELOW)]] {
        let (table, count) = (table(rows.iter().copied()), rows.len());
        for room in 0..=4 * ROW_BYTES {
            for entries in (0..=4).chain([table.len()]) {
                let answer = lent(&table, [room, entries]);
                let refused = answer.err().map(|refusal| (refusal.number, refusal.row, refusal.fault));
                let fault = if room != table.len() {
                    Some(column(Buffer::Kept, room, table.len()))
                } else if entries != count {
                    Some(column(Buffer::Passes, entries, count))
                } else {
                    assert_eq!(answer, Ok(count.min(1)));
                    None
                };
                assert_eq!(refused, fault, "{room} bytes, {entries} entries");
            }
        }
    }
}

/// A refused table is not cleared, whatever is lent; nor is one under a refused profile.
#[test]
fn each_refusal_of_the_table_comes_before_the_lengths() {
    let good = table([solid([0; 3]), Row::new(Kind::Comparator, [1, 0, 0]).with_power_level(15)]);
    let changed = |change: fn(&mut Vec<u8>)| {
        let mut table = good.clone();
        change(&mut table);
        table
    };
    for (bad, number, row) in [
        (changed(|table| table.push(0)), 2, 0),
        (changed(|table| table.resize(ROW_BYTES * (MOST_ROWS + 1), 0)), 3, 0),
        (changed(|table| table[ROW_BYTES + 31] = 1), 4, 1),
        (changed(|table| table[0] = 1), 5, 1),
        (changed(|table| table[ROW_BYTES + 16] = 16), 10, 1),
    ] {
        for lengths in [[0, 0], [bad.len(), bad.len() / ROW_BYTES], [bad.len(), 0]] {
            let refusal = lent(&bad, lengths).expect_err("a refusal");
            assert_eq!((refusal.number, refusal.row), (number, row));
        }
        assert_eq!(cleared(&ALL_SUPPORT, &bad).map_err(|refusal| refusal.number), Err(number));
        let refusal = cleared(&ALL_SUPPORT[1..3], &bad).expect_err("a bad profile");
        assert_eq!(refusal.fault, Fault::ProfileLength { length: 2 });
    }
}

/// A room whose floor is missing under a part of it: the rest runs as before.
#[test]
fn a_cleared_circuit_runs() {
    let dust = |x| Row::new(Kind::RedstoneWire, [x, 1, 0]).with_support(BELOW);
    let lever = Row::new(Kind::Lever, [0, 1, 0]).with_support(BELOW).with_powered(true);
    let floor = [0, 1, 3].map(|x| solid([x, 0, 0]));
    let all = floor.into_iter().chain([lever, dust(1), dust(2), dust(3)]);
    let room = Circuit::new(&BENCH_PROFILE, all).expect("an accepted table");
    assert_eq!(room.settled().signal(), [0, 15, 0, 15, 14, 0, 13]);

    let cleared = room.cleared().expect("an accepted table");
    assert_eq!(cleared.gone(), [(4, 1)]);
    let left = Circuit::from_table(&BENCH_PROFILE, cleared.kept).expect("an accepted table");
    assert_eq!(left.settled().signal(), [0, 15, 0, 15, 0, 0]);
    assert_eq!(left.unsupported(), Ok(vec![]));
}
