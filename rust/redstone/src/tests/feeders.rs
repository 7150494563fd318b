//! What feeds each dust: by hand, beside the levels that a table settles to, and after a block is replaced.

use std::collections::BTreeMap;

use super::{Draws, cube};
use crate::{
    Arm, BENCH_PROFILE, BENCH_PROFILE_WITH_BULB, Buffer, Circuit, DustTransfer, Fault, Feeder, Feeders, Kind,
    MOST_FEEDERS, MOST_ROWS, NO_ROW, PROFILE_BYTES_WITH_BULB, ROW_BYTES, Refusal, Row, Shape, feeders, find,
    redraw, replace, table,
};

/// What a lent list holds before a call.
const UNTOUCHED: u16 = 0xc3c3;

const HORIZONTAL: DustTransfer = DustTransfer::Horizontal;
const RISE: DustTransfer = DustTransfer::Rise;
const FALL: DustTransfer = DustTransfer::FallThroughConductor;

/// The steps to the four sides, North first.
const SIDES: [[i32; 2]; 4] = [[0, -1], [1, 0], [0, 1], [-1, 0]];

fn dust(position: [i32; 3]) -> Row {
    Row::new(Kind::RedstoneWire, position)
}

fn solid(position: [i32; 3]) -> Row {
    Row::new(Kind::Solid, position)
}

/// The list that the call writes.
fn listed(profile: &[u8], table: &[u8]) -> Vec<u16> {
    let rows = table.len() / ROW_BYTES;
    let mut list = vec![UNTOUCHED; MOST_FEEDERS * rows];
    assert_eq!(feeders(profile, table, &mut list), Ok(rows));
    list
}

/// Where what feeds a dust of these rows lies, and the rule, by the bench profile.
fn fed(rows: &[Row], position: [i32; 3]) -> Vec<([i32; 3], DustTransfer)> {
    let feeders = Feeders::new(&BENCH_PROFILE, rows.iter().copied()).expect("an accepted table");
    let of = feeders.of(position).expect("dust");
    of.iter().map(|feeder| (feeder.position, feeder.transfer)).collect()
}

#[test]
fn dust_feeds_the_dust_beside_it_at_the_same_height() {
    for [dx, dz] in SIDES {
        let (one, other) = ([0, 0, 0], [dx, 0, dz]);
        let rows = [dust(one), dust(other)];
        assert_eq!(fed(&rows, one), [(other, HORIZONTAL)]);
        assert_eq!(fed(&rows, other), [(one, HORIZONTAL)]);
        for far in [[2 * dx, 0, 2 * dz], [dx, 2, dz], [0, 1, 0], [1, 0, 1]] {
            assert_eq!(fed(&[dust(one), dust(far)], one), []);
        }
    }
}

/// Each has to have an arm to the other.
#[test]
fn dust_without_an_arm_to_it_feeds_nothing() {
    for (side, [dx, dz]) in SIDES.into_iter().enumerate() {
        let (one, other) = ([0, 0, 0], [dx, 0, dz]);
        let without = |side| {
            let mut arms = [Some(Arm::Side); 4];
            arms[side] = Some(Arm::None);
            arms
        };
        for rows in [
            [dust(one).with_arms(without(side)), dust(other)],
            [dust(one), dust(other).with_arms(without((side + 2) % 4))],
        ] {
            assert_eq!((fed(&rows, one), fed(&rows, other)), (vec![], vec![]), "{rows:?}");
        }
        let elsewhere = [dust(one).with_arms(without((side + 1) % 4)), dust(other)];
        assert_eq!(fed(&elsewhere, other), [(one, HORIZONTAL)]);
    }
}

/// Up by every shape that carries components, and down by those alone that conduct.
#[test]
fn dust_feeds_dust_on_the_block_beside_it_and_from_there() {
    for [dx, dz] in SIDES {
        let (low, block, high) = ([0, 1, 0], [dx, 1, dz], [dx, 2, dz]);
        for &shape in Shape::ALL {
            let rows = [dust(low), solid(block).with_shape(shape), dust(high)];
            let (up, down) = match shape {
                Shape::Plain | Shape::DoubleSlab => (true, true),
                Shape::TopSlab | Shape::TopStairs | Shape::Glass => (true, false),
                Shape::BottomSlab | Shape::BottomStairs => (false, false),
            };
            let expected = |is_fed: bool, feeder| Vec::from_iter(is_fed.then_some(feeder));
            assert_eq!(fed(&rows, high), expected(up, (low, RISE)), "{shape}");
            assert_eq!(fed(&rows, low), expected(down, (high, FALL)), "{shape}");
            // A block over the lower dust cuts its arm.
            let cut = [&rows[..], &[solid([0, 2, 0])]].concat();
            assert_eq!((fed(&cut, high), fed(&cut, low)), (vec![], vec![]), "{shape}");
        }
    }
}

/// Up, or Side where the block is a top slab or top stairs; both ways it is the arm of the lower dust.
#[test]
fn power_passes_a_block_by_the_arm_that_climbs_it() {
    let (low, block, high) = ([0, 1, 0], [1, 1, 0], [1, 2, 0]);
    for &shape in Shape::ALL {
        for arm in [Arm::None, Arm::Side, Arm::Up] {
            let rows = [
                dust(low).with_arms([None, Some(arm), None, None]),
                solid(block).with_shape(shape),
                dust(high).with_arms([Some(Arm::None); 4]),
            ];
            let climbs = match shape {
                Shape::Plain | Shape::DoubleSlab | Shape::Glass => arm == Arm::Up,
                Shape::TopSlab | Shape::TopStairs => arm == Arm::Side,
                Shape::BottomSlab | Shape::BottomStairs => false,
            };
            let conducts = matches!(shape, Shape::Plain | Shape::DoubleSlab);
            assert_eq!(fed(&rows, high).len(), usize::from(climbs), "{shape}, {arm}");
            assert_eq!(fed(&rows, low).len(), usize::from(climbs && conducts), "{shape}, {arm}");
        }
    }
}

/// Three at each side: with these arms and this profile one does not cut off the other.
#[test]
fn twelve_dust_feed_one() {
    let mut profile = BENCH_PROFILE;
    profile[usize::from(Kind::RedstoneWire.code())] = 17;
    let beside = SIDES.into_iter().flat_map(|[dx, dz]| [-1, 0, 1].map(|dy| dust([dx, dy, dz])));
    let rows = beside.chain([dust([0, 0, 0])]).map(|row| row.with_arms([Some(Arm::Up); 4]));
    let table = table(rows.chain([solid([0, -1, 0])]));
    let of =
        Feeders::from_table(&profile, &table[..]).expect("an accepted table").of([0, 0, 0]).expect("dust");
    assert_eq!(of.len(), MOST_FEEDERS);
    for rule in [HORIZONTAL, RISE, FALL] {
        assert_eq!(of.iter().filter(|feeder| feeder.transfer == rule).count(), 4);
    }
    let sink = find(&table, [0, 0, 0]).expect("dust");
    let numbers: Vec<_> = of.iter().map(|feeder| feeder.number as u16).collect();
    assert_eq!(listed(&profile, &table)[MOST_FEEDERS * sink..][..MOST_FEEDERS], numbers);
}

/// A profile by which about half of the kinds support components, and half drive dust; no block takes power, but one in
/// the shape of a double slab.
fn drawn_profile(draws: &mut Draws) -> Vec<u8> {
    [0].into_iter().chain((1..PROFILE_BYTES_WITH_BULB).map(|_| draws.one_of(&[0, 1, 16, 17]))).collect()
}

/// Dust, more often than not, or another block.
fn drawn_row(draws: &mut Draws, position: [i32; 3]) -> Row {
    let others =
        [Kind::Solid, Kind::Solid, Kind::Transparent, Kind::RedstoneLamp, Kind::Lever, Kind::Repeater];
    let kind = if draws.below(5) < 3 { Kind::RedstoneWire } else { draws.one_of(&others) };
    let shape = draws.one_of(&[&[Shape::Plain; 9][..], Shape::ALL].concat());
    let entries = [None, None, Some(Arm::None), Some(Arm::Side), Some(Arm::Up)];
    let stored = [(); 4].map(|()| draws.one_of(&entries));
    let arms = draws.one_of(&[None, Some(stored)]);
    Row::new(kind, position).with_shape(shape).with_arms(arms)
}

/// Rows in a cube of so many cells along each axis, of which about one in three is empty.
fn drawn_rows(draws: &mut Draws, cells: i32) -> Vec<Row> {
    let mut rows = Vec::new();
    for position in cube(cells) {
        let row = drawn_row(draws, position);
        if draws.below(3) > 0 {
            rows.push(row);
        }
    }
    rows
}

#[test]
fn the_numbers_rise_and_stand_at_the_front() {
    let (mut dust, mut others, mut most) = (0, 0, 0);
    for seed in 0..300 {
        let mut draws = Draws(seed);
        let (profile, rows) = (drawn_profile(&mut draws), drawn_rows(&mut draws, 2 + (seed % 5) as i32));
        let table = table(rows.iter().copied());
        let made = Feeders::from_table(&profile, &table[..]).expect("an accepted table");
        assert_eq!((made.profile(), made.table()), (&profile[..], &table[..]));
        assert_eq!(made.list(), listed(&profile, &table));
        let backwards = rows.iter().rev().copied();
        assert_eq!(Feeders::new(&profile, backwards).as_ref(), Ok(&made));
        for (entries, row) in made.list().as_chunks::<MOST_FEEDERS>().0.iter().zip(&rows) {
            let of = made.of(row.position());
            if row.kind() != Kind::RedstoneWire {
                assert_eq!((entries, of), (&[NO_ROW; MOST_FEEDERS], None));
                others += 1;
                continue;
            }
            let of = of.expect("dust");
            let (numbers, rest) = entries.split_at(of.len());
            assert!(numbers.is_sorted_by(|one, next| one < next));
            assert!(rest.iter().all(|entry| *entry == NO_ROW));
            for (feeder, number) in of.iter().zip(numbers) {
                assert_feeder(feeder, &rows[usize::from(*number)], row);
            }
            dust += 1;
            most = of.len().max(most);
        }
    }
    assert!(dust > 5000 && others > 2000 && most > 4, "{dust} dust, {others} others, at most {most}");
}

/// That a feeder is dust at a side of what it feeds, told by its row, with the rule that its height tells.
fn assert_feeder(feeder: &Feeder, source: &Row, sink: &Row) {
    assert_eq!((source.kind(), source.position()), (Kind::RedstoneWire, feeder.position));
    let [dx, dy, dz] = [0, 1, 2].map(|axis| feeder.position[axis] - sink.position()[axis]);
    assert!(SIDES.contains(&[dx, dz]), "{feeder:?} of {sink:?}");
    let rule = match dy {
        -1 => RISE,
        0 => HORIZONTAL,
        1 => FALL,
        _ => panic!("{feeder:?} of {sink:?}"),
    };
    assert_eq!(feeder.transfer, rule);
}

/// Dust with no lever about it has one level less than the highest that feeds it: what gives it its level is in the list, and
/// nothing that would give it more. Whether what would give it less is rightly there, or rightly not, is not told by it. How
/// often one alone gives it its level is counted for each rule.
#[test]
fn the_levels_of_a_settled_table_are_those_of_the_feeders() {
    let mut told_by_one = BTreeMap::new();
    for seed in 0..2000 {
        let mut draws = Draws(seed);
        let (profile, mut rows) = (drawn_profile(&mut draws), drawn_rows(&mut draws, 4));
        // Without a support offset they power no block.
        for _ in 0..3 {
            let at = draws.below(rows.len() as u64) as usize;
            rows[at] = Row::new(Kind::Lever, rows[at].position()).with_powered(true);
        }
        let circuit = Circuit::new(&profile, rows).expect("an accepted table");
        let made = circuit.feeders().expect("an accepted table");
        for block in circuit.blocks().filter(|block| block.row.kind() == Kind::RedstoneWire) {
            let of = made.of(block.row.position()).expect("dust");
            let level = |feeder: &Feeder| circuit.settled().signal()[feeder.number].saturating_sub(1);
            let highest = of.iter().map(level).max().unwrap_or(0);
            let given = block.figures.signal;
            if is_beside_lever(&circuit, block.row.position()) {
                assert!(given >= highest, "{seed}, {block:?}");
                continue;
            }
            assert_eq!(given, highest, "{seed}, {block:?}");
            let mut telling = of.iter().filter(|feeder| given > 0 && level(feeder) == given);
            if let (Some(feeder), None) = (telling.next(), telling.next()) {
                *told_by_one.entry(feeder.transfer.name()).or_insert(0) += 1;
            }
        }
    }
    assert!(told_by_one.len() == 3 && told_by_one.values().all(|number| *number > 200), "{told_by_one:?}");
}

fn is_beside_lever(circuit: &Circuit, [x, y, z]: [i32; 3]) -> bool {
    let around = [[x - 1, y, z], [x + 1, y, z], [x, y - 1, z], [x, y + 1, z], [x, y, z - 1], [x, y, z + 1]];
    around.iter().any(|place| circuit.at(*place).is_some_and(|block| block.row.kind() == Kind::Lever))
}

/// Replacements one after the other, in the table and the list that the last one left.
#[test]
fn after_each_replacement_the_list_is_that_of_the_table() {
    let (mut changed, mut written) = (0, 0);
    for seed in 0..400 {
        let mut draws = Draws(seed);
        let (profile, mut rows) = (drawn_profile(&mut draws), drawn_rows(&mut draws, 3 + (seed % 4) as i32));
        let mut packed = table(rows.iter().copied());
        let mut list = listed(&profile, &packed);
        let mut made = Feeders::from_table(&profile, &packed[..]).expect("an accepted table");
        for _ in 0..20 {
            let number = draws.below(rows.len() as u64) as usize;
            rows[number] = drawn_row(&mut draws, rows[number].position());
            let before = list.clone();
            let new_row = rows[number].bytes();
            let answer = replace(&profile, &mut packed, number as u16, &new_row, &mut list);
            assert_eq!(answer, Ok(rows.len()));
            assert_eq!(packed, table(rows.iter().copied()), "{seed}");
            assert_eq!(list, listed(&profile, &packed), "{seed}");

            made.replace(rows[number]).expect("an accepted row");
            assert_eq!((made.table(), made.list()), (&packed[..], &list[..]), "{seed}");
            changed += usize::from(list != before);
            written += 1;
        }
    }
    assert!(changed > 2000 && written > changed, "{changed} of {written} changed the list");
}

/// Whatever is handed in, and wherever it is wrong.
#[test]
fn the_entries_of_other_rows_are_left_as_handed_in() {
    let (mut left, mut renewed, mut others_near) = (0, 0, 0);
    for seed in 0..300 {
        let mut draws = Draws(seed);
        let (profile, mut rows) = (drawn_profile(&mut draws), drawn_rows(&mut draws, 7));
        let mut packed = table(rows.iter().copied());
        let number = draws.below(rows.len() as u64) as usize;
        rows[number] = drawn_row(&mut draws, rows[number].position());
        let before: Vec<_> = (0..MOST_FEEDERS * rows.len()).map(|_| draws.below(65_536) as u16).collect();
        let mut list = before.clone();
        let answer = replace(&profile, &mut packed, number as u16, &rows[number].bytes(), &mut list);
        assert_eq!(answer, Ok(rows.len()));
        let afresh = listed(&profile, &packed);
        for (at, row) in rows.iter().enumerate() {
            let is_near = [0, 1, 2]
                .iter()
                .all(|&axis| row.position()[axis].abs_diff(rows[number].position()[axis]) <= 2);
            let is_dust = row.kind() == Kind::RedstoneWire;
            let is_renewed = at == number || is_near && is_dust;
            let of = |list: &[u16]| list[MOST_FEEDERS * at..][..MOST_FEEDERS].to_vec();
            assert_eq!(of(&list), of(if is_renewed { &afresh } else { &before }), "{seed}, row {at}");
            *(if is_renewed { &mut renewed } else { &mut left }) += 1;
            others_near += usize::from(is_near && !is_renewed);
        }
    }
    assert!(left > 5000 && renewed > 5000 && others_near > 2000, "{left}, {renewed}, {others_near}");
}

/// A block over dust cuts the arm by which it climbs.
#[test]
fn a_block_that_is_replaced_feeds_other_dust_otherwise() {
    let (low, block, high, over) = ([0, 0, 0], [1, 0, 0], [1, 1, 0], [0, 1, 0]);
    let rows = |kind| [dust(low), Row::new(kind, over), solid(block), dust(high)];
    let mut feeders = Feeders::new(&BENCH_PROFILE, rows(Kind::Transparent)).expect("an accepted table");
    assert_eq!(feeders.of(high).map(|of| of.len()), Some(1));
    feeders.replace(solid(over)).expect("an accepted row");
    assert_eq!(feeders.of(high), Some(vec![]));
    assert_eq!(feeders, Feeders::new(&BENCH_PROFILE, rows(Kind::Solid)).expect("an accepted table"));
}

/// All that a replacement takes, and what it leaves.
#[derive(Clone)]
struct Input {
    profile: Vec<u8>,
    table: Vec<u8>,
    row: u16,
    new_row: Vec<u8>,
    list: Vec<u16>,
}

/// The row of the comparator.
const COMPARATOR: u16 = 1;

impl Input {
    /// A comparator between two dust, replaced by another comparator.
    fn new() -> Self {
        let comparator = Row::new(Kind::Comparator, [1, 0, 0]).with_power_level(15);
        let table = table([dust([0, 0, 0]), comparator, dust([2, 0, 0])]);
        Self {
            profile: BENCH_PROFILE.to_vec(),
            list: vec![UNTOUCHED; MOST_FEEDERS * 3],
            table,
            row: COMPARATOR,
            new_row: comparator.with_power_level(3).bytes().to_vec(),
        }
    }

    /// What the call answers. Refused, it writes nothing.
    fn answer(mut self) -> Result<usize, Refusal> {
        let before = self.clone();
        let answer = replace(&self.profile, &mut self.table, self.row, &self.new_row, &mut self.list);
        assert_eq!(answer.is_err(), self.table == before.table);
        assert_eq!(answer.is_err(), self.list == before.list);
        answer
    }

    /// The number and the row that a changed input is refused with.
    fn refused(changes: &[Change]) -> Option<(u32, usize)> {
        let mut input = Self::new();
        changes.iter().for_each(|change| change(&mut input));
        input.answer().err().map(|refusal| (refusal.number, refusal.row))
    }
}

/// Makes something wrong.
type Change = fn(&mut Input);

/// What is wrong, in the order in which it is tested, with the number and the row: six faults of the profile and the table,
/// six of the new row, and one of the list.
const FAULTS: [(Change, (u32, usize)); 13] = [
    (|input| input.profile[0] = 1, (1, 0)),
    (|input| input.table.push(0), (2, 0)),
    (|input| input.table.resize(ROW_BYTES * (MOST_ROWS + 1), 0), (3, 0)),
    (|input| input.table[2 * ROW_BYTES + 31] = 1, (4, 2)),
    (|input| input.table[2 * ROW_BYTES] = 0, (5, 2)),
    (|input| input.table[ROW_BYTES + 16] = 16, (10, 1)),
    (|input| input.new_row.truncate(31), (4, 1)),
    (|input| input.new_row[31..].fill(1), (4, 1)),
    (|input| input.new_row[12] = Kind::CopperBulb.code(), (4, 1)),
    (|input| input.new_row[8] = 1, (5, 1)),
    (|input| input.new_row[0] = 2, (5, 1)),
    (|input| input.new_row[16] = 16, (10, 1)),
    (|input| input.list.push(0), (7, 0)),
];

#[test]
fn of_two_faults_the_first_is_told_and_nothing_is_written() {
    assert_eq!(Input::refused(&[]), None);
    for (at, (change, refused)) in FAULTS.into_iter().enumerate() {
        assert_eq!(Input::refused(&[change]), Some(refused), "{at}");
        for (later, (other, _)) in FAULTS.into_iter().enumerate().skip(at + 1) {
            assert_eq!(Input::refused(&[other, change]), Some(refused), "{at}, {later}");
        }
    }
}

/// How the C header says to find out whether the table or the new row is at fault: by a list without entries, so that the
/// one that was lent stays as it is.
#[test]
fn the_feeders_are_refused_so_too_where_the_table_is_at_fault() {
    for (at, (change, refused)) in FAULTS.into_iter().enumerate() {
        let mut input = Input::new();
        change(&mut input);
        let without_list = feeders(&input.profile, &input.table, &mut []);
        let without_list = without_list.map_err(|refusal| (refusal.number, refusal.row));
        assert_eq!(without_list, Err(if at < 6 { refused } else { (7, 0) }), "{at}");
    }
    // Without rows there is no list to be too short, and any fault is the new row's.
    for (change, number) in [((|_| {}) as Change, 5), (|input| input.new_row[31] = 1, 4)] {
        let mut input = Input { table: vec![], list: vec![], ..Input::new() };
        change(&mut input);
        assert_eq!(feeders(&input.profile, &input.table, &mut []), Ok(0));
        let refusal = replace(&input.profile, &mut [], input.row, &input.new_row, &mut []);
        assert_eq!(refusal.map_err(|refusal| refusal.number), Err(number));
    }
}

#[test]
fn the_row_of_a_refusal_is_the_one_that_is_given() {
    for row in (0..100).chain([MOST_ROWS as u16, 65_534, 65_535]) {
        let refused = |change: Change| {
            let mut input = Input { row, ..Input::new() };
            change(&mut input);
            input.answer().err().map(|refusal| (refusal.number, refusal.row))
        };
        let given = usize::from(row);
        let misplaced = (row != COMPARATOR).then_some((5, given));
        assert_eq!(refused(|_| {}), misplaced);
        assert_eq!(refused(|input| input.new_row[13] = 7), Some((4, given)));
        assert_eq!(refused(|input| input.new_row.push(0)), Some((4, given)));
        assert_eq!(refused(|input| input.new_row[16] = 255), misplaced.or(Some((10, given))));
        assert_eq!(refused(|input| input.list.truncate(3)), misplaced.or(Some((7, 0))));
    }
}

/// With the bulb's byte a bulb replaces a block, too.
#[test]
fn a_bulb_is_put_in_by_a_profile_that_has_its_byte() {
    let put_bulb: Change = |input| input.new_row = Row::new(Kind::CopperBulb, [1, 0, 0]).bytes().to_vec();
    assert_eq!(Input::refused(&[put_bulb]), Some((4, 1)));
    assert_eq!(Input::refused(&[put_bulb, |input| input.profile = BENCH_PROFILE_WITH_BULB.to_vec()]), None);
}

#[test]
fn both_lists_have_twelve_entries_for_each_row() {
    for entries in (0..100).chain([ROW_BYTES * 3]) {
        let expected = Fault::Column { buffer: Buffer::Feeders, length: entries, expected: 36 };
        let refused = (entries != 36).then_some((7, 0, expected));
        let told = |answer: Result<usize, Refusal>| {
            answer.err().map(|refusal| (refusal.number, refusal.row, refusal.fault))
        };
        let input = Input { list: vec![UNTOUCHED; entries], ..Input::new() };
        let mut list = input.list.clone();
        assert_eq!(told(feeders(&input.profile, &input.table, &mut list)), refused);
        assert_eq!(refused.is_some(), list == input.list);
        assert_eq!(told(input.answer()), refused);
    }
}

#[test]
fn a_table_without_rows_has_no_list_and_nothing_to_replace() {
    assert_eq!(feeders(&BENCH_PROFILE, &[], &mut []), Ok(0));
    let refusal = replace(&BENCH_PROFILE, &mut [], 0, &dust([0; 3]).bytes(), &mut []).expect_err("no row");
    assert_eq!((refusal.number, refusal.row), (5, 0));
    assert_eq!(refusal.fault, Fault::NoSuchRow { row: 0, position: [0; 3], found: None, rows: 0 });
    assert_eq!(Feeders::new(&BENCH_PROFILE, []).expect("an accepted table").of([0; 3]), None);
}

#[test]
fn a_refused_replacement_leaves_the_feeders_as_they_were() {
    let rows = [dust([0, 0, 0]), dust([1, 0, 0])];
    let mut feeders = Feeders::new(&BENCH_PROFILE, rows).expect("an accepted table");
    let before = feeders.clone();
    let mut refused = |row: Row| {
        let refusal = feeders.replace(row).expect_err("a refusal");
        assert_eq!(feeders, before);
        assert_eq!((refusal.fault.number(), refusal.fault.row()), (refusal.number, refusal.row));
        (refusal.number, refusal.row)
    };
    assert_eq!(refused(dust([2, 0, 0])), (5, 2));
    assert_eq!(refused(dust([-1, 0, 0])), (5, 2));
    assert_eq!(refused(dust([1, 0, 0]).with_kind(Kind::CopperBulb)), (4, 1));
    assert_eq!(refused(Row::new(Kind::Comparator, [1, 0, 0]).with_power_level(16)), (10, 1));
    assert_eq!(refused(dust([1_000_001, 0, 0])), (4, 2));
    assert_eq!(Feeders::new(&BENCH_PROFILE, [rows[0]; 2]).expect_err("misplaced").number, 5);
    assert_eq!(Feeders::new(&[], rows).expect_err("no profile").number, 1);
    assert_eq!(Feeders::from_table(&BENCH_PROFILE, [0; 33]).expect_err("ragged").number, 2);
}

/// The position is all that is given: that no block is there is what is said.
#[test]
fn a_replacement_where_no_block_is_says_so() {
    let told = |rows: &[Row], position| {
        let mut feeders = Feeders::new(&BENCH_PROFILE, rows.iter().copied()).expect("an accepted table");
        feeders.replace(dust(position)).expect_err("no block").fault.to_string()
    };
    let rows = [dust([0, 0, 0]), solid([1, 0, 0]), dust([1, 1, 0])];
    assert_eq!(
        told(&rows, [0, 1, 0]),
        "no block is at 0,1,0 for the new row 3 to replace; the table has 3 rows, numbered from 0"
    );
    assert_eq!(
        told(&rows[..1], [-2, 0, 5]),
        "no block is at -2,0,5 for the new row 1 to replace; the table has 1 row, numbered 0"
    );
    assert_eq!(
        told(&[], [0, 0, 0]),
        "no block is at 0,0,0 for the new row 0 to replace; the table has no rows"
    );
}

#[test]
fn a_rule_is_written_by_its_name() {
    for (rule, name) in [(HORIZONTAL, "Horizontal"), (RISE, "Rise"), (FALL, "FallThroughConductor")] {
        assert_eq!((rule.name(), rule.to_string(), format!("{rule:?}")), (name, name.into(), name.into()));
        assert_eq!(format!("{rule:>24}|{rule:24}"), format!("{name:>24}|{name:24}"));
    }
}

/// By the arms that it has: those that a redraw adds count after it. A switch and a tick change nothing here.
#[test]
fn a_circuit_tells_what_feeds_its_dust() {
    let rows = [
        Row::new(Kind::Lever, [0, 0, 0]),
        dust([1, 0, 0]).with_arms([Some(Arm::None); 4]),
        dust([2, 0, 0]),
        solid([3, 0, 0]),
        dust([3, 1, 0]),
    ];
    let mut circuit = Circuit::new(&BENCH_PROFILE, rows).expect("an accepted table");
    let before = circuit.clone();
    let of = |circuit: &Circuit, position| {
        let of = circuit.feeders_of(position).expect("accepted");
        let of = of.map(|of| of.iter().map(|feeder| (feeder.position, feeder.transfer)).collect::<Vec<_>>());
        let list = Feeders::from_table(circuit.profile(), circuit.table()).expect("accepted");
        assert_eq!(circuit.feeders_of(position), Ok(list.of(position)));
        assert_eq!(circuit.feeders(), Ok(list));
        of
    };
    assert_eq!(of(&circuit, [2, 0, 0]), Some(vec![([3, 1, 0], FALL)]));
    assert_eq!(of(&circuit, [3, 1, 0]), Some(vec![([2, 0, 0], RISE)]));
    assert_eq!(of(&circuit, [1, 0, 0]), Some(vec![]));
    // A block that is no dust, and no block.
    assert_eq!(
        [of(&circuit, [0, 0, 0]), of(&circuit, [3, 0, 0]), of(&circuit, [9, 9, 9])],
        [None, None, None]
    );
    assert_eq!(circuit, before);

    circuit.switch([0, 0, 0], true).expect("accepted");
    circuit.tick(2).expect("accepted");
    assert_eq!(of(&circuit, [2, 0, 0]), Some(vec![([3, 1, 0], FALL)]));

    let mut redrawn = circuit.table().to_vec();
    redraw(&BENCH_PROFILE, &mut redrawn).expect("an accepted table");
    circuit.redraw().expect("accepted");
    assert_eq!(circuit.table(), redrawn);
    assert_eq!(of(&circuit, [2, 0, 0]), Some(vec![([1, 0, 0], HORIZONTAL), ([3, 1, 0], FALL)]));
    assert_eq!(of(&circuit, [1, 0, 0]), Some(vec![([2, 0, 0], HORIZONTAL)]));

    // By a profile under which no block drives dust.
    let mut profile = BENCH_PROFILE;
    profile[usize::from(Kind::Solid.code())] = 1;
    let circuit = Circuit::new(&profile, rows).expect("an accepted table");
    assert_eq!(of(&circuit, [2, 0, 0]), Some(vec![]));
    assert_eq!(of(&circuit, [3, 1, 0]), Some(vec![([2, 0, 0], RISE)]));
}
