//! Two tables in one, against document 02's Change 6.

use std::collections::BTreeMap;
use std::fmt::{self, Display, Formatter};

use differential::clear::Clear;
use differential::compare::{Answer, Answers, difference};
use differential::generate::{self, BENCH_PROFILE, BENCH_PROFILE_WITH_BULB, Case, row_lines};
use differential::merge::{
    Arrangement, MISREADINGS, Merge, ORDER, OUT, OUT_BYTES, Proved, READING, Reading, Trial,
    all_combinations, clashes, empty_tables, ends, far_offsets, fillings, generated, given_off_ground,
    most_rows, of_rows, offsets, out_lengths, single_bytes, small_pairs,
};
use differential::probe::{Probe, redstone_merge};
use differential::random::Random;
use differential::refusals::check;
use differential::suite::{print, setting};
use differential::table::{self, Position, back, moved_row, rows};
use redstone::{Circuit, ROW_BYTES, Refusal, Rounds};

/// What was compared.
#[derive(Default)]
struct Compared {
    sorts: BTreeMap<&'static str, u64>,
    refused: BTreeMap<u32, u64>,
    merged: u64,
    rows: u64,
    shared: u64,
}

impl Compared {
    fn calls(&self) -> u64 {
        self.merged + self.refused.values().sum::<u64>()
    }

    fn count(&mut self, sort: &'static str, merge: &Merge, answer: &Answer) {
        *self.sorts.entry(sort).or_default() += 1;
        match answer.refusal() {
            Some(number) => *self.refused.entry(number as u32).or_default() += 1,
            None => {
                let rows = answer.number as u64;
                self.merged += 1;
                self.rows += rows;
                self.shared += ((merge.first.len() + merge.second.len()) / ROW_BYTES) as u64 - rows;
            }
        }
    }
}

impl Display for Compared {
    fn fmt(&self, f: &mut Formatter<'_>) -> fmt::Result {
        let Self { sorts, refused, merged, rows, shared } = self;
        writeln!(f, "{} calls, refused {refused:?}", self.calls())?;
        writeln!(f, "  {merged} merged to {rows} rows, {shared} of them shared")?;
        for (sort, calls) in sorts.iter().filter(|(sort, _)| !sort.is_empty()) {
            writeln!(f, "  {calls:>10} {sort}")?;
        }
        Ok(())
    }
}

/// The answer of the proved call, which is that of the second reading in every byte of every buffer.
fn answer(merge: &Merge) -> Answer {
    let (expected, actual) = (READING.answer(merge), Proved.answer(merge));
    assert!(expected == actual, "{}\n{merge}", difference(&expected, &actual));
    actual
}

fn assert_each_agrees(title: &str, calls: impl Iterator<Item = (&'static str, Merge)>) -> Compared {
    let mut compared = Compared::default();
    for (sort, merge) in calls {
        compared.count(sort, &merge, &answer(&merge));
    }
    print(&format!("merge, {title}: {compared}"));
    compared
}

/// Asserts that each answers as is written by hand, and as the second reading has it.
fn assert_each(title: &str, trials: impl Iterator<Item = Trial>) -> Compared {
    let mut compared = Compared::default();
    for trial in trials {
        let answer = answer(&trial.merge);
        assert_eq!(answer.number, trial.number().into(), "by hand {:?}\n{}", trial.answer, trial.merge);
        compared.count("", &trial.merge, &answer);
    }
    print(&format!("merge, {title}: {compared}"));
    compared
}

/// "Tested after 7 as 11, 12, then 3", and before it the tests of the first table and then of the second.
#[test]
fn the_tests_stand_in_this_order() {
    assert_eq!(ORDER.map(|test| test.number), [2, 3, 4, 5, 10, 2, 3, 4, 5, 10, 7, 11, 12, 3]);
}

#[test]
fn tables_without_rows() {
    let compared = assert_each("tables without rows", empty_tables());
    assert_eq!([compared.merged, compared.calls()], [9, 9]);
}

/// 13 offsets on each axis, of which 7 are none too far.
#[test]
fn offsets_about_both_ends() {
    let without_rows = assert_each("offsets, no rows", far_offsets());
    assert_eq!([without_rows.merged, without_rows.refused[&11]], [2 * 343, 2 * (2_197 - 343)]);
    let with_rows = assert_each("offsets, a row", offsets());
    assert_eq!([with_rows.merged, with_rows.refused[&11]], [3 * 9, 3 * (39 - 9)]);
}

/// From 7 places to 6 at either end and before it, and to 4 past it, of which 6 ways are too far; each of three rows on each
/// axis.
#[test]
fn rows_at_the_end_of_the_ground_and_past_it() {
    let compared = assert_each("ends", ends());
    assert_eq!([compared.merged, compared.refused[&11]], [9 * 7 * 6, 9 * (7 * 4 - 6)]);
}

#[test]
fn rows_that_are_given_off_the_ground() {
    let compared = assert_each("given off the ground", given_off_ground());
    assert_eq!([compared.refused[&4], compared.calls()], [8 * 3 * 3 * 2; 2]);
}

/// 24 pairs of row counts, of which 10 are too many together, in three layouts at two offsets.
#[test]
fn about_as_many_rows_as_there_may_be() {
    let compared = assert_each("most rows", most_rows());
    assert_eq!([compared.merged, compared.refused[&3]], [6 * 14, 6 * 10]);
}

/// Of the 20 bytes after the position of three rows, 18 can be others in good rows.
#[test]
fn a_clash_in_any_byte_of_a_shared_row() {
    let compared = assert_each("a byte of a shared row", clashes());
    assert_eq!(compared.calls(), 20 * 256 * 3 * 2);
    // The 13 kinds, two bytes with 7 values, one with 3, five with 2, two with 256, three with 3 and four with 4; one
    // value of each is the same.
    let good = 13 + 2 * 7 + 3 + 5 * 2 + 2 * 256 + 3 * 3 + 4 * 4;
    assert_eq!([compared.merged, compared.refused[&12]], [6 * 20, 6 * (good - 18)]);
    assert_eq!(compared.refused[&4], 6 * (20 * 256 - good - 2));
}

#[test]
fn every_byte_of_either_table_set_to_every_value() {
    let compared = assert_each_agrees("single bytes", single_bytes().map(|merge| ("", merge)));
    assert_eq!(compared.calls(), 2 * 96 * 256);
    assert!([4, 5, 12].iter().all(|number| compared.refused[number] > 1_000), "{compared}");
}

#[test]
fn an_output_of_every_length_about_the_right_one() {
    let compared = assert_each("output lengths", out_lengths());
    assert_eq!([compared.merged, compared.refused[&7]], [6, 6 * 149]);
}

#[test]
fn an_output_with_every_value_before() {
    let compared = assert_each("fillings", fillings());
    assert_eq!([compared.merged, compared.calls()], [6 * 256; 2]);
}

#[test]
fn every_two_tables_at_the_corners_of_a_cube() {
    let compared = assert_each("corners of a cube", small_pairs());
    assert_eq!([compared.merged, compared.calls()], [4 * 65_536; 2]);
    assert_eq!([compared.rows, compared.shared], [4 * 65_536 * 6, 4 * 65_536 * 2]);
}

/// 15 faults, of which each comes first in half of the combinations that have none before it.
#[test]
fn every_combination_of_faults() {
    let compared = assert_each("every combination of faults", all_combinations(Arrangement::backward()));
    assert_eq!([compared.merged, compared.calls()], [1, 1 << 15]);
    let firsts = |faults: &[u32]| faults.iter().map(|fault| 1 << (14 - fault)).sum::<u64>();
    let by_number =
        [(2, firsts(&[0, 5])), (3, firsts(&[1, 6, 14])), (4, firsts(&[2, 7])), (5, firsts(&[3, 8]))];
    let later = [(7, firsts(&[10])), (10, firsts(&[4, 9])), (11, firsts(&[11, 12])), (12, firsts(&[13]))];
    assert_eq!(compared.refused, by_number.into_iter().chain(later).collect());
}

/// Of the faults 11 show with good lengths of both tables, and those at rows stand in 9 orders in each.
#[test]
fn faults_at_rows_in_every_combination_and_arrangement() {
    let compared = assert_each("every arrangement", Arrangement::all().flat_map(of_rows));
    assert_eq!([compared.merged, compared.calls()], [81, 81 << 11]);
}

fn all_trials() -> impl Iterator<Item = Trial> {
    let of_offsets =
        empty_tables().chain(offsets()).chain(ends()).chain(given_off_ground()).chain(far_offsets());
    let of_tables = most_rows().chain(out_lengths());
    let of_faults = of_rows(Arrangement::backward()).chain(clashes());
    of_offsets.chain(of_tables).chain(of_faults).chain(all_combinations(Arrangement::backward()))
}

/// What a reading answers and leaves in the output.
fn read(reading: &Reading, merge: &Merge) -> (u32, Vec<u8>) {
    let mut out = vec![merge.out.filling; merge.out.bytes];
    (reading.called(merge, &mut out), out)
}

/// Each wrong reading answers a call that is tried otherwise than the right one.
#[test]
fn misreadings_are_reported() {
    for misreading in &MISREADINGS {
        let mut wrong = READING;
        (misreading.change)(&mut wrong);
        let differs = |Trial { merge, .. }: Trial| read(&wrong, &merge) != read(&READING, &merge);
        assert!(all_trials().any(differs), "{}", misreading.what);
    }
    print(&format!("merge: {} wrong readings reported", MISREADINGS.len()));
}

/// So many calls are compared, or more where DIFF_CALLS says so; 1,000,000 take half a minute.
const CALLS: u64 = 50_000;

/// Every refusal is among the answers, and every sort of pair.
#[test]
fn generated_pairs_agree_with_document_02() {
    let first = setting("DIFF_SEED", 0);
    let calls = setting("DIFF_CALLS", CALLS).max(CALLS);
    let pairs = (first..first + calls).map(generated).map(|generated| (generated.sort, generated.merge));
    let compared = assert_each_agrees("generated", pairs);
    assert!(compared.merged > calls / 4 && compared.shared > calls, "{compared}");
    let is_often = |number| compared.refused.get(number).is_some_and(|refused| *refused > calls / 500);
    assert!([2, 3, 4, 5, 7, 10, 11, 12].iter().all(is_often), "{compared}");
    assert_eq!(compared.sorts.len(), 7);
}

/// The result of a call that is not refused.
fn merged(merge: &Merge) -> Option<Vec<u8>> {
    let answer = answer(merge);
    answer.refusal().is_none().then(|| answer.bytes(OUT)[..ROW_BYTES * answer.number as usize].to_vec())
}

/// A table, moved.
fn moved(table: &[u8], offset: Position) -> Option<Vec<u8>> {
    merged(&Merge::new([], table, offset))
}

/// Generated calls with their results.
fn merged_pairs(calls: u64) -> impl Iterator<Item = (Merge, Vec<u8>)> {
    let generated = (0..calls).map(|seed| generated(seed).merge);
    generated.filter_map(|merge| merged(&merge).map(|result| (merge, result)))
}

/// "Every input row, the second's moved, is in the result and nothing else is."
#[test]
fn every_row_is_in_the_result_and_nothing_else_is() {
    let (mut results, mut all) = (0, 0);
    for (merge, result) in merged_pairs(5_000) {
        let first = rows(&merge.first);
        let second: Vec<_> = rows(&merge.second).iter().map(|row| moved_row(row, merge.offset)).collect();
        let result = rows(&result);
        assert!(first.iter().chain(&second).all(|row| result.contains(row)), "{merge}");
        assert!(result.iter().all(|row| first.contains(row) || second.contains(row)), "{merge}");
        assert!(result.is_sorted_by(|one, next| one.position() < next.position()), "{merge}");
        results += 1;
        all += result.len();
    }
    print(&format!("merge, rows of the result: {results} results with {all} rows"));
    assert!(results > 1_000, "{results} results");
}

/// Every call takes the result by a profile by which it takes both tables: fresh, tick, switch, settle, the support list,
/// the redraw and the clearing.
#[test]
fn every_call_takes_the_result() {
    let (mut by_13, mut by_14) = (0, 0);
    for (merge, result) in merged_pairs(3_000) {
        for profile in [&BENCH_PROFILE[..], &BENCH_PROFILE_WITH_BULB] {
            if [&merge.first, &merge.second].iter().any(|table| check(profile, table).is_err()) {
                continue;
            }
            let called = call_each(profile, &result);
            assert!(called.is_ok(), "{called:?} by {profile:?}\n{merge}");
            let case = Case::of_bytes(profile, &result);
            assert_eq!(Probe(&case).answer(&Clear::on(&case)).refusal(), None, "by {profile:?}\n{merge}");
            *if profile.len() == 13 { &mut by_13 } else { &mut by_14 } += 1;
        }
    }
    print(&format!("merge, seven calls on the result: {by_13} with 13 bytes of profile, {by_14} with 14"));
    assert!(by_13 > 500 && by_14 > by_13, "{by_13} and {by_14} results");
}

fn call_each(profile: &[u8], table: &[u8]) -> Result<(), Refusal> {
    let mut circuit = Circuit::from_table(profile, table)?;
    circuit.tick(1)?;
    circuit.switch([0; 3], true)?;
    circuit.settle(&circuit.devices(), Rounds::MOST)?;
    circuit.unsupported()?;
    circuit.redraw()?;
    Ok(())
}

/// An accepted table of a seed.
fn any_table(seed: u64) -> Vec<u8> {
    generate::case(seed).table
}

/// Also where both tables are lent at one place.
#[test]
fn a_table_and_itself_or_nothing_is_the_table() {
    for table in (0..3_000).map(any_table) {
        let mut out = [0; OUT_BYTES];
        assert_eq!(redstone_merge(&table, &table, 0, 0, 0, &mut out) as usize, table.len() / ROW_BYTES);
        assert!(out.starts_with(&table), "{}", row_lines(&table));
        let is_table =
            |second: &[u8], offset| merged(&Merge::new(&table[..], second, offset)) == Some(table.clone());
        assert!(is_table(&table, [0; 3]) && is_table(&[], [3, -2, 1]), "{}", row_lines(&table));
        assert_eq!(moved(&table, [0; 3]), Some(table));
    }
}

/// A table that is moved and moved back is as it was, and moved twice it is where both offsets together bring it.
#[test]
fn moving_back_undoes_moving() {
    let (mut there, mut twice) = (0, 0);
    for seed in 0..5_000 {
        let random = &mut Random::new(seed);
        let table = any_table(seed);
        let [one, other] =
            [(); 2].map(|()| [(); 3].map(|()| random.pick(&[0, 1, -3, 50, 1_000_000, -999_997])));
        let Some(once) = moved(&table, one) else { continue };
        assert_eq!(moved(&once, back(one)).as_ref(), Some(&table));
        there += 1;
        if let Some(both) = moved(&once, other) {
            assert_eq!(moved(&table, table::moved(one, other)), Some(both));
            twice += 1;
        }
    }
    print(&format!("merge, moved and moved back: {there} tables, {twice} moved twice"));
    assert!(there > 500 && twice > 100, "{there} and {twice} tables");
}

/// The second and the first, moved the other way, give the same table, moved.
#[test]
fn the_second_and_the_first_are_the_first_and_the_second() {
    let (mut unmoved, mut others) = (0, 0);
    for (Merge { first, second, offset, .. }, result) in merged_pairs(10_000) {
        let turned = Merge::new(&second[..], &first[..], back(offset));
        let Some(turned) = merged(&turned) else {
            // The first is off the ground where the second was.
            assert_ne!(offset, [0; 3]);
            continue;
        };
        assert_eq!(moved(&turned, offset), Some(result));
        *if offset == [0; 3] { &mut unmoved } else { &mut others } += 1;
    }
    print(&format!("merge, turned round: {unmoved} at no offset, {others} at others"));
    assert!(unmoved > 100 && others > 1_000, "{unmoved} and {others}");
}

/// Of accepted tables at no offset, in either order: what the call is refused for is so, too.
#[test]
fn at_no_offset_the_order_of_the_tables_does_not_matter() {
    let mut refused = BTreeMap::<_, u64>::new();
    for seed in 0..5_000 {
        let Merge { first, second, offset, .. } = generated(seed).merge;
        let (Some(first), Some(second)) = (moved(&first, [0; 3]), moved(&second, offset)) else { continue };
        let answers = [[&first, &second], [&second, &first]]
            .map(|[one, other]| answer(&Merge::new(&one[..], &other[..], [0; 3])));
        let [one, other] = answers.each_ref().map(|answer| (answer.number, answer.bytes(OUT)));
        assert!(one == other, "{}{}", row_lines(&first), row_lines(&second));
        *refused.entry(answers[0].refusal()).or_default() += 1;
    }
    print(&format!("merge, in either order: refused {refused:?}"));
    assert!([None, Some(12)].iter().all(|number| refused[number] > 100), "{refused:?}");
}

/// Three parts of a table are the table, whichever two are merged first.
#[test]
fn three_parts_make_the_table() {
    let mut tables = 0;
    for seed in 0..2_000 {
        let (table, random) = (any_table(seed), &mut Random::new(!seed));
        let mut parts = [(); 3].map(|()| Vec::new());
        for row in table.chunks_exact(ROW_BYTES) {
            let always = random.below(3);
            for (number, part) in parts.iter_mut().enumerate() {
                part.extend((number == always || random.percent(30)).then_some(row).into_iter().flatten());
            }
        }
        let two =
            |one: &[u8], other: &[u8]| merged(&Merge::new(one, other, [0; 3])).expect("parts of a table");
        let [a, b, c] = &parts;
        assert_eq!(two(&two(a, b), c), table);
        assert_eq!(two(a, &two(b, c)), table);
        tables += 1;
    }
    print(&format!("merge, three parts: {tables} tables"));
}
