//! Rows that would drop, cleared, against the original and document 02's Change 7.

use std::collections::BTreeMap;
use std::fmt::{self, Display, Formatter};

use differential::clear::{
    Clear, KEPT, MISREADINGS, ORDER, PASSES, READING, Read, TRIALS, Trial, all_combinations, cubes, features,
    fillings, generated, holders, in_every_order, largest_set, lengths, long_towers, offsets, profile_bytes,
    profile_lengths, rings, single_bytes, squares, told, towers, turned,
};
use differential::compare::{Answer, Answers, difference};
use differential::generate::{BENCH_PROFILE, BENCH_PROFILE_WITH_BULB, Case, NEEDING};
use differential::probe::{Probe, probe_support_issues};
use differential::random::Random;
use differential::refusals::check;
use differential::suite::{print, setting};
use differential::table::{moved_row, rows};
use redstone::{Circuit, ROW_BYTES, Row, Shape};

#[cfg(no_original)]
#[test]
fn the_original_was_not_found() {
    differential::suite::say_original_not_found("clear");
}

/// What was compared.
#[derive(Default)]
struct Compared {
    sorts: BTreeMap<&'static str, u64>,
    features: BTreeMap<&'static str, u64>,
    refused: BTreeMap<u32, u64>,
    cleared: u64,
    rows: u64,
    kept: u64,
    passes: u16,
}

impl Compared {
    fn calls(&self) -> u64 {
        self.cleared + self.refused.values().sum::<u64>()
    }

    fn count(&mut self, case: &Case, answer: &Answer) {
        *self.sorts.entry(case.sort).or_default() += 1;
        if let Some(number) = answer.refusal() {
            *self.refused.entry(number as u32).or_default() += 1;
            return;
        }
        self.cleared += 1;
        self.rows += case.rows() as u64;
        self.kept += answer.number as u64;
        self.passes = self.passes.max(answer.buffers[PASSES].entries.iter().copied().max().unwrap_or(0));
        for feature in told(case) {
            *self.features.entry(feature).or_default() += 1;
        }
    }
}

impl Display for Compared {
    fn fmt(&self, f: &mut Formatter<'_>) -> fmt::Result {
        let Self { sorts, features, refused, cleared, rows, kept, passes } = self;
        writeln!(f, "{} calls, refused {refused:?}", self.calls())?;
        writeln!(f, "  {cleared} cleared: {rows} rows, {kept} of them kept, passes up to {passes}")?;
        for (name, calls) in sorts.iter().chain(features) {
            writeln!(f, "  {calls:>10} {name}")?;
        }
        Ok(())
    }
}

fn assert_same(side: &str, expected: &Answer, actual: &Answer, case: &Case) {
    assert!(expected == actual, "{side}: {}\n{case}", difference(expected, actual));
}

/// What the proved call is compared with.
const SIDES: &str =
    if cfg!(no_original) { "the second reading alone" } else { "the original and the second reading" };

/// The answer of the proved call, which is that of these sides in every byte of every buffer.
fn answer(case: &Case, clear: &Clear) -> Answer {
    let actual = Probe(case).answer(clear);
    assert_same("the second reading", &Read::new(case).answer(clear), &actual, case);
    #[cfg(not(no_original))]
    assert_same("the original", &differential::oracle::Oracle::new(case).answer(clear), &actual, case);
    actual
}

/// Counts what was answered, and prints it.
fn counted(title: &str, answers: impl Iterator<Item = (Case, Answer)>) -> Compared {
    let mut compared = Compared::default();
    answers.for_each(|(case, answer)| compared.count(&case, &answer));
    print(&format!("clear, {title}, with {SIDES}: {compared}"));
    compared
}

fn assert_each_agrees(title: &str, calls: impl Iterator<Item = (Case, Clear)>) -> Compared {
    let answered = |(case, clear): (Case, Clear)| {
        let answer = answer(&case, &clear);
        (case, answer)
    };
    counted(title, calls.map(answered))
}

/// Asserts that each answers as is written by hand, too.
fn assert_each(title: &str, trials: impl Iterator<Item = Trial>) -> Compared {
    let answered = |trial: Trial| {
        let answer = answer(&trial.case, &trial.clear);
        assert_same("by hand", &trial.expected(), &answer, &trial.case);
        (trial.case, answer)
    };
    counted(title, trials.map(answered))
}

/// The tests of every call that has a profile and a table, and 7 after them.
#[test]
fn the_tests_stand_in_this_order() {
    assert_eq!(ORDER.map(|test| test.number), [1, 2, 3, 4, 5, 10, 7]);
}

#[test]
fn written_tables_in_every_turn() {
    let compared = assert_each("written tables", TRIALS.iter().flat_map(turned));
    assert_eq!([compared.cleared, compared.calls()], [48 * 42; 2]);
    assert_eq!(compared.passes, 5);
}

/// 12 kinds by 32 bytes and the torch by 64, in 7 shapes, each under 13 kinds.
#[test]
fn every_kind_on_every_kind_by_every_byte_and_shape() {
    let compared = assert_each("every holder", holders());
    let bytes = 12 * 32 + 64;
    assert_eq!([compared.cleared, compared.rows], [bytes * 7 * 13, 2 * bytes * 7 * 13]);
    // Two shapes hold nothing, nor does half of the plain ones. Then what needs support goes: of the kinds that are on top,
    // five, and of those under them the same, whose bytes are 4 * 32 + 64.
    let (over, under) = ((2 * bytes + bytes / 2) * 5, (2 * 192 + 192 / 2) * 13);
    assert_eq!([compared.rows - compared.kept, compared.passes.into()], [over + under, 1]);
}

/// In the middle a block has 26 positions beside a row, and at each corner of the ground 7. Each is held by one of 28 supports.
#[test]
fn every_support_and_a_block_at_every_position() {
    let compared = assert_each("every offset", offsets());
    let blocks = 26 + 8 * 7;
    assert_eq!([compared.cleared, compared.rows - compared.kept], [28 * blocks, 27 * blocks]);
}

/// 41 heights in 5 ways on 4 feet, and 12 heights in 5 ways.
#[test]
fn towers_fall_a_row_a_pass() {
    let short = assert_each("towers", towers());
    assert_eq!([short.cleared, short.passes.into()], [41 * 5 * 4, 40]);
    let long = assert_each("long towers", long_towers());
    assert_eq!([long.cleared, long.passes.into()], [12 * 5, 1_024]);
}

/// 44 sizes both ways round, each whole and broken at three rows.
#[test]
fn rings_stay_unless_a_row_holds_nothing() {
    let compared = assert_each("rings", rings());
    assert_eq!([compared.cleared, compared.passes.into()], [44 * 2 * 4, 1_024]);
    assert_eq!(compared.features["all rows kept"], 44 * 2);
}

#[test]
fn lengths_about_the_right_ones() {
    let compared = assert_each("lengths", lengths());
    // Both are right three times on a table with rows, and seven times on one without.
    assert_eq!([compared.cleared, compared.refused[&7]], [5 * 3 + 7, compared.calls() - 22]);
    assert_eq!(compared.refused.len(), 1, "{compared}");
}

#[test]
fn buffers_with_every_value_before() {
    let compared = assert_each("fillings", fillings());
    assert_eq!([compared.cleared, compared.calls()], [6 * 256; 2]);
}

/// Air's byte is 0, the torch's ends at 63 and each other kind's at 31.
#[test]
fn every_byte_of_a_profile_at_every_value() {
    let compared = assert_each("profile bytes", profile_bytes());
    assert_eq!([compared.cleared, compared.refused[&1]], [1 + 64 + 12 * 32, 255 + 192 + 12 * 224]);
    // By half of Solid's bytes both levers go, and by half of the lever's the upper one.
    assert_eq!([compared.rows - compared.kept, compared.passes.into()], [2 * 16 + 16, 2]);
}

#[test]
fn profiles_of_every_length() {
    let compared = assert_each("profile lengths", profile_lengths());
    assert_eq!([compared.cleared, compared.refused[&1]], [2, 46]);
}

/// 6 faults that are there or not, and two lengths that are right, too long or too short.
#[test]
fn every_combination_of_faults() {
    let compared = assert_each("every combination of faults", all_combinations());
    assert_eq!([compared.cleared, compared.calls()], [1, 64 * 9]);
    let by_number = [(1, 288), (2, 144), (3, 72), (4, 36), (5, 18), (7, 8), (10, 9)];
    assert_eq!(compared.refused, by_number.into());
}

/// Of these faults three are at rows, and stand in 9 orders.
#[test]
fn faults_at_rows_in_every_combination_and_order() {
    let compared = assert_each("faults in every order", in_every_order());
    assert_eq!([compared.cleared, compared.calls()], [9, 9 * 8 * 9]);
}

fn with_right_lengths(case: Case) -> (Case, Clear) {
    let clear = Clear::on(&case);
    (case, clear)
}

/// Four rows and 14 bytes of profile.
#[test]
fn every_byte_of_a_table_and_a_profile_set_to_every_value() {
    let compared = assert_each_agrees("single bytes", single_bytes().map(with_right_lengths));
    assert_eq!(compared.calls(), (4 * 32 + 14) * 256);
    assert!([1, 4, 5, 10].iter().all(|number| compared.refused[number] > 100), "{compared}");
    let features =
        ["all rows kept", "no row kept", "a row holds itself", "two rows hold each other", "2 passes"];
    assert!(features.iter().all(|feature| compared.features[feature] > 0), "{compared}");
}

/// The rows that are kept, a bit for each.
fn kept_set(answer: &Answer) -> u32 {
    let bits = answer.buffers[PASSES].entries.iter().rev();
    bits.fold(0, |set, pass| 2 * set + u32::from(*pass == 0))
}

/// "What is kept is the largest set of rows in which every row that needs support has it."
fn assert_largest_sets(title: &str, cases: impl Iterator<Item = Case>) -> Compared {
    let answered = |case: Case| {
        let answer = answer(&case, &Clear::on(&case));
        assert_eq!(Some(kept_set(&answer)), largest_set(&Read::new(&case).holds()), "{case}");
        (case, answer)
    };
    counted(title, cases.map(answered))
}

/// A cell has 15 ways to be.
#[test]
fn every_way_in_which_the_cells_of_a_square_hold_each_other() {
    let compared = assert_largest_sets("squares", squares());
    assert_eq!([compared.cleared, compared.calls()], [3 * 50_625; 2]);
    assert_eq!(compared.passes, 4);
}

#[test]
fn every_way_in_which_six_corners_of_a_cube_hold_each_other() {
    let compared = assert_largest_sets("cubes", cubes());
    assert_eq!([compared.cleared, compared.calls()], [117_649; 2]);
    assert_eq!(compared.passes, 6);
    // Each is held by one of the six; and as many as there are forests of six with their roots.
    let [all, none] = ["all rows kept", "no row kept"].map(|feature| compared.features[feature]);
    assert_eq!([all, none], [6_u64.pow(6), 7_u64.pow(5)]);
}

fn all_trials() -> impl Iterator<Item = Trial> {
    let of_faults = all_combinations().chain(in_every_order()).chain(profile_lengths());
    let of_tables = TRIALS.iter().flat_map(turned).chain(lengths()).chain(profile_bytes());
    of_tables.chain(of_faults).chain(rings()).chain(holders()).chain(long_towers())
}

/// Each wrong reading answers a call that is tried otherwise than the right one.
#[test]
fn misreadings_are_reported() {
    for misreading in &MISREADINGS {
        let mut wrong = READING;
        (misreading.change)(&mut wrong);
        let differs = |Trial { case, clear, .. }: Trial| {
            Read { case: &case, reading: wrong }.answer(&clear) != Read::new(&case).answer(&clear)
        };
        assert!(all_trials().any(differs), "{}", misreading.what);
    }
    print(&format!("clear: {} wrong readings reported", MISREADINGS.len()));
}

/// So many calls are compared, or more where DIFF_CALLS says so; 1,000,000 take a minute and a half.
const CALLS: u64 = 30_000;

/// Every refusal is among the answers, and every feature that a table may have.
#[test]
fn generated_tables_agree() {
    let first = setting("DIFF_SEED", 0);
    let calls = setting("DIFF_CALLS", CALLS).max(CALLS);
    let compared = assert_each_agrees("generated", (first..first + calls).map(generated));
    assert!(compared.cleared > calls / 2, "{compared}");
    let is_often = |number| compared.refused.get(number).is_some_and(|refused| *refused > calls / 500);
    assert!([1, 2, 4, 5, 7, 10].iter().all(is_often) && compared.refused.contains_key(&3), "{compared}");
    assert!(features().all(|feature| compared.features.contains_key(feature)), "{compared}");
}

/// Generated tables that are accepted.
fn accepted(tables: u64) -> impl Iterator<Item = Case> {
    (0..tables).map(|seed| generated(seed).0).filter(|case| check(&case.profile, &case.table).is_ok())
}

/// The table of the kept rows, and the pass of each row.
fn cleared(case: &Case) -> (Vec<u8>, Vec<u16>) {
    let answer = answer(case, &Clear::on(case));
    let kept = answer.bytes(KEPT)[..ROW_BYTES * answer.number as usize].to_vec();
    (kept, answer.buffers[PASSES].entries.clone())
}

/// What is kept is accepted, the support list names none of it, and clearing it again keeps all.
#[test]
fn what_is_kept_stands() {
    let (mut tables, mut kept_rows) = (0, 0);
    for case in accepted(5_000) {
        let (kept, _) = cleared(&case);
        let circuit = Circuit::from_table(&case.profile, &kept[..]);
        let circuit = circuit.unwrap_or_else(|refusal| panic!("{refusal}\n{case}"));
        assert_eq!(circuit.unsupported(), Ok(Vec::new()), "{case}");
        let (again, passes) = cleared(&Case { table: kept.clone(), ..case });
        assert!(again == kept && passes.iter().all(|pass| *pass == 0));
        tables += 1;
        kept_rows += kept.len() / ROW_BYTES;
    }
    print(&format!("clear, what is kept: {tables} tables, {kept_rows} rows"));
    assert!(tables > 3_000 && kept_rows > 10_000, "{tables} tables, {kept_rows} rows");
}

/// The support list of a table, by the proved call.
fn named(case: &Case) -> Vec<usize> {
    let mut column = vec![0; case.rows()];
    let named = probe_support_issues(&case.profile, &case.table, &mut column);
    column[..named as usize].iter().map(|row| usize::from(*row)).collect()
}

/// "Removes every row named by the support list, looks again, and repeats until none is named": by the proved list.
#[test]
fn each_pass_is_the_support_list_of_what_is_left() {
    let (mut tables, mut lists) = (0, 0);
    for case in accepted(5_000) {
        let (kept, passes) = cleared(&case);
        let mut left: Vec<_> = (0..case.rows()).collect();
        let mut expected = vec![0; case.rows()];
        for pass in 1.. {
            let table = left.iter().flat_map(|row| &case.table[ROW_BYTES * row..][..ROW_BYTES]);
            let now = Case { table: table.copied().collect(), ..case.clone() };
            let named = named(&now);
            lists += 1;
            if named.is_empty() {
                assert!(now.table == kept, "{case}");
                break;
            }
            named.iter().for_each(|row| expected[left[*row]] = pass);
            left.retain(|row| expected[*row] == 0);
        }
        assert_eq!(passes, expected, "{case}");
        tables += 1;
    }
    print(&format!("clear, list after list: {tables} tables, {lists} lists"));
    assert!(tables > 3_000 && lists > 2 * tables, "{tables} tables, {lists} lists");
}

/// What goes from a table goes from a part of it, too, and no later.
#[test]
fn more_rows_hold_no_less() {
    let (mut tables, mut later) = (0, 0);
    for case in accepted(5_000) {
        let random = &mut Random::new(!case.seed);
        let share = random.pick(&[50, 80, 95]);
        let is_in_part: Vec<_> = (0..case.rows()).map(|_| random.percent(share)).collect();
        let part = case.table.chunks(ROW_BYTES).zip(&is_in_part).filter(|(_, is_in)| **is_in);
        let part = Case { table: part.flat_map(|(row, _)| row).copied().collect(), ..case.clone() };
        let whole = cleared(&case).1.into_iter().zip(is_in_part).filter(|(_, is_in)| *is_in);
        for (of_part, (of_whole, _)) in cleared(&part).1.into_iter().zip(whole) {
            assert!(of_whole == 0 || (1..=of_whole).contains(&of_part), "{of_part}, {of_whole} of {case}");
            later += u64::from(of_part != of_whole);
        }
        tables += 1;
    }
    print(&format!("clear, parts: {tables} tables, {later} rows that stay longer in the whole"));
    assert!(tables > 3_000 && later > 1_000, "{tables} tables, {later} rows");
}

/// A table that is moved is cleared to the same rows, moved, in the same passes.
#[test]
fn a_moved_table_is_cleared_as_it_was() {
    let mut tables = 0;
    for case in accepted(5_000) {
        let random = &mut Random::new(case.seed);
        let offset = [(); 3].map(|()| random.pick(&[0, 1, -7, 300, -1_000_000]));
        let moved = |table: &[u8]| redstone::table(rows(table).iter().map(|row| moved_row(row, offset)));
        let other = Case { table: moved(&case.table), ..case.clone() };
        if check(&other.profile, &other.table).is_err() {
            continue;
        }
        let (kept, passes) = cleared(&case);
        assert!(cleared(&other) == (moved(&kept), passes), "moved by {offset:?}: {case}");
        tables += 1;
    }
    print(&format!("clear, moved: {tables} tables"));
    assert!(tables > 1_000, "{tables} tables");
}

/// By the bench profile what needs support holds nothing, unless it has a shape: what goes goes in the first pass.
#[test]
fn by_the_bench_profile_and_without_shapes_there_is_at_most_one_pass() {
    let (mut tables, mut gone) = (0, 0);
    for case in accepted(5_000) {
        let profile = if case.has_bulbs() { &BENCH_PROFILE_WITH_BULB[..] } else { &BENCH_PROFILE };
        let needs_support = |row: &Row| NEEDING.contains(&row.kind());
        let plain = |row: &Row| if needs_support(row) { row.with_shape(Shape::Plain) } else { *row };
        let (_, passes) = cleared(&Case::new(case.sort, profile, rows(&case.table).iter().map(plain)));
        assert!(passes.iter().all(|pass| *pass <= 1), "{case}");
        tables += 1;
        gone += passes.iter().filter(|pass| **pass == 1).count();
    }
    print(&format!("clear, without shapes: {tables} tables, {gone} rows that go"));
    assert!(tables > 3_000 && gone > 10_000, "{tables} tables, {gone} rows");
}
