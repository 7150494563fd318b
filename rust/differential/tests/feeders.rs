//! The list of what feeds each dust, built and kept up, against the original and document 02's Change 9.

use std::collections::BTreeMap;
use std::fmt::{self, Display, Formatter};

use differential::compare::{Answer, Answers, difference};
use differential::dust::{Rule, is_dust};
use differential::feeders::{
    Call, LIST, MISREADINGS, ORDER, READING, REPLACEMENTS, Read, Replacement, TABLES, Told, Trial,
    all_combinations, building, cubes, edits, edits_of, every_distance, every_kind_by_every_kind,
    far_distances, fillings, full_lines, generated, in_every_order, kind_numbers, left_by, list_lengths,
    new_row_bytes, new_row_lengths, profile_lengths, replaced, row_numbers, single_bytes, stored_arms, tell,
    turned,
};
use differential::generate::{self, Case};
use differential::probe::Probe;
use differential::random::Random;
use differential::suite::{at_least_seeds, print, setting};
use redstone::{MOST_ROWS, ROW_BYTES, Row};

#[cfg(no_original)]
#[test]
fn the_original_was_not_found() {
    differential::suite::say_original_not_found("feeders");
}

/// What was compared.
#[derive(Default)]
struct Compared {
    built: u64,
    refused_building: BTreeMap<i128, u64>,
    replaced: u64,
    refused_replacing: BTreeMap<i128, u64>,
    /// The rows of the tables of which a list is built or a row is replaced.
    rows: u64,
    /// The replacements by whether the old row is dust and whether the new one is.
    dust: BTreeMap<[bool; 2], u64>,
    /// Those to which the old table's own list is handed in.
    right: u64,
    /// Those of them after which the list is another.
    right_otherwise: u64,
    /// Those to which another list is handed in.
    wrong: u64,
}

impl Compared {
    fn calls(&self) -> u64 {
        self.built
            + self.replaced
            + self.refused_building.values().chain(self.refused_replacing.values()).sum::<u64>()
    }

    fn count(&mut self, case: &Case, call: &Call, answer: &Answer) {
        let refused = match call.replacement {
            Some(_) => &mut self.refused_replacing,
            None => &mut self.refused_building,
        };
        if let Some(number) = answer.refusal() {
            *refused.entry(number).or_default() += 1;
            return;
        }
        self.rows += case.rows() as u64;
        match &call.replacement {
            Some(replacement) => self.count_replaced(case, call, replacement, answer),
            None => self.built += 1,
        }
    }

    fn count_replaced(&mut self, case: &Case, call: &Call, replacement: &Replacement, answer: &Answer) {
        self.replaced += 1;
        let row = usize::from(replacement.row);
        let old_and_new = [&case.table[ROW_BYTES * row..][..ROW_BYTES], &replacement.new_row[..]];
        let dust = old_and_new.map(|bytes| Row::try_from(bytes).is_ok_and(|row| is_dust(&row)));
        *self.dust.entry(dust).or_default() += 1;
        if call.list == list_of(case) {
            self.right += 1;
            self.right_otherwise += u64::from(answer.buffers[LIST].entries != call.list);
        } else {
            self.wrong += 1;
        }
    }
}

impl Display for Compared {
    fn fmt(&self, f: &mut Formatter<'_>) -> fmt::Result {
        let Self { built, refused_building, replaced, refused_replacing, rows, .. } = self;
        writeln!(f, "{} calls, tables of {rows} rows", self.calls())?;
        writeln!(f, "  {built} built, refused {refused_building:?}")?;
        writeln!(f, "  {replaced} replaced, refused {refused_replacing:?}")?;
        let Self { dust, right, right_otherwise, wrong, .. } = self;
        writeln!(f, "  to {right} the right list is handed in, which becomes another in {right_otherwise}")?;
        writeln!(f, "  to {wrong} a wrong one; dust before and after {dust:?}")
    }
}

fn assert_same(side: &str, expected: &Answer, actual: &Answer, case: &Case, call: &Call) {
    assert!(expected == actual, "{side}: {}, {call:?}\n{case}", difference(expected, actual));
}

/// What the proved calls are compared with.
const SIDES: &str =
    if cfg!(no_original) { "the second reading alone" } else { "the original and the second reading" };

/// The list of an accepted case, by the proved call.
fn list_of(case: &Case) -> Vec<u16> {
    Probe(case).answer(&Call::build(case)).buffers[LIST].entries.clone()
}

/// "If the list handed in was the old table's under this profile, the result must equal a list built afresh."
fn assert_stays_right(case: &Case, call: &Call, answer: &Answer) {
    if call.replacement.is_some() && answer.refusal().is_none() && call.list == list_of(case) {
        assert!(
            answer.buffers[LIST].entries == list_of(&left_by(answer, case)),
            "a right list became a wrong one: {call:?}\n{case}"
        );
    }
}

/// The answer of the proved call, which is that of these sides in every byte of every buffer.
fn answer(case: &Case, call: &Call) -> Answer {
    let actual = Probe(case).answer(call);
    assert_same("the second reading", &Read::new(case).answer(call), &actual, case, call);
    #[cfg(not(no_original))]
    assert_same("the original", &differential::oracle::Oracle::new(case).answer(call), &actual, case, call);
    assert_stays_right(case, call, &actual);
    actual
}

/// Counts what was answered, and prints it.
fn counted(title: &str, answers: impl Iterator<Item = (Case, Call, Answer)>) -> Compared {
    let mut compared = Compared::default();
    answers.for_each(|(case, call, answer)| compared.count(&case, &call, &answer));
    print(&format!("feeders, {title}, with {SIDES}: {compared}"));
    compared
}

fn assert_each_agrees(title: &str, calls: impl Iterator<Item = (Case, Call)>) -> Compared {
    let answered = |(case, call): (Case, Call)| {
        let answer = answer(&case, &call);
        (case, call, answer)
    };
    counted(title, calls.map(answered))
}

/// Asserts that each answers as is written by hand, too.
fn assert_each(title: &str, trials: impl Iterator<Item = Trial>) -> Compared {
    let answered = |trial: Trial| {
        let answer = answer(&trial.case, &trial.call);
        assert_same("by hand", &trial.expected(), &answer, &trial.case, &trial.call);
        (trial.case, trial.call, answer)
    };
    counted(title, trials.map(answered))
}

/// The tests of every call that has a profile and a table, those of the new row, and 7 after them.
#[test]
fn the_tests_stand_in_this_order() {
    assert_eq!(ORDER.map(|test| test.number), [1, 2, 3, 4, 5, 10, 4, 5, 10, 7]);
}

#[test]
fn written_tables_in_every_turn() {
    let compared = assert_each("written tables", TABLES.iter().flat_map(turned));
    assert_eq!([compared.built, compared.calls()], [4 * TABLES.len() as u64; 2]);
}

/// Each in four turns: the lists before and after, and the replacement with the right list and with five wrong ones. Where
/// nothing feeds anything before, one of these is right, too.
#[test]
fn written_replacements_in_every_turn() {
    let compared = assert_each("written replacements", REPLACEMENTS.iter().flat_map(replaced));
    let turned = 4 * REPLACEMENTS.len() as u64;
    assert_eq!([compared.built, compared.replaced, compared.calls()], [2 * turned, 6 * turned, 8 * turned]);
    assert!(compared.right >= turned && compared.wrong > 4 * turned, "{compared}");
    assert!(compared.right_otherwise > turned / 2, "{compared}");
}

/// 13 kinds in 3 shapes, by 13 kinds in 7 shapes and 7 facings, with the right list and with a wrong one.
#[test]
fn every_kind_is_replaced_by_every_kind() {
    let compared = assert_each("every kind", every_kind_by_every_kind());
    let (olds, news) = (13 * 3, 13 * 7 * 7);
    assert_eq!([compared.replaced, compared.calls()], [2 * olds * news; 2]);
    // One kind of thirteen is dust.
    let of_dust = [[true, true], [true, false], [false, true]].map(|dust| compared.dust[&dust]);
    let pairs = 2 * olds * news / 169;
    assert_eq!(of_dust, [pairs, 12 * pairs, 12 * pairs]);
    assert!(compared.right_otherwise > pairs, "{compared}");
}

/// 257 sets of arms and 7 shapes of a block, in the place of three rows, between dust with each of five arms.
#[test]
fn dust_is_replaced_by_dust_with_every_set_of_stored_arms() {
    let compared = assert_each("stored arms", stored_arms());
    assert_eq!([compared.replaced, compared.calls()], [2 * (257 + 7) * 3 * 5; 2]);
}

/// 9 distances on each axis but for none at all, of which 5 are near, two kinds that replace each other and two others.
#[test]
fn rows_at_every_distance() {
    let compared = assert_each("every distance", every_distance());
    assert_eq!([compared.replaced, compared.calls()], [4 * (729 - 1); 2]);
    let far = assert_each("far distances", far_distances());
    assert_eq!([far.replaced, far.calls()], [12 * 12 * 12 - 1 + 8 * 8 * 8 - 1; 2]);
}

#[test]
fn every_cell_of_a_cube() {
    let compared = assert_each("cubes", cubes());
    assert_eq!([compared.replaced, compared.wrong], [343; 2]);
}

/// Five lengths, of which each is built and nine rows are replaced with six lists.
#[test]
fn lines_up_to_the_longest() {
    let compared = assert_each("lines", full_lines());
    assert_eq!([compared.built, compared.replaced, compared.calls()], [5, 5 * 9 * 6, 5 + 5 * 9 * 6]);
    assert_eq!([compared.right, compared.right_otherwise], [5 * 9; 2]);
}

/// Six lines by lengths up to 30 more and less than the right one, or by as many as there are, and by 10 others. Of a line
/// without rows these are all right, as is one of the first, and it has no row that could be replaced.
#[test]
fn list_lengths_about_the_right_one() {
    let compared = assert_each("list lengths", list_lengths());
    let (of_none, of_five) = (31 + 10, 43 + 55 + 3 * 61 + 5 * 10);
    assert_eq!(compared.calls(), 2 * (of_none + of_five));
    assert_eq!([compared.built, compared.refused_building[&7]], [11 + 5, of_none + of_five - 16]);
    assert_eq!([compared.replaced, compared.refused_replacing[&7]], [5, of_five - 5]);
    assert_eq!(compared.refused_replacing[&5], of_none);
}

/// 109 lengths, at three rows.
#[test]
fn new_rows_of_every_length() {
    let compared = assert_each("new row lengths", new_row_lengths());
    assert_eq!([compared.replaced, compared.refused_replacing[&4]], [3, 3 * 108]);
}

#[test]
fn every_number_of_a_row() {
    let compared = assert_each("row numbers", row_numbers());
    assert_eq!([compared.replaced, compared.refused_replacing[&5]], [1, 65_535]);
}

/// 12 kinds without the bulb, and 13 with it.
#[test]
fn every_number_of_a_kind() {
    let compared = assert_each("kind numbers", kind_numbers());
    assert_eq!([compared.replaced, compared.refused_replacing[&4]], [12 + 13, 2 * 256 - 25]);
}

#[test]
fn lists_with_every_value_before() {
    let compared = assert_each("fillings", fillings());
    assert_eq!([compared.built, compared.replaced], [256; 2]);
}

#[test]
fn profiles_of_every_length() {
    let compared = assert_each("profile lengths", profile_lengths());
    assert_eq!([compared.built, compared.replaced], [2; 2]);
    assert_eq!([compared.refused_building[&1], compared.refused_replacing[&1]], [46; 2]);
}

/// 12 faults that are there or not, in four ways.
#[test]
fn every_combination_of_faults() {
    let compared = assert_each("every combination of faults", all_combinations());
    assert_eq!([compared.replaced, compared.calls()], [4, 4 * 4_096]);
    let firsts = |faults: &[u32]| faults.iter().map(|fault| 4 << (11 - fault)).sum::<u64>();
    let by_number = [(1, firsts(&[0])), (2, firsts(&[1])), (3, firsts(&[2])), (4, firsts(&[3, 6, 7]))];
    let later = [(5, firsts(&[4, 8, 9])), (7, firsts(&[11])), (10, firsts(&[5, 10]))];
    assert_eq!(compared.refused_replacing, by_number.into_iter().chain(later).collect());
}

/// 9 of these faults, of which those at rows stand in 9 orders.
#[test]
fn faults_at_rows_in_every_combination_and_order() {
    let compared = assert_each("faults in every order", in_every_order());
    assert_eq!([compared.replaced, compared.calls()], [9, 9 * 512]);
}

/// 7 faults that are there or not, in four ways.
#[test]
fn every_combination_of_faults_of_a_list_that_is_built() {
    let compared = assert_each("faults of a list that is built", building());
    assert_eq!([compared.built, compared.calls()], [4, 4 * 128]);
    let by_number = [(1, 64), (2, 32), (3, 16), (4, 8), (5, 4), (7, 1), (10, 2)];
    assert_eq!(compared.refused_building, by_number.map(|(number, calls)| (number, 4 * calls)).into());
}

/// Four rows and 14 bytes of profile; the list is built and each row is replaced.
#[test]
fn every_byte_of_a_table_and_a_profile_set_to_every_value() {
    let compared = assert_each_agrees("single bytes", single_bytes());
    assert_eq!(compared.calls(), 5 * (4 * 32 + 14) * 256);
    assert!([1, 4, 5, 10].iter().all(|number| compared.refused_building[number] > 100), "{compared}");
    assert!([1, 4, 5, 10].iter().all(|number| compared.refused_replacing[number] > 100), "{compared}");
}

/// Four rows, each replaced by itself but for a byte.
#[test]
fn every_byte_of_a_new_row_set_to_every_value() {
    let compared = assert_each_agrees("bytes of a new row", new_row_bytes());
    assert_eq!(compared.calls(), 4 * 32 * 256);
    assert!([4, 5, 10].iter().all(|number| compared.refused_replacing[number] > 100), "{compared}");
    assert!(compared.replaced > 500, "{compared}");
}

/// The small ones first.
fn all_trials() -> impl Iterator<Item = Trial> {
    let written = TABLES.iter().flat_map(turned).chain(REPLACEMENTS.iter().flat_map(replaced));
    let of_rows = new_row_lengths().chain(kind_numbers()).chain(profile_lengths());
    let of_faults = in_every_order().chain(building());
    let of_places = every_distance().chain(far_distances()).chain(stored_arms());
    let large = full_lines().chain(list_lengths()).chain(all_combinations());
    written.chain(of_rows).chain(of_places).chain(of_faults).chain(large)
}

/// Each wrong reading answers a call that is tried otherwise than is written by hand.
#[test]
fn misreadings_are_reported() {
    for misreading in &MISREADINGS {
        let mut wrong = READING;
        (misreading.change)(&mut wrong);
        let differs =
            |trial: Trial| Read { case: &trial.case, reading: wrong }.answer(&trial.call) != trial.expected();
        assert!(all_trials().any(differs), "{}", misreading.what);
    }
    print(&format!("feeders: {} wrong readings reported", MISREADINGS.len()));
}

/// So many calls are compared, or more where DIFF_CALLS says so; 1,000,000 take two minutes.
const CALLS: u64 = 30_000;

/// Every refusal is among the answers, and every rule among what feeds.
#[test]
fn generated_calls_agree() {
    let first = setting("DIFF_SEED", 0);
    let calls = setting("DIFF_CALLS", CALLS).max(CALLS);
    let mut told = Told::default();
    let compared = counted(
        "generated",
        (first..first + calls).map(generated).map(|(case, call)| {
            let answer = answer(&case, &call);
            if answer.refusal().is_none() {
                tell(&mut told, &left_by(&answer, &case));
            }
            (case, call, answer)
        }),
    );
    let Told { dust, rules, fed_by } = &told;
    print(&format!("feeders, generated: {dust} dust, fed {rules:?}, by so many {fed_by:?}"));
    let some = [compared.built, compared.right, compared.right_otherwise, compared.wrong];
    assert!(some.iter().all(|some| *some > calls / 20), "{compared}");
    assert!(compared.dust.len() == 4 && compared.dust.values().all(|some| *some > calls / 50), "{compared}");
    let is_often = |number| {
        [&compared.refused_building, &compared.refused_replacing].map(|refused| refused[number] > 10)
    };
    assert!([1, 2, 4, 5, 7, 10].iter().all(|number| is_often(number) == [true; 2]), "{compared}");
    assert!(compared.refused_replacing.contains_key(&3), "{compared}");
    let each = [Rule::Horizontal, Rule::Rise, Rule::FallThroughConductor];
    assert!(each.iter().all(|rule| rules[rule] > calls / 20), "{told:?}");
    assert!((0..=10).all(|feeders| fed_by.contains_key(&feeders)), "{told:?}");
}

/// Whose whole lists the lists are compared with.
const WHOLE_LISTS: &str = if cfg!(no_original) { "the second reading" } else { "the original" };

/// The list of all pairs of rows, by the original.
#[cfg(not(no_original))]
fn whole_list(case: &Case) -> Vec<u16> {
    let oracle = differential::oracle::Oracle::new(case);
    differential::feeders::by_all_pairs(&oracle).as_flattened().to_vec()
}

#[cfg(no_original)]
fn whole_list(case: &Case) -> Vec<u16> {
    Read::new(case).answer(&Call::build(case)).buffers[LIST].entries.clone()
}

/// The case and the list after a replacement.
fn edited(case: &Case, list: Vec<u16>, edit: Replacement) -> (Case, Vec<u16>) {
    let call = Call { replacement: Some(edit), list };
    let answer = answer(case, &call);
    assert_eq!(answer.number, case.rows() as i128, "{call:?}\n{case}");
    (left_by(&answer, case), answer.buffers[LIST].entries.clone())
}

/// So many tables, or more where DIFF_TABLES says so; 40,000 take two minutes.
const TABLES_EDITED: u64 = 1_500;

/// Rows that are replaced one after the other: the list is always that of the table as it is.
#[test]
fn the_list_stays_right_through_many_replacements() {
    let (mut tables, mut replacements, mut otherwise) = (0_u64, 0_u64, 0_u64);
    for seed in at_least_seeds(TABLES_EDITED) {
        let (mut case, edits) = edits(seed);
        let mut list = list_of(&case);
        tables += 1;
        for edit in edits {
            let (after, new_list) = edited(&case, list.clone(), edit);
            assert!(new_list == list_of(&after), "not as when built afresh: {case}{after}");
            assert!(new_list == whole_list(&after), "not as by {WHOLE_LISTS}: {case}{after}");
            replacements += 1;
            otherwise += u64::from(new_list != list);
            (case, list) = (after, new_list);
        }
    }
    print(&format!(
        "feeders, one after the other, with whole lists of {WHOLE_LISTS}: {tables} tables, {replacements} replacements, \
         {otherwise} lists that change"
    ));
    assert!(
        replacements > 5 * tables && otherwise > tables,
        "{replacements} replacements, {otherwise} otherwise"
    );
}

const EDITS_OF_A_FULL_TABLE: usize = 150;

/// The same of one table of 1,024 rows, of which the other whole list is made at the end.
#[test]
fn the_list_of_a_full_table_stays_right_through_many_replacements() {
    let full = (0..).map(generate::case).find(|case| case.rows() == MOST_ROWS);
    let mut case = full.expect("some seed has such a table");
    let mut list = list_of(&case);
    let mut otherwise = 0;
    for edit in edits_of(&mut Random::new(0), &case, EDITS_OF_A_FULL_TABLE) {
        let (after, new_list) = edited(&case, list.clone(), edit);
        assert!(new_list == list_of(&after), "not as when built afresh");
        otherwise += usize::from(new_list != list);
        (case, list) = (after, new_list);
    }
    assert!(list == whole_list(&case), "not as by {WHOLE_LISTS}");
    print(&format!(
        "feeders, a full table, with a whole list of {WHOLE_LISTS} at the end: {EDITS_OF_A_FULL_TABLE} replacements, \
         {otherwise} lists that change"
    ));
    assert!(otherwise > EDITS_OF_A_FULL_TABLE / 5, "{otherwise}");
}
