//! The redraw twice, and the redraw and the switch in either order: document 02's Change 8.

use std::collections::{BTreeMap, BTreeSet};
use std::fmt::{self, Display, Formatter};

use differential::compare::{Answer, Answers, difference};
use differential::devices::any_devices;
use differential::either_order::{
    CALLS, Generated, Law, Library, MISREADINGS, Misreading, POWERS, READING, Ran, Switch, TRIALS, Trial,
    all_combinations, at_every_position, bad_powered, crosses, edits, far_positions, generated,
    in_every_order, kinds, redrawn_case, refused_crosses, single_bytes, switched_case, tables_left,
};
use differential::generate::Case;
use differential::probe::Probe;
use differential::random::Random;
use differential::refusals::check;
use differential::settling::{Call, Input, SIGNAL, STRONG, TABLE, WEAK};
use differential::suite::{at_least_seeds, print};
use differential::table::{self, positions};
use redstone::STATE_BYTES;

#[cfg(no_original)]
#[test]
fn the_original_was_not_found() {
    differential::suite::say_original_not_found("either_order");
}

/// What was compared.
#[derive(Default)]
struct Compared {
    trials: u64,
    /// The rows of all tables.
    rows: u64,
    /// The redraws of the table as it is given that are not refused.
    redrawn: u64,
    /// Those of them that change a byte.
    redrawn_otherwise: u64,
    /// The switches of the table as it is given that are not refused.
    switched: u64,
    /// Those of them that change a byte.
    switched_otherwise: u64,
    /// Those of them at an empty position.
    at_nothing: u64,
    /// The trials in which each of the two changes a byte.
    both_otherwise: u64,
    /// The other redraws by the numbers of their refusals.
    refused_redraws: BTreeMap<i128, u64>,
    /// The other switches by the numbers of their refusals.
    refused_switches: BTreeMap<i128, u64>,
}

impl Compared {
    fn count(&mut self, case: &Case, switch: &Switch, ran: &Ran) {
        self.trials += 1;
        self.rows += case.rows() as u64;
        let is_otherwise = |answer: &Answer| u64::from(answer.bytes(TABLE) != case.table);
        match ran.redraw.refusal() {
            Some(number) => *self.refused_redraws.entry(number).or_default() += 1,
            None => self.redrawn += 1,
        }
        match ran.switch.refusal() {
            Some(number) => *self.refused_switches.entry(number).or_default() += 1,
            None => {
                self.switched += 1;
                self.at_nothing += u64::from(!positions(&case.table).any(|at| at == switch.at));
            }
        }
        let [redrawn, switched] = [&ran.redraw, &ran.switch].map(is_otherwise);
        self.redrawn_otherwise += redrawn;
        self.switched_otherwise += switched;
        self.both_otherwise += redrawn * switched;
    }
}

impl Display for Compared {
    fn fmt(&self, f: &mut Formatter<'_>) -> fmt::Result {
        let Self { trials, rows, redrawn, redrawn_otherwise, .. } = self;
        writeln!(f, "{trials} trials, {} calls, tables of {rows} rows", CALLS as u64 * trials)?;
        writeln!(f, "  {redrawn} redrawn, a byte changed in {redrawn_otherwise}")?;
        writeln!(f, "  redraws refused {:?}", self.refused_redraws)?;
        let Self { switched, switched_otherwise, at_nothing, both_otherwise, .. } = self;
        writeln!(
            f,
            "  {switched} switched, a byte changed in {switched_otherwise}, {at_nothing} at nothing"
        )?;
        writeln!(f, "  switches refused {:?}", self.refused_switches)?;
        writeln!(f, "  both changed a byte in {both_otherwise}")
    }
}

fn assert_laws(case: &Case, switches: [&Switch; 2], ran: &Ran) {
    let broken: Vec<_> = Law::broken(ran).collect();
    assert!(broken.is_empty(), "{broken:?} of {switches:?}\n{case}{ran:#?}");
    assert_confined(case, switches, ran);
}

fn assert_confined(case: &Case, switches: [&Switch; 2], ran: &Ran) {
    assert!(ran.is_confined(case, switches), "written outside: {switches:?}\n{case}{ran:#?}");
}

fn assert_same(side: &str, expected: &Ran, actual: &Ran, case: &Case, switch: &Switch) {
    for (expected, actual) in expected.each().into_iter().zip(actual.each()) {
        assert!(expected == actual, "{side}: {}, {switch:?}\n{case}", difference(expected, actual));
    }
}

/// What the proved calls do, by which the laws hold.
fn ran(case: &Case, switch: &Switch) -> Ran {
    let ran = Ran::new(&Library, case, switch);
    assert_laws(case, [switch, switch], &ran);
    ran
}

/// Asserts that each is as by hand.
fn assert_each(title: &str, trials: impl Iterator<Item = Trial>) -> Compared {
    let mut compared = Compared::default();
    for trial in trials {
        let Trial { case, switch, .. } = &trial;
        let ran = ran(case, switch);
        assert_same("by hand", &Ran::new(&trial, case, switch), &ran, case, switch);
        compared.count(case, switch, &ran);
    }
    print(&format!("either order, {title}: {compared}"));
    compared
}

fn written() -> impl Iterator<Item = Trial> {
    TRIALS.iter().flat_map(at_every_position)
}

/// Each in four turns and with ten sets of stored arms, to five powers, at every row and beside it.
#[test]
fn written_tables_at_every_position_to_every_power() {
    let compared = assert_each("written tables", written());
    assert_eq!(compared.trials % (4 * 10 * POWERS.len() as u64), 0);
    assert_eq!([compared.redrawn, compared.switched], [compared.trials; 2]);
    let unchanged = compared.redrawn - compared.redrawn_otherwise;
    let few = [compared.redrawn_otherwise, unchanged, compared.switched_otherwise, compared.at_nothing];
    assert!(few.iter().all(|few| *few > 1_000), "{compared}");
}

/// 13 kinds in 7 facings with 3 values of byte 14, and nothing; by 3 values of the dust's own, at 3 positions.
#[test]
fn every_kind_beside_dust() {
    let compared = assert_each("every kind", kinds());
    assert_eq!(compared.trials, (13 * 7 * 3 + 1) * 3 * 3 * POWERS.len() as u64);
    assert_eq!([compared.redrawn, compared.switched], [compared.trials; 2]);
    // No arms are stored before.
    assert_eq!(compared.redrawn_otherwise, compared.trials);
    // Of the positions one is empty, and beside nothing two are.
    assert_eq!(compared.at_nothing, (13 * 7 * 3 + 2) * 3 * POWERS.len() as u64);
}

/// 11 coordinates on each axis, on two rows and on none.
#[test]
fn positions_up_to_the_ends_of_32_bits() {
    let compared = assert_each("far positions", far_positions());
    assert_eq!([compared.trials, compared.switched_otherwise], [2 * 11 * 11 * 11, 2]);
    assert_eq!([compared.switched, compared.at_nothing], [compared.trials, compared.trials - 2]);
}

/// 3 things at each of 4 sides, 257 sets of arms, 5 cells and 3 values of byte 14.
#[test]
fn every_set_of_stored_arms_and_three_things_at_each_side() {
    let compared = assert_each("crosses", crosses());
    assert_eq!(compared.trials, 81 * 257 * 5 * 3);
    assert_eq!([compared.redrawn, compared.switched], [compared.trials; 2]);
    // At a side there is nothing in a third of the crosses.
    assert_eq!(compared.at_nothing, 81 / 3 * 257 * 4 * 3);
    assert_eq!(compared.switched_otherwise, compared.trials - compared.at_nothing);
}

/// 255 sets of entries without byte 23.
#[test]
fn entries_that_are_not_stored_are_refused() {
    let compared = assert_each("refused crosses", refused_crosses());
    let refused = BTreeMap::from([(4, 81 * 255)]);
    assert_eq!((&compared.refused_redraws, &compared.refused_switches), (&refused, &refused));
    assert_eq!([compared.redrawn_otherwise, compared.switched_otherwise], [0, 0]);
}

/// Two rows, 253 values and two positions.
#[test]
fn a_bad_byte_14_is_refused() {
    let compared = assert_each("bad bytes 14", bad_powered());
    let refused = BTreeMap::from([(4, 2 * 253 * 2)]);
    assert_eq!((&compared.refused_redraws, &compared.refused_switches), (&refused, &refused));
}

/// 10 faults that are there or not, at 3 positions.
#[test]
fn every_combination_of_faults() {
    let compared = assert_each("every combination of faults", all_combinations());
    assert_eq!(compared.trials, 1_024 * 3);
    let redraws = [(1, 512), (2, 256), (3, 128), (4, 64), (5, 32), (10, 16)];
    assert_eq!(compared.refused_redraws, redraws.map(|(number, trials)| (number, 3 * trials)).into());
    let switches = [(1, 512), (2, 256), (3, 128), (4, 64), (5, 32), (6, 8 + 4), (7, 1), (10, 16 + 2)];
    assert_eq!(compared.refused_switches, switches.map(|(number, trials)| (number, 3 * trials)).into());
    assert_eq!([compared.redrawn, compared.switched], [3 * 16, 3]);
}

/// 7 of these faults, of which those at rows stand in 9 orders, at 3 positions.
#[test]
fn faults_at_rows_in_every_combination_and_order() {
    let compared = assert_each("faults in every order", in_every_order());
    assert_eq!([compared.trials, compared.redrawn, compared.switched], [9 * 128 * 3, 9 * 16 * 3, 9 * 3]);
}

/// Some of every sort, on which wrong readings are tried.
fn trials_for_misreadings() -> Vec<Trial> {
    let refused =
        refused_crosses().step_by(97).chain(bad_powered().step_by(3)).chain(in_every_order().step_by(5));
    written()
        .step_by(41)
        .chain(kinds().step_by(7))
        .chain(far_positions().step_by(29))
        .chain(refused)
        .collect()
}

/// The laws that a wrong reading breaks on some trial, and whether it differs from what is written by hand.
fn told(misreading: &Misreading, trials: &[Trial]) -> (BTreeSet<Law>, bool) {
    let mut wrong = READING;
    (misreading.change)(&mut wrong);
    let mut broken = BTreeSet::new();
    let mut differs = false;
    for trial in trials {
        let ran = Ran::new(&wrong, &trial.case, &trial.switch);
        broken.extend(Law::broken(&ran));
        differs = differs || ran != Ran::new(trial, &trial.case, &trial.switch);
    }
    (broken, differs)
}

/// By each wrong reading just the laws are broken that are said to be, and the tables by hand tell all of them.
#[test]
fn misreadings_are_told_by_the_laws() {
    let trials = trials_for_misreadings();
    let right = Misreading { what: "the right reading", broken: &[], shows_in_tables: false, change: |_| () };
    assert_eq!(told(&right, &trials), (BTreeSet::new(), false));
    let mut by_laws = BTreeMap::<_, u64>::new();
    for misreading in &MISREADINGS {
        let told = told(misreading, &trials);
        assert_eq!(told, (misreading.broken.iter().copied().collect(), true), "{}", misreading.what);
        *by_laws.entry(misreading.broken).or_default() += 1;
    }
    print(&format!("either order: {} trials, wrong readings told {by_laws:?}", trials.len()));
}

/// So many tables are compared, or more where DIFF_TABLES says so.
const TABLES: u64 = 20_000;

/// Asserts that each is as by the second reading.
fn assert_each_agrees(title: &str, switches: impl Iterator<Item = (Case, Switch)>) -> Compared {
    let mut compared = Compared::default();
    for (case, switch) in switches {
        let ran = ran(&case, &switch);
        assert_same("the second reading", &Ran::new(&READING, &case, &switch), &ran, &case, &switch);
        compared.count(&case, &switch, &ran);
    }
    print(&format!("either order, {title}: {compared}"));
    compared
}

/// Four rows and 14 bytes of profile, switched at each row.
#[test]
fn every_byte_of_a_table_and_a_profile_set_to_every_value() {
    let at_each_row = |case: Case| {
        let positions: Vec<_> = positions(&case.table).collect();
        positions.into_iter().map(move |at| (case.clone(), Switch::of(&case, at, 1)))
    };
    let compared = assert_each_agrees("single bytes", single_bytes().flat_map(at_each_row));
    assert_eq!(compared.trials, 4 * (4 * 32 + 14) * 256);
    assert!([1, 4, 5].iter().all(|number| compared.refused_switches[number] > 100), "{compared}");
    assert!(compared.both_otherwise > 1_000, "{compared}");
}

/// Accepted and damaged tables. Every refusal that may fall on the calls is among the answers.
#[test]
fn generated_tables_agree() {
    let switch = |Generated { case, switch, .. }| (case, switch);
    let compared = assert_each_agrees("generated", at_least_seeds(TABLES).map(generated).map(switch));
    let Compared { trials, redrawn, redrawn_otherwise, switched, switched_otherwise, .. } = compared;
    let unchanged = [redrawn - redrawn_otherwise, switched - switched_otherwise];
    let many = [redrawn_otherwise, switched_otherwise, compared.at_nothing, compared.both_otherwise];
    assert!(many.iter().chain(&unchanged).all(|some| *some > trials / 20), "{compared}");
    assert!(
        [1, 2, 3, 4, 5, 10].iter().all(|number| compared.refused_redraws.contains_key(number)),
        "{compared}"
    );
    assert!((1..=7).chain([10]).all(|number| compared.refused_switches.contains_key(&number)), "{compared}");
}

/// Pairs of switches of one position to one power, the first before the redraw and the other after it.
#[derive(Default)]
struct Pairs {
    compared: Compared,
    different_states: u64,
    different_columns: u64,
    different_numbers: u64,
}

impl Pairs {
    fn count(&mut self, case: &Case, switches: [&Switch; 2], ran: &Ran) {
        let [before, after] = switches;
        self.compared.count(case, before, ran);
        self.different_states += u64::from(before.state != after.state);
        self.different_columns += u64::from(before.columns != after.columns);
        let [number, other_number] = ran.refused_switches();
        self.different_numbers += u64::from(number != other_number);
    }
}

impl Display for Pairs {
    fn fmt(&self, f: &mut Formatter<'_>) -> fmt::Result {
        let Self { compared, different_states, different_columns, different_numbers } = self;
        writeln!(
            f,
            "different states in {different_states}, columns in {different_columns}, refusals in {different_numbers}:"
        )?;
        compared.fmt(f)
    }
}

/// "State is not part of this law": the two switches may have different states, and columns of different lengths. Where
/// neither is refused the laws hold. Where both are, by whatever numbers, both orders end in the same table. Where one alone
/// is, the tables may differ. In all three the redraw answers the same in both orders, and nothing is written outside.
#[test]
fn the_two_switches_may_have_different_states_and_columns() {
    let [mut of_neither, mut of_both, mut of_one] = [(); 3].map(|()| Pairs::default());
    for seed in at_least_seeds(TABLES / 2) {
        let Generated { case, switch, with_other_state, with_faults } = generated(seed);
        for other in [&with_other_state, &with_faults] {
            for switches in [[&switch, other], [other, &switch]] {
                let ran = Ran::of_switches(&Library, &case, switches);
                assert_confined(&case, switches, &ran);
                assert!(ran.redraws_answer_same(), "redraws differ: {switches:?}\n{case}{ran:#?}");
                let pairs = match ran.refused_switches() {
                    [None, None] => {
                        assert_laws(&case, switches, &ran);
                        &mut of_neither
                    }
                    [Some(_), Some(_)] => {
                        assert!(ran.ends_in_same_table(), "tables differ: {switches:?}\n{case}{ran:#?}");
                        &mut of_both
                    }
                    _ => &mut of_one,
                };
                pairs.count(&case, switches, &ran);
            }
        }
    }
    print(&format!("either order, neither switch refused, {of_neither}"));
    print(&format!("either order, both switches refused, {of_both}"));
    print(&format!("either order, one switch alone refused, {of_one}"));
    let Pairs { compared, different_states, .. } = &of_neither;
    assert!(*different_states > compared.trials / 4, "{of_neither}");
    assert!(compared.both_otherwise > compared.trials / 20, "{of_neither}");
    let Pairs { compared, different_columns, different_numbers, .. } = &of_both;
    let some = [different_columns, different_numbers, &compared.redrawn_otherwise];
    assert!(some.iter().all(|some| **some > compared.trials / 20), "{of_both}");
    assert!(of_one.different_columns > of_one.compared.trials / 20, "{of_one}");
}

/// "The editor redraws dust arms at moments of its own": of switches and redraws, one at least, the table is that of the
/// switches alone, redrawn in the end.
#[test]
fn redraws_at_any_moment_are_one_at_the_end() {
    let (mut tables, mut calls, mut otherwise) = (0_u64, 0_u64, 0_u64);
    for seed in at_least_seeds(TABLES / 2) {
        let (case, edits) = edits(seed);
        let [one, other] = tables_left(&Library, &case, &edits);
        assert!(one == other, "{edits:?}\n{case}");
        tables += 1;
        calls += edits.len() as u64;
        otherwise += u64::from(one != case.table);
    }
    print(&format!(
        "either order, at any moment: {tables} tables, {calls} calls, {otherwise} left otherwise"
    ));
    assert!(otherwise > tables / 2, "{tables} tables, {otherwise} left otherwise");
}

/// The tables tell just the wrong readings that are said to show in them.
#[test]
fn misreadings_are_told_by_redraws_at_any_moment() {
    let edits: Vec<_> = (0..3_000).map(edits).collect();
    for misreading in &MISREADINGS {
        let mut wrong = READING;
        (misreading.change)(&mut wrong);
        let is_told = edits.iter().any(|(case, edits)| {
            let [one, other] = tables_left(&wrong, case, edits);
            one != other
        });
        assert_eq!(is_told, misreading.shows_in_tables, "{}", misreading.what);
    }
}

/// A number, and the bytes of the columns.
fn figures(answer: &Answer) -> (i128, [Vec<u8>; 3]) {
    (answer.number, [SIGNAL, WEAK, STRONG].map(|column| answer.bytes(column)))
}

/// A switch after the redraw answers and leaves, in every byte of every buffer, what a tick of no ticks does after the switch
/// and then the redraw.
#[test]
fn the_figures_after_both_calls_are_the_same() {
    let (mut tables, mut refused, mut otherwise) = (0_u64, 0_u64, 0_u64);
    for seed in at_least_seeds(TABLES / 2) {
        let Generated { case, switch, .. } = generated(seed);
        let Switch { state, at, powered, columns } = switch.clone();
        let switching =
            Call { input: Input::Switch { state: state.clone(), at, powered: powered != 0 }, columns };
        let settling = Call { input: Input::Tick { state, tick: 0, ticks: 0 }, columns };
        let one = Probe(&redrawn_case(&Library, &case)).answer(&switching);
        let switched = switched_case(&Library, &case, &switch);
        let other = Probe(&redrawn_case(&Library, &switched)).answer(&settling);
        assert!(one == other, "{}, {switch:?}\n{case}", difference(&one, &other));
        tables += 1;
        refused += u64::from(one.refusal().is_some());
        otherwise += u64::from(figures(&Probe(&case).answer(&switching)) != figures(&one));
    }
    print(&format!(
        "either order, figures: {tables} tables, {refused} refused, {otherwise} otherwise than by the switch before the redraw"
    ));
    assert!(
        refused > tables / 20 && otherwise > tables / 20,
        "{tables} tables, {refused} refused, {otherwise} otherwise"
    );
}

/// The three calls that settle a table and leave it as it is.
fn settlings(case: &Case, switch: &Switch, devices: &[u8], random: &mut Random) -> [Call; 3] {
    let columns = switch.columns;
    let ticks = random.pick(&[0, 1, 2, 7]);
    [
        Input::Fresh { state_bytes: STATE_BYTES * case.rows() },
        Input::Settle { devices: devices.to_vec(), limit: random.pick(&[2, 17, 128]) },
        Input::Tick { state: switch.state.clone(), tick: 0, ticks },
    ]
    .map(|input| Call { input, columns })
}

/// Fresh, settle and tick answer the same, in every byte of every buffer, of a table that is redrawn once and of one that is
/// redrawn twice. This can fail only where `Law::Twice` does, for by that law both tables are the same bytes.
#[test]
fn a_redrawn_table_settles_as_when_it_is_redrawn_again() {
    let (mut tables, mut calls, mut refused, mut otherwise) = (0_u64, 0_u64, 0_u64, 0_u64);
    for seed in at_least_seeds(TABLES / 2) {
        let Generated { case, switch, .. } = generated(seed);
        let random = &mut Random::new(seed);
        let rows =
            if check(&case.profile, &case.table).is_ok() { table::rows(&case.table) } else { Vec::new() };
        let once = redrawn_case(&Library, &case);
        let twice = redrawn_case(&Library, &once);
        for call in settlings(&case, &switch, &any_devices(random, &rows), random) {
            let [before, after_one, after_two] = [&case, &once, &twice].map(|case| Probe(case).answer(&call));
            assert!(after_one == after_two, "{call:?}\n{case}");
            calls += 1;
            refused += u64::from(after_one.refusal().is_some());
            let settled = |answer: &Answer| (answer.number, answer.buffers[TABLE + 1..].to_vec());
            otherwise += u64::from(settled(&before) != settled(&after_one));
        }
        tables += 1;
    }
    print(&format!(
        "either order, settled: {tables} tables, {calls} calls, {refused} refused, {otherwise} otherwise than before the redraw"
    ));
    assert!(
        refused > calls / 20 && otherwise > calls / 20,
        "{calls} calls, {refused} refused, {otherwise} otherwise"
    );
}

#[cfg(not(no_original))]
mod compared {
    use differential::either_order::tables_of_the_original;

    use super::*;

    /// The tables that `update_wire_shapes` and `set_powered` leave, one after the other.
    #[test]
    fn the_original_leaves_the_same_tables() {
        let mut compared = Compared::default();
        for seed in at_least_seeds(TABLES / 5) {
            let Generated { case, with_other_state: switch, .. } = generated(seed);
            if check(&case.profile, &case.table).is_err() {
                continue;
            }
            let ran = ran(&case, &switch);
            let tables = ran.each().map(|answer| answer.bytes(TABLE));
            assert!(tables == tables_of_the_original(&case, &switch), "{switch:?}\n{case}");
            compared.count(&case, &switch, &ran);
        }
        print(&format!("either order, the original: {compared}"));
        assert!(compared.both_otherwise > compared.trials / 20, "{compared}");
    }
}
