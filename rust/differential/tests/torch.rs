//! The charge of the block above a torch, against document 02's Change 3.

use differential::compare::{compare, run};
use differential::differences::{Example, Fault, by_library, check_each};
use differential::generate::{self, BENCH_PROFILE_WITH_BULB, Case, TORCH};
use differential::probe::{Probe, probe_check};
use differential::settling::LIMIT;
use differential::suite::{assert_compared, at_least_good_cases, print};
use differential::table;
use differential::torch::{
    BYTES, MISREADINGS, Misreading, Pair, Reading, TRIALS, Trial, charge, pairs, profile, queries, torches,
};
use redstone::{Circuit, Kind, PROFILE_BYTES, PROFILE_BYTES_WITH_BULB, Row, Settled, Shape};

const GENERATED_TABLES: u64 = 20_000;
/// Tables on which all four calls are asked.
#[cfg(not(no_original))]
const CALLED_TABLES: u64 = 3_000;

fn circuit(case: &Case) -> Circuit {
    Circuit::from_table(&case.profile, &case.table[..]).unwrap_or_else(|refusal| panic!("{refusal}\n{case}"))
}

fn settled(case: &Case, devices: &[u8]) -> Settled {
    circuit(case).settle(devices, LIMIT).unwrap_or_else(|refusal| panic!("{refusal}\n{case}"))
}

/// Every table of the trials, by every byte.
fn trial_cases() -> impl Iterator<Item = Case> {
    TRIALS.iter().flat_map(|trial| BYTES.into_iter().flat_map(|byte| trial.cases(byte)))
}

/// A trial by bytes that change nothing but the value, each with the answers that are written.
fn documents(trial: &Trial) -> impl Iterator<Item = String> {
    let runs = [(0, trial.without), (1, trial.without), (32, trial.with), (33, trial.with)];
    let tables = runs.into_iter().flat_map(|(byte, run)| trial.tables(byte).map(|table| (table, run)));
    tables.map(|(table, run)| format!("```table\n{table}```\n```run\n{run}```\n"))
}

fn assert_written(check: impl Fn(&Example) -> Result<(), Fault>) {
    for trial in &TRIALS {
        for document in documents(trial) {
            let checked = check_each(&document, &check);
            checked.unwrap_or_else(|fault| panic!("{}: {fault} of\n{document}", trial.what));
        }
    }
}

#[test]
fn trials_answer_as_is_written() {
    assert_written(by_library);
}

/// The answers with the value in the place of those without, and the other way round. In four trials they are the same.
#[test]
fn exchanged_answers_are_reported() {
    let mut same = 0;
    for trial in &TRIALS {
        let exchanged = Trial { with: trial.without, without: trial.with, ..*trial };
        let is_same = trial.with == trial.without;
        for document in documents(&exchanged) {
            assert_eq!(check_each(&document, by_library).is_ok(), is_same, "{}:\n{document}", trial.what);
        }
        same += usize::from(is_same);
    }
    assert_eq!(same, 4);
}

/// Under the bench profile plain solid blocks, lamps and bulbs do, and double slabs of every kind; a torch does by value 4
/// of its byte.
fn receives_strong(over: Row, byte: u8) -> bool {
    match (over.shape(), over.kind()) {
        (Shape::DoubleSlab, _) => true,
        (Shape::Plain, Kind::Solid | Kind::RedstoneLamp | Kind::CopperBulb) => true,
        (Shape::Plain, Kind::RedstoneTorch) => [31, 36, 63].contains(&byte),
        _ => false,
    }
}

/// What the block over the torch is to have.
fn charge_by_hand(Pair { over, byte, .. }: &Pair, lit: bool) -> Option<u8> {
    over.map(|over| if lit && *byte >= 32 && receives_strong(over, *byte) { 15 } else { 0 })
}

/// A pair settled with the torch lit, with the fresh devices, and with the torch out; and whether it is lit.
fn settlings(pair: &Pair) -> [(bool, Settled); 3] {
    let case = pair.case();
    let with = |lit: bool| settled(&case, &[lit.into(), 0][..case.rows()]);
    let by_field = pair.torch.powered().unwrap_or(true);
    [(true, with(true)), (by_field, circuit(&case).settled().clone()), (false, with(false))]
}

#[test]
fn every_torch_under_every_block_is_as_by_hand() {
    let (mut tables, mut charged) = (0, [0; 3]);
    for pair in pairs() {
        for ((lit, settled), charged) in settlings(&pair).into_iter().zip(&mut charged) {
            let strong = settled.strong().get(1).copied();
            assert_eq!(strong, charge_by_hand(&pair, lit), "lit: {lit}, {pair:?}");
            *charged += usize::from(strong == Some(15));
        }
        tables += 1;
    }
    let torches = torches().count();
    assert_eq!([torches, tables], [7 * 7 * 3, torches * (13 * 7 + 1) * 6]);
    // Sixteen blocks receive strong power, and by bytes 36 and 63 a torch, too. Of three fresh torches two are lit.
    let lit = torches * (2 * 16 + 2 * 17);
    assert_eq!(charged, [lit, lit / 3 * 2, 0]);
    print(&format!("torch, every pair by hand: {tables} tables, a block charged in {charged:?}"));
}

/// A torch, and solid blocks wherever there is room up to two cells away from it.
fn surrounded(torch: Row, byte: u8) -> Case {
    let near = -2..=2;
    let places = near.clone().flat_map(|x| near.clone().map(move |y| [x, y]));
    let places = places.flat_map(|[x, y]| near.clone().map(move |z| [x, y, z]));
    let blocks = places.filter(|place| *place != [0; 3]).map(|place| Row::new(Kind::Solid, place));
    Case::new("a torch among blocks", profile(byte), blocks.chain([torch]))
}

/// The weak and strong power of a row about a torch at 0,0,0 that charges the block above it. That block reaches those
/// around it, and the torch itself where its shape conducts.
fn power_about(row: &Row) -> [u8; 2] {
    match (row.position(), row.shape()) {
        ([0, 1, 0], _) => [0, 15],
        ([-1 | 1, 1, 0] | [0, 1, -1 | 1] | [0, 2, 0], _) | ([0, 0, 0], Shape::DoubleSlab) => [15, 0],
        _ => [0, 0],
    }
}

#[test]
fn no_block_is_charged_but_the_one_above() {
    let mut charged = 0;
    for torch in torches() {
        for (byte, lit) in [(0, 0), (0, 1), (32, 0), (32, 1)] {
            let case = surrounded(torch, byte);
            let rows = table::rows(&case.table);
            let devices: Vec<_> =
                rows.iter().map(|row| if row.position() == [0; 3] { lit } else { 0 }).collect();
            let settled = settled(&case, &devices);
            for (row, power) in rows.iter().zip(settled.weak().iter().zip(settled.strong())) {
                let expected = if (byte, lit) == (32, 1) { power_about(row) } else { [0, 0] };
                assert_eq!([*power.0, *power.1], expected, "{row:?} of {case}");
                charged += usize::from(*power.1 > 0);
            }
        }
    }
    assert_eq!(charged, torches().count());
}

/// By profiles of 13 bytes and of 14.
#[test]
fn the_torchs_byte_alone_reaches_63() {
    for bytes in [PROFILE_BYTES, PROFILE_BYTES_WITH_BULB] {
        let mut refused = vec![0; bytes];
        for (kind, refused) in refused.iter_mut().enumerate() {
            for byte in 0..=u8::MAX {
                let mut profile = BENCH_PROFILE_WITH_BULB;
                profile[kind] = byte;
                let most = match kind {
                    0 => 0,
                    TORCH => 63,
                    _ => 31,
                };
                let answer = probe_check(&profile[..bytes], &[]);
                assert_eq!(answer, if byte <= most { 0 } else { 65_536 }, "{profile:?}");
                *refused += usize::from(answer > 0);
            }
        }
        let expected = [255, 224, 224, 224, 192, 224, 224, 224, 224, 224, 224, 224, 224, 224];
        assert_eq!(refused, expected[..bytes]);
    }
}

/// The strong columns of generated tables, and how many blocks of them the value charges.
#[test]
fn generated_tables_agree_with_document_02() {
    let compared = run(at_least_good_cases(GENERATED_TABLES), |case, tally| {
        compare(queries(case), &Reading::new(case, charge), &Probe(case), tally)
    });
    let tally = assert_compared("torch, generated tables", compared);
    let tables: u64 = tally.tables.values().sum();
    let answers = tally.answers.iter().filter(|((_, charged), _)| *charged > 0).map(|(_, answers)| answers);
    let charged: u64 = answers.sum();
    print(&format!("torch, generated tables: {charged} answers with a block charged"));
    assert!(
        (45..=55).contains(&(100 * tally.charging / tables)),
        "{} of {tables} with the value",
        tally.charging
    );
    assert!(
        charged > tally.charging / 10,
        "of {} tables with the value {charged} charge a block",
        tally.charging
    );
}

/// Tables on which a misreading must show.
const MISREAD_TABLES: u64 = 5_000;

fn is_reported(cases: impl Iterator<Item = Case>, misreading: &Misreading) -> bool {
    let compared = run(cases, |case, tally| {
        compare(queries(case), &Reading::new(case, charge), &Reading::new(case, misreading.charge), tally)
    });
    compared.is_err()
}

#[test]
fn misreadings_are_reported() {
    for misreading in &MISREADINGS {
        assert!(is_reported(trial_cases(), misreading), "on what is tried: {}", misreading.what);
        let generated = (0..MISREAD_TABLES).map(generate::case);
        assert!(is_reported(generated, misreading), "on generated tables: {}", misreading.what);
    }
}

#[cfg(no_original)]
#[test]
fn the_original_was_not_found() {
    differential::suite::say_original_not_found("torch");
}

#[cfg(not(no_original))]
mod compared {
    use differential::compare::{Answers, Tally};
    use differential::devices::any_devices;
    use differential::differences::by_original;
    use differential::oracle::{Oracle, pos};
    use differential::random::Random;
    use differential::redstone::{
        OriginalRun, ProvedRun, compare_case, device_outputs, fresh_devices, hundred_ticks,
        queries as calls_on,
    };
    use differential::settling::{Call, Input, STRONG};
    use original::electrical::DeviceOutputState;
    use original::unpatched;
    use redstone::STATE_BYTES;

    use super::*;

    #[test]
    fn trials_answer_as_is_written_by_the_original() {
        assert_written(by_original);
    }

    /// States, tables and columns after every step.
    #[test]
    fn trials_agree_with_the_original_for_a_hundred_ticks() {
        let compared = run(trial_cases(), |case, tally| {
            let oracle = Oracle::new(case);
            compare(hundred_ticks(&oracle), &OriginalRun::new(&oracle), &ProvedRun::new(case, false), tally)
        });
        let tally = assert_compared("torch, a hundred ticks", compared);
        let tables = (2 * TRIALS.len() * BYTES.len()) as u64;
        assert_eq!([tally.tables.values().sum(), tally.comparisons["tick"]], [tables, 100 * tables]);
    }

    /// Settled with the torch lit and out, fresh, and one tick and two, and switched off.
    fn calls(oracle: &Oracle) -> Vec<Call> {
        let rows = oracle.rows.len();
        let settle = |lit| Input::Settle { devices: [lit, 0][..rows].to_vec(), limit: LIMIT };
        let state = oracle.started().packed();
        let tick = |ticks| Input::Tick { state: state.clone(), tick: 0, ticks };
        let switch = Input::Switch { state: state.clone(), at: [0; 3], powered: false };
        let fresh = Input::Fresh { state_bytes: STATE_BYTES * rows };
        let inputs = [settle(0), settle(1), fresh, tick(1), tick(2), switch];
        inputs.into_iter().map(|input| Call { input, columns: [rows; 3] }).collect()
    }

    #[test]
    fn every_torch_under_every_block_agrees_with_the_original() {
        let compared = run(pairs().map(|pair| pair.case()), |case, tally| {
            let oracle = Oracle::new(case);
            compare(calls(&oracle), &oracle, &Probe(case), tally)
        });
        let tally = assert_compared("torch, every pair", compared);
        assert_eq!(tally.all_comparisons(), 6 * pairs().count() as u64);
    }

    /// The number of calls on a case whose strong column the value changes.
    fn charging_calls(case: &Case) -> usize {
        let cases = [true, false].map(|charges| case.with_torch_charging(charges));
        let oracles = cases.each_ref().map(Oracle::new);
        let charges = |call: &Call| {
            let [with, without] = oracles.each_ref().map(|oracle| oracle.answer(call).bytes(STRONG));
            with != without
        };
        calls_on(&cases[0], &oracles[0]).iter().filter(|call| charges(call)).count()
    }

    /// Each table with the value and without.
    #[test]
    fn generated_calls_agree_with_and_without_the_value() {
        let mut tally = Tally::default();
        let (mut tables, mut calls) = (0, 0);
        for case in at_least_good_cases(CALLED_TABLES) {
            for charges in [true, false] {
                let case = case.with_torch_charging(charges);
                tally.count(&case);
                let compared = compare_case(&case, &Probe(&case), &mut tally);
                compared.unwrap_or_else(|mismatch| panic!("{case}{mismatch}"));
            }
            let charging = charging_calls(&case);
            tables += u64::from(charging > 0);
            calls += charging;
        }
        tally.print("torch, generated calls");
        print(&format!(
            "torch, generated calls: the value charges a block in {calls} calls on {tables} tables"
        ));
        assert!(
            tables > tally.charging / 20,
            "of {} tables with the value {tables} charge a block",
            tally.charging
        );
    }

    /// electrical.rs without its patch.
    fn settled_as_supplied(oracle: &Oracle, devices: &[u8]) -> unpatched::InstantaneousElectricalState {
        let DeviceOutputState { repeater_powered, torch_lit, comparator_output } =
            device_outputs(&oracle.rows, devices);
        let devices = unpatched::DeviceOutputState { repeater_powered, torch_lit, comparator_output };
        unpatched::solve_instantaneous(oracle.world(), &devices, LIMIT as usize)
            .expect("the original settles")
    }

    /// Without the value "the answer is the Rust's".
    #[test]
    fn without_the_value_the_patch_changes_nothing() {
        let mut settlings = 0;
        for case in at_least_good_cases(GENERATED_TABLES).map(|case| case.with_torch_charging(false)) {
            let oracle = Oracle::new(&case);
            let any = any_devices(&mut Random::new(case.seed), &oracle.rows);
            for devices in [fresh_devices(&oracle), any] {
                let patched = oracle.settle(&devices, LIMIT).expect("the original settles");
                let supplied = settled_as_supplied(&oracle, &devices);
                assert_eq!(patched.iterations, supplied.iterations, "{case}");
                assert_eq!(patched.signal_levels, supplied.signal_levels, "{case}");
                for at in oracle.rows.iter().map(|row| pos(row.position())) {
                    let (patched, supplied) = (patched.power(at), supplied.power(at));
                    assert_eq!([patched.weak, patched.strong], [supplied.weak, supplied.strong], "{case}");
                }
                settlings += 1;
            }
        }
        print(&format!("torch, the original as it is supplied: {settlings} settlings without the value"));
    }
}
