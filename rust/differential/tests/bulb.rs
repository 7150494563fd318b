//! The light of bulbs, against document 02's Change 4.

use differential::bulb::{FEEDERS, Feeder, TRIALS, Trial, bulbs};
use differential::differences::{Example, Fault, by_library, check_each};
use differential::generate::{BENCH_PROFILE_WITH_BULB, BULB};
use differential::probe::{probe_check, probe_properties};
use differential::suite::print;
use redstone::{Circuit, Device, Figures, Row, Shape};

fn document(trial: &Trial) -> String {
    format!("```table\n{}```\n```run\n{}```\n", trial.table(), trial.run)
}

fn assert_written(check: impl Fn(&Example) -> Result<(), Fault>) {
    for trial in &TRIALS {
        let document = document(trial);
        let checked = check_each(&document, &check);
        checked.unwrap_or_else(|fault| panic!("{}: {fault} of\n{document}", trial.what));
    }
}

#[test]
fn trials_answer_as_is_written() {
    assert_written(by_library);
}

/// Each light and each byte 9 that is written, once it is the other, is reported.
#[test]
fn every_written_light_counts() {
    let mut changes = 0;
    for trial in &TRIALS {
        let document = document(trial);
        let lines: Vec<_> = document.lines().collect();
        for (at, line) in lines.iter().enumerate() {
            let Some((before @ ("lamp" | "had_power"), _)) = line.split_once('=') else { continue };
            let (rest, byte) = line.rsplit_once(',').unwrap_or_else(|| panic!("{before} without a byte"));
            let other = format!("{rest},{}", if byte == "0" { 1 } else { 0 });
            let mut changed = lines.clone();
            changed[at] = &other;
            let checked = check_each(&changed.join("\n"), by_library);
            assert_eq!(checked.map_err(|fault| fault.line), Err(at + 1), "{}: {other}", trial.what);
            changes += 1;
        }
    }
    // docs/DIFFERENCES.md has both numbers.
    assert_eq!((TRIALS.len(), changes), (34, 241));
    print(&format!("bulb, written lights: {changes}"));
}

/// What the circuit has of the bulb at 0,0,0: its weak and strong power, its light and byte 9.
fn bulb_of(circuit: &Circuit) -> ([u8; 2], [bool; 2]) {
    let bulb = circuit.at([0; 3]).expect("a bulb");
    let Figures { weak, strong, .. } = bulb.figures;
    match bulb.device {
        Device::Bulb { lit, had_power } => ([weak, strong], [lit, had_power]),
        other => panic!("{other:?} is no bulb"),
    }
}

/// What reaches a bulb: by its byte if it is plain, all of it if it is a double slab, and nothing else.
fn power_by_hand(feeder: &Feeder, byte: u8, shape: Shape) -> [u8; 2] {
    let receives = |value| match shape {
        Shape::Plain => byte & value != 0,
        shape => shape == Shape::DoubleSlab,
    };
    [(2, feeder.weak), (4, feeder.strong)].map(|(value, power)| if receives(value) { power } else { 0 })
}

/// The lever gives power, takes it and gives it again, and a tick is looked at before each and after.
fn assert_fed_by_hand(feeder: &Feeder, byte: u8, bulb: Row) -> bool {
    let case = feeder.case(byte, bulb);
    let circuit = Circuit::from_table(&case.profile, &case.table[..]);
    let mut circuit = circuit.unwrap_or_else(|refusal| panic!("{refusal}\n{case}"));
    let fed = power_by_hand(feeder, byte, bulb.shape());
    let arrives = fed != [0, 0];
    let mut light = bulb.powered() == Some(true);
    assert_eq!(bulb_of(&circuit), ([0, 0], [light, false]), "at the start of {case}");
    for gives in [true, false, true] {
        let powers = if gives { [[0, 0], fed] } else { [fed, [0, 0]] };
        let before = [light, arrives && !gives];
        light ^= gives && arrives;
        let after = [light, arrives && gives];
        circuit.switch(feeder.lever, gives == feeder.gives_when_on).expect("a lever");
        for tick in 0..feeder.ticks.max(1) {
            let power = powers[usize::from(tick >= feeder.ticks)];
            assert_eq!(bulb_of(&circuit), (power, before), "gives: {gives}, tick {tick} of {case}");
            circuit.tick(1).expect("a tick");
        }
        for held in 0..3 {
            assert_eq!(bulb_of(&circuit), (powers[1], after), "gives: {gives}, held {held} of {case}");
            circuit.tick(held).expect("ticks");
        }
    }
    arrives
}

#[test]
fn every_feeder_by_every_byte_and_shape_is_as_by_hand() {
    let (mut tables, mut fed) = (0, 0);
    for feeder in &FEEDERS {
        for (byte, bulb) in (0..=31).flat_map(|byte| bulbs().map(move |bulb| (byte, bulb))) {
            fed += usize::from(assert_fed_by_hand(feeder, byte, bulb));
            tables += 1;
        }
    }
    assert_eq!(tables, 13 * 32 * 7 * 3);
    // Eleven feeders give power: to half of the plain bulbs and to every double slab.
    assert_eq!(fed, 11 * (16 + 32) * 3);
    print(&format!("bulb, every feeder: {tables} tables, power arrives in {fed}"));
}

/// Number 1 is refused exactly outside of 13 and 14 bytes.
#[test]
fn a_profile_has_13_bytes_or_14() {
    for length in (0..=40).chain([255, 256, 269, 270, 4_096, 65_549, 65_550]) {
        let mut profile = BENCH_PROFILE_WITH_BULB.to_vec();
        profile.resize(length, 0);
        let answer = probe_check(&profile, &[]);
        assert_eq!(answer, if [13, 14].contains(&length) { 0 } else { 65_536 }, "{length} bytes");
    }
}

/// The properties of a bulb are its byte, and none where there is no byte for it.
#[test]
fn a_bulb_has_the_properties_of_its_byte() {
    for byte in 0..=31 {
        let mut profile = BENCH_PROFILE_WITH_BULB;
        profile[BULB] = byte;
        assert_eq!(probe_properties(&profile, 13), byte.into());
        assert_eq!(probe_properties(&profile[..BULB], 13), 0);
        assert_eq!(probe_properties(&profile, 14), 0);
    }
}

#[cfg(no_original)]
#[test]
fn the_original_was_not_found() {
    differential::suite::say_original_not_found("bulb");
}

#[cfg(not(no_original))]
mod compared {
    use differential::bulb::{MISREADINGS, beside_every_kind};
    use differential::calls::six_calls_on;
    use differential::compare::{Answer, Answers, Tally, compare, run};
    use differential::differences::{by_original, by_reading};
    use differential::generate::{self, Case};
    use differential::oracle::Oracle;
    use differential::probe::Probe;
    use differential::redstone::{OriginalRun, ProvedRun, Step, compare_case, hundred_ticks, queries, steps};
    use differential::settling::{Call, Input, PROFILE, STATE};
    use differential::suite::{assert_compared, at_least_good_cases};
    use differential::table;
    use redstone::{Kind, ROW_BYTES, STATE_BYTES};

    use super::*;

    const RUN_TABLES: u64 = 2_000;
    const CALLED_TABLES: u64 = 3_000;
    /// Tables on which a misreading must show.
    const MISREAD_TABLES: u64 = 5_000;

    #[test]
    fn trials_answer_as_is_written_by_the_second_reading() {
        assert_written(by_original);
    }

    /// Each wrong reading answers otherwise than is written, and otherwise than the right one on generated tables.
    #[test]
    fn misreadings_are_reported() {
        for misreading in &MISREADINGS {
            let misread = |example: &Example| by_reading(misreading.reading, example);
            let tried = TRIALS.iter().find(|trial| check_each(&document(trial), misread).is_err());
            assert!(tried.is_some(), "on what is tried: {}", misreading.what);
            let generated = run((0..MISREAD_TABLES).map(generate::case), |case, tally| {
                let oracle = Oracle::new(case);
                let misread = OriginalRun::reading(&oracle, misreading.reading);
                compare(steps(&oracle), &OriginalRun::new(&oracle), &misread, tally)
            });
            assert!(generated.is_err(), "on generated tables: {}", misreading.what);
        }
    }

    /// States, tables and columns after every step.
    #[test]
    fn trials_agree_for_a_hundred_ticks() {
        let compared = run(TRIALS.iter().map(Trial::case), |case, tally| {
            let oracle = Oracle::new(case);
            compare(hundred_ticks(&oracle), &OriginalRun::new(&oracle), &ProvedRun::new(case, false), tally)
        });
        let tally = assert_compared("bulb, a hundred ticks", compared);
        assert_eq!(tally.comparisons["tick"], 100 * TRIALS.len() as u64);
    }

    /// A block is switched on, off and on again, and each time ticks follow; in the end the bulb itself is switched.
    fn switches(at: table::Position) -> Vec<Step> {
        let mut steps = vec![Step::Fresh];
        for powered in [true, false, true] {
            steps.extend([Step::Switch { at, powered }, Step::Ticks(1), Step::Ticks(1), Step::Ticks(4)]);
        }
        steps.extend([Step::Switch { at: [0; 3], powered: true }, Step::Ticks(0), Step::Ticks(1)]);
        steps
    }

    #[test]
    fn every_bulb_beside_every_block_agrees() {
        let compared = run(beside_every_kind(), |case, tally| {
            let oracle = Oracle::new(case);
            let beside =
                oracle.rows.iter().map(Row::position).find(|at| at.iter().any(|step| step.abs() == 1));
            let steps = switches(beside.expect("a block beside the bulb"));
            compare(steps, &OriginalRun::new(&oracle), &ProvedRun::new(case, false), tally)
        });
        let tally = assert_compared("bulb, beside every block", compared);
        assert_eq!(tally.tables.values().sum::<u64>(), 6 * 13 * 7 * 3 * 2 * 6);
    }

    #[test]
    fn every_feeder_agrees() {
        let each = |feeder: &'static Feeder| {
            let bulbs = (0..=31).flat_map(|byte| bulbs().map(move |bulb| (byte, bulb)));
            bulbs.map(move |(byte, bulb)| (feeder, feeder.case(byte, bulb)))
        };
        let mut tally = Tally::default();
        for (feeder, case) in FEEDERS.iter().flat_map(each) {
            tally.count(&case);
            let oracle = Oracle::new(&case);
            let proved = ProvedRun::new(&case, false);
            let compared = compare(switches(feeder.lever), &OriginalRun::new(&oracle), &proved, &mut tally);
            compared.unwrap_or_else(|mismatch| panic!("{case}{mismatch}"));
        }
        tally.print("bulb, every feeder");
    }

    /// How often a step left the bulbs of a run with power that came, stayed and went, and how often it changed a light.
    #[derive(Debug, Default)]
    struct Seen {
        arrived: u64,
        held: u64,
        left: u64,
        changed: u64,
    }

    impl Seen {
        fn count(&mut self, rows: &[Row], [before, after]: [&[u8]; 2]) {
            let states = before.chunks(STATE_BYTES).zip(after.chunks(STATE_BYTES));
            for (_, (before, after)) in
                rows.iter().zip(states).filter(|(row, _)| row.kind() == Kind::CopperBulb)
            {
                self.changed += u64::from(before[2] != after[2]);
                match (before[9], after[9]) {
                    (0, 1) => self.arrived += 1,
                    (1, 1) => self.held += 1,
                    (1, 0) => self.left += 1,
                    _ => {}
                }
            }
        }
    }

    /// Runs of generated tables with bulbs, with many ticks in a call and with single ones.
    #[test]
    fn generated_runs_agree() {
        let mut seen = Seen::default();
        let mut tally = Tally::default();
        for case in at_least_good_cases(RUN_TABLES).filter(Case::has_bulbs) {
            tally.count(&case);
            let oracle = Oracle::new(&case);
            let original = OriginalRun::new(&oracle);
            let [many, single] = [false, true].map(|single| ProvedRun::new(&case, single));
            let mut state = original.answer(&Step::Fresh).bytes(STATE);
            for step in steps(&oracle) {
                let answer = original.answer(&step);
                assert_eq!(many.answer(&step), answer, "{step:?} of {case}");
                assert_eq!(single.answer(&step), answer, "{step:?} of {case}");
                *tally.comparisons.entry("step").or_default() += 2;
                let next = answer.bytes(STATE);
                seen.count(&oracle.rows, [&state, &next]);
                state = next;
            }
        }
        tally.print("bulb, generated runs");
        print(&format!("bulb, generated runs: {seen:?}"));
        let Seen { arrived, held, left, changed } = seen;
        let fewest = arrived.min(held).min(left).min(changed);
        assert!(fewest > tally.with_bulbs / 3, "too few on {} tables: {seen:?}", tally.with_bulbs);
    }

    /// An answer without the profile that was lent.
    fn without_profile(mut answer: Answer) -> Answer {
        answer.buffers.remove(PROFILE);
        answer
    }

    /// "On tables without bulbs equality with the Rust stays as it was": by 13 bytes, and by 14 of which the last is any.
    #[test]
    fn without_bulbs_the_bulbs_byte_changes_nothing() {
        let mut tally = Tally::default();
        for case in at_least_good_cases(CALLED_TABLES).filter(|case| !case.has_bulbs()) {
            let by = |bulb: Option<u8>| {
                let profile = case.profile[..BULB].iter().copied().chain(bulb).collect();
                Case { profile, ..case.clone() }
            };
            let thirteen = by(None);
            let calls = queries(&thirteen, &Oracle::new(&thirteen));
            for other in [None, Some(0), Some(7), Some(31), Some(case.seed as u8 % 32)].map(by) {
                tally.count(&other);
                let compared = compare_case(&other, &Probe(&other), &mut tally);
                compared.unwrap_or_else(|mismatch| panic!("{other}{mismatch}"));
                for call in &calls {
                    let [one, other] =
                        [&thirteen, &other].map(|case| without_profile(Probe(case).answer(call)));
                    assert_eq!(one, other, "{call:?} of {case}");
                }
            }
        }
        tally.print("bulb, 13 and 14 bytes without bulbs");
    }

    /// Asserts that the six calls answer as the original does, and that each refuses with this number and row, if any. The
    /// buffers that are lent and the guards around them are among the answers.
    fn assert_six_calls(case: &Case, refused: Option<[u32; 2]>) {
        let (oracle, probe) = (Oracle::new(case), Probe(case));
        for call in six_calls_on(case) {
            let proved = probe.answer(&call);
            assert_eq!(proved, oracle.answer(&call), "{case}");
            let code = refused.map(|[number, row]| i128::from(65_536 * number + row));
            assert_eq!(proved.refusal().map(|_| proved.number), code, "{case}");
        }
    }

    fn bench_case(profile: &[u8], rows: impl IntoIterator<Item = Row>) -> Case {
        Case::new("six calls", profile, rows)
    }

    /// A lamp, and a lever on it.
    fn lamp_and_lever() -> [Row; 2] {
        let lever = Row::new(Kind::Lever, [0, 1, 0]).with_powered(true).with_support([0, -1, 0]);
        [Row::new(Kind::RedstoneLamp, [0; 3]), lever]
    }

    #[test]
    fn six_calls_by_profiles_of_every_length() {
        for length in (0..=40).chain([64, 255, 256, 269, 270, 4_096, 65_549, 65_550]) {
            let mut profile = BENCH_PROFILE_WITH_BULB.to_vec();
            profile.resize(length, 0);
            let refused = (![13, 14].contains(&length)).then_some([1, 0]);
            assert_six_calls(&bench_case(&profile, lamp_and_lever()), refused);
        }
    }

    #[test]
    fn six_calls_by_every_byte_of_the_bulb() {
        for byte in 0..=u8::MAX {
            let mut profile = BENCH_PROFILE_WITH_BULB;
            profile[BULB] = byte;
            let [lamp, lever] = lamp_and_lever();
            let case = bench_case(&profile, [lamp.with_kind(Kind::CopperBulb), lever]);
            assert_six_calls(&case, (byte > 31).then_some([1, 0]));
        }
    }

    /// In the first row or the second, where a bad row before it counts first.
    #[test]
    fn six_calls_on_every_kind_by_13_bytes_and_by_14() {
        for (bytes, kind) in
            [13, 14].into_iter().flat_map(|bytes| (0..=u8::MAX).map(move |kind| (bytes, kind)))
        {
            let is_bad = !(1..bytes).contains(&usize::from(kind));
            for row in [0, 1] {
                let mut case = bench_case(&BENCH_PROFILE_WITH_BULB[..bytes], lamp_and_lever());
                case.table[ROW_BYTES * row + 12] = kind;
                assert_six_calls(&case, is_bad.then_some([4, row as u32]));
                case.table[ROW_BYTES + 31] = 1;
                assert_six_calls(&case, Some([4, if is_bad { row as u32 } else { 1 }]));
            }
        }
    }

    /// Whether a state of nothing but these bytes is one of a kind's.
    fn is_state(kind: Kind, at: usize, value: u8, light: u8) -> bool {
        match (kind, at) {
            (_, 2 | 3 | 9..) if value == 0 => {
                light == 0 || matches!(kind, Kind::RedstoneLamp | Kind::CopperBulb)
            }
            (Kind::RedstoneLamp, 2) => value == 1,
            (Kind::RedstoneLamp, 3) => value <= 2 * light,
            (Kind::CopperBulb, 2 | 9) => value == 1,
            _ => false,
        }
    }

    /// Every value of bytes 2, 3 and 9 to 15 on every kind, beside a light and without, through a tick, none and a switch.
    #[test]
    fn every_value_of_every_byte_of_a_state() {
        let mut accepted = 0;
        for (kind, at) in
            Kind::ALL.iter().flat_map(|kind| [2, 3].into_iter().chain(9..16).map(move |at| (*kind, at)))
        {
            let bytes = if kind == Kind::CopperBulb { 14 } else { 13 };
            let [lamp, lever] = lamp_and_lever();
            let case = bench_case(&BENCH_PROFILE_WITH_BULB[..bytes], [lamp.with_kind(kind), lever]);
            let oracle = Oracle::new(&case);
            for (value, light) in (0..=u8::MAX).flat_map(|value| [0, 1].map(|light| (value, light))) {
                let mut state = vec![0; 2 * STATE_BYTES];
                state[2] = light;
                state[at] = value;
                let inputs = [
                    Input::Tick { state: state.clone(), tick: 0, ticks: 1 },
                    Input::Tick { state: state.clone(), tick: 0, ticks: 0 },
                    Input::Switch { state, at: [0, 1, 0], powered: false },
                ];
                for input in inputs {
                    let call = Call { input, columns: [2; 3] };
                    let answer = Probe(&case).answer(&call);
                    assert_eq!(answer, oracle.answer(&call), "{call:?} of {case}");
                    let light = if at == 2 { 0 } else { light };
                    let is_accepted = answer.refusal().is_none();
                    assert_eq!(is_accepted, is_state(kind, at, value, light), "{call:?} of {case}");
                    assert!(is_accepted || answer.number == 6 * 65_536, "{call:?} of {case}");
                    accepted += u32::from(is_accepted);
                }
            }
        }
        print(&format!("bulb, states: {accepted} calls accepted"));
    }
}
