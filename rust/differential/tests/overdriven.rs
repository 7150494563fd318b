//! What is overdriven, against document 02's Change 5.

#[cfg(no_original)]
#[test]
fn the_original_was_not_found() {
    differential::suite::say_original_not_found("overdriven");
}

#[cfg(not(no_original))]
mod compared {
    use std::collections::BTreeMap;

    use differential::bulb;
    use differential::calls::{AnyCall, six_calls_on};
    use differential::compare::{Answer, Answers, Query, Tally, compare};
    use differential::generate::{BENCH_PROFILE, Case};
    use differential::month;
    use differential::oracle::{Oracle, pos};
    use differential::overdriven::{
        Arrangement, Level, MISREADINGS, Trial, all_combinations, device_bytes, levels_of_kinds,
        of_rows_and_devices, several_devices, several_rows, with_the_level,
    };
    use differential::probe::{Probe, probe_check};
    use differential::program::{find, run};
    use differential::redstone::{OriginalRun, ProvedRun, queries, steps};
    use differential::refusals::{ORDER, Refusal, check, refuse};
    use differential::settling::{Call, Input, SIGNAL, STATE, STRONG, WEAK};
    use differential::suite::{at_least_good_cases, print, with_damaged};
    use differential::{connectivity, settle, table, torch, wire, world};
    use redstone::{Facing, Kind, Row, STATE_BYTES};

    /// The level of test 5 before the change.
    const OVERDRIVEN: u8 = 200;

    /// How many calls were refused with each number, or with none.
    type Refused = BTreeMap<Option<u32>, u64>;

    /// Asserts that a call is refused as is written by hand, with every buffer as it was lent, or else that it is not; and
    /// that the second reading refuses it so, or else that it answers as the original does.
    fn assert_answers_by_hand(trial: &Trial) {
        let Trial { case, call, refusal } = trial;
        let proved = Probe(case).answer(call);
        match refusal {
            Some(refusal) => assert_eq!(proved, call.refused(case, refusal.code()), "{call:?} of {case}"),
            None => assert_eq!(proved.refusal(), None, "{call:?} of {case}"),
        }
        match trial.refused_by(&ORDER) {
            // Or a limit is too low, which is for the original to say.
            None => assert_eq!(proved, Oracle::new(case).answer(call), "{call:?} of {case}"),
            refused => assert_eq!(refused, *refusal, "{call:?} of {case}"),
        }
    }

    fn assert_each(title: &str, trials: impl Iterator<Item = Trial>) -> Refused {
        let mut refused = Refused::new();
        for trial in trials {
            assert_answers_by_hand(&trial);
            *refused.entry(trial.refusal.map(|refusal| refusal.number)).or_default() += 1;
        }
        let calls: u64 = refused.values().sum();
        print(&format!("overdriven, {title}: {calls} calls, refused {refused:?}"));
        refused
    }

    /// Document 01's order with "10 .. tested on rows just after 5 and on a column or state just after 6".
    #[test]
    fn the_tests_stand_in_this_order() {
        assert_eq!(ORDER.map(|test| test.number), [1, 2, 3, 4, 5, 10, 6, 6, 10, 7, 9]);
    }

    /// The arrangement in which the faults that are tested for later are in earlier rows.
    fn backward() -> Arrangement {
        Arrangement::all().next().expect("an arrangement")
    }

    fn in_every_arrangement() -> impl Iterator<Item = Trial> {
        Arrangement::all().flat_map(|arrangement| of_rows_and_devices(arrangement, OVERDRIVEN))
    }

    /// There are 125 arrangements and, with a good profile and a good length of the table, 256 combinations of faults for
    /// settle and for tick, 128 for switch, 16 each for fresh and for the support list, and 8 for the redraw. In 72 + 18 + 4
    /// + 1 of them 10 comes first.
    #[test]
    fn faults_at_rows_in_every_combination_and_arrangement() {
        let refused = assert_each("every arrangement", in_every_arrangement());
        assert_eq!(refused.values().sum::<u64>(), 125 * (2 * 256 + 128 + 2 * 16 + 8));
        assert_eq!([refused[&Some(10)], refused[&None]], [125 * 95, 125 * 6]);
        assert!((4..=10).all(|number| refused.contains_key(&Some(number))), "{refused:?}");
    }

    /// There are 2,048 combinations of all faults for settle and for tick, 1,024 for switch, 128 each for fresh and for the
    /// support list, and 64 for the redraw; in 1,440 of these nothing has the level. Up to 15 a level is no fault, and 12
    /// calls in which something has it have no other.
    #[test]
    fn every_level_beside_every_combination_of_faults() {
        let levels = (1..=u8::MAX).flat_map(|level| with_the_level(backward(), level));
        let refused = assert_each("every level", all_combinations(backward(), 0).chain(levels));
        assert_eq!(refused.values().sum::<u64>(), 5_440 + 255 * (5_440 - 1_440));
        assert_eq!([refused[&Some(10)], refused[&None]], [240 * 95, 16 * 12 + 6]);
        assert!((1..=10).all(|number| refused.contains_key(&Some(number))), "{refused:?}");
    }

    #[test]
    fn every_level_of_every_kind() {
        let refused = assert_each("every level of every kind", levels_of_kinds());
        // Of 13 kinds by 256 values, given and not: 255 of each that are not given, and 240 of the comparator's.
        assert_eq!(refused.values().sum::<u64>(), 6 * 13 * 2 * 256);
        assert_eq!([refused[&Some(4)], refused[&Some(10)]], [6 * 13 * 255, 6 * 240]);
    }

    /// What a block emits, and the dust beside it has.
    #[test]
    fn every_accepted_level_is_emitted_as_by_hand() {
        let mut accepted = 0;
        for level in Level::all().filter(|level| level.refusal().is_none()) {
            let case = level.case();
            let rows = case.rows();
            let input = Input::Fresh { state_bytes: STATE_BYTES * rows };
            let answer = Probe(&case).answer(&Call { input, columns: [rows; 3] });
            assert_eq!(answer.bytes(SIGNAL)[1..], [level.emitted(); 2], "{level:?}");
            accepted += 1;
        }
        assert_eq!(accepted, 13 * 257 - 240);
    }

    #[test]
    fn every_device_byte_of_every_kind() {
        let refused = assert_each("every device byte of every kind", device_bytes());
        // A column and three states. Torches and repeaters have two bytes, comparators sixteen, ten other kinds one.
        assert_eq!(refused.values().sum::<u64>(), 4 * 13 * 256);
        assert_eq!([refused[&Some(6)], refused[&Some(10)]], [4 * (2 * 254 + 10 * 255), 4 * 240]);
    }

    #[test]
    fn of_several_that_are_overdriven_the_first_counts() {
        let rows = assert_each("several rows", several_rows());
        assert_eq!([rows[&Some(10)], rows[&None]], [6 * 2 * 31, 6 * 2]);
        let devices = assert_each("several devices", several_devices());
        assert_eq!([devices[&Some(10)], devices[&None]], [3 * 2 * 31, 3 * 2]);
    }

    /// The tables of Changes 3 and 4 that have comparators, with an overdriven one.
    #[test]
    fn trials_with_an_overdriven_comparator_are_refused() {
        let of_torches =
            torch::TRIALS.iter().flat_map(|trial| torch::BYTES.map(|byte| trial.cases(byte))).flatten();
        let (mut tables, mut calls) = (0, 0);
        for case in of_torches.chain(bulb::TRIALS.iter().map(bulb::Trial::case)) {
            let is_comparator = |row: &Row| row.kind() == Kind::Comparator;
            let Some(row) = table::rows(&case.table).iter().position(is_comparator) else { continue };
            let mut case = case.with_levels(|_| OVERDRIVEN);
            case.rows_of(Kind::Comparator).for_each(|row| row[15] = 1);
            for call in six_calls_on(&case) {
                let refusal = Some(Refusal { number: 10, row });
                assert_answers_by_hand(&Trial { case: case.clone(), call, refusal });
                calls += 1;
            }
            tables += 1;
        }
        // Four tables of torches by twelve profiles, and three of bulbs.
        assert_eq!([tables, calls], [4 * 12 + 3, 6 * (4 * 12 + 3)]);
    }

    fn all_trials() -> impl Iterator<Item = Trial> {
        let arranged = in_every_arrangement().chain(all_combinations(backward(), OVERDRIVEN));
        several_rows().chain(several_devices()).chain(device_bytes()).chain(levels_of_kinds()).chain(arranged)
    }

    /// Each wrong reading refuses a call that is tried otherwise than the right one.
    #[test]
    fn misreadings_are_reported() {
        for misreading in &MISREADINGS {
            let mut order = ORDER;
            (misreading.change)(&mut order);
            let differs = |trial: &Trial| trial.refused_by(&order) != trial.refused_by(&ORDER);
            assert!(all_trials().any(|trial| differs(&trial)), "{}", misreading.what);
        }
    }

    fn is_overdriven(checked: Result<(), Refusal>) -> bool {
        checked.is_err_and(|refusal| refusal.number == 10)
    }

    /// The calls that are put to both sides of the comparison with the original, by what 10 falls on in them.
    #[test]
    fn overdriven_calls_are_often_generated() {
        let (mut tables, mut calls) = (0, BTreeMap::<_, u64>::new());
        for case in with_damaged(at_least_good_cases(3_000)) {
            let oracle = Oracle::new(&case);
            for call in queries(&case, &oracle) {
                if is_overdriven(refuse(&ORDER, &call.asked(&case))) {
                    let what = if oracle.refusal.is_err() { "rows" } else { call.function() };
                    *calls.entry(what).or_default() += 1;
                }
            }
            tables += 1;
        }
        print(&format!("overdriven, generated: {tables} tables, {calls:?}"));
        for what in ["rows", "settle", "tick", "switch"] {
            assert!(calls[what] > tables / 100, "{calls:?} of {tables} tables are overdriven");
        }
    }

    /// How often each device byte of a comparator was seen.
    type Seen = [u64; 16];

    /// Asserts that no level is above 15, in the state or in a column.
    fn assert_levels(rows: &[Row], answer: &Answer, seen: &mut Seen) {
        for column in [SIGNAL, WEAK, STRONG] {
            assert!(answer.bytes(column).iter().all(|level| *level <= 15), "{answer:?}");
        }
        for (row, state) in rows.iter().zip(answer.bytes(STATE).chunks(STATE_BYTES)) {
            assert!(state[0] <= 15, "{row:?} has {state:?}");
            if row.kind() == Kind::Comparator {
                seen[usize::from(state[0])] += 1;
            }
        }
    }

    /// Runs of tables with comparators, from fresh states through ticks and switches.
    #[test]
    fn no_run_comes_to_a_level_above_15() {
        let has_comparator =
            |case: &Case| table::rows(&case.table).iter().any(|row| row.kind() == Kind::Comparator);
        let (mut tally, mut seen) = (Tally::default(), Seen::default());
        for case in at_least_good_cases(1_000).filter(has_comparator) {
            tally.count(&case);
            let oracle = Oracle::new(&case);
            let (original, proved) = (OriginalRun::new(&oracle), ProvedRun::new(&case, false));
            for step in steps(&oracle) {
                let answer = proved.answer(&step);
                assert_eq!(answer, original.answer(&step), "{step:?} of {case}");
                assert_levels(&oracle.rows, &answer, &mut seen);
                *tally.comparisons.entry(step.function()).or_default() += 1;
            }
        }
        tally.print("overdriven, runs");
        print(&format!("overdriven, runs: comparators at 0 to 15 {seen:?}"));
        assert!(!seen.contains(&0), "a level is missing: {seen:?}");
    }

    /// Look-ups, traits, ports, arms and transfers ask for no level: on an overdriven table they are those of the original
    /// on the table with its levels clipped.
    #[test]
    fn what_asks_for_no_level_answers_on_overdriven_tables() {
        let mut tally = Tally::default();
        let cases = with_damaged(at_least_good_cases(30_000));
        for case in cases.filter(|case| is_overdriven(check(&case.profile, &case.table))) {
            tally.count(&case);
            let clipped = case.with_levels(|level| level.min(15));
            let (oracle, probe) = (Oracle::new(&clipped), Probe(&case));
            let refuses = |function: &str| ["support_issues", "update_wire_shapes"].contains(&function);
            let of_world = world::queries(&clipped).into_iter().filter(|query| !refuses(query.function()));
            let of_wire = wire::queries(&clipped).into_iter().filter(|query| !refuses(query.function()));
            let compared = compare(of_world, &oracle, &probe, &mut tally)
                .and_then(|()| compare(of_wire, &oracle, &probe, &mut tally))
                .and_then(|()| compare(connectivity::queries(&clipped), &oracle, &probe, &mut tally));
            compared.unwrap_or_else(|mismatch| panic!("{case}{mismatch}"));
        }
        tally.print("overdriven, what asks for no level");
        assert!(tally.tables.values().sum::<u64>() > 1_000, "too few tables are overdriven");
    }

    /// Test 5 of the book, with a comparator of any level.
    fn comparator_and_dust(level: u8) -> Case {
        let comparator =
            Row::new(Kind::Comparator, [0, 1, 0]).with_facing(Facing::East).with_power_level(level);
        Case::new("test 5", BENCH_PROFILE, [comparator, Row::new(Kind::RedstoneWire, [1, 1, 0])])
    }

    /// Test 5 of the book, by both sides.
    #[test]
    fn a_comparator_at_15_gives_15_to_the_dust() {
        let case = comparator_and_dust(15);
        for input in [Input::Settle { devices: vec![15, 0], limit: 128 }, Input::Fresh { state_bytes: 32 }] {
            let call = Call { input, columns: [2; 3] };
            let answer = Probe(&case).answer(&call);
            assert_eq!(answer, Oracle::new(&case).answer(&call), "{case}");
            assert_eq!((answer.number, answer.bytes(SIGNAL)), (2, vec![15, 15]));
        }
    }

    /// The original takes every level, gives it uncapped as the comparator's signal and caps it at the dust: at 200 the
    /// signals are 200 and 15. The library refuses every level above 15.
    #[test]
    fn the_original_takes_levels_above_15() {
        for level in 0..=u8::MAX {
            let case = comparator_and_dust(level);
            let settled = Oracle::of_any_levels(&case).settle_fresh();
            let signals = [[0, 1, 0], [1, 1, 0]].map(|at| settled.signal(pos(at)));
            assert_eq!(signals, [level, level.min(15)]);
            assert_eq!(settled.iterations, if level == 0 { 1 } else { 2 }, "{level}");
            let refused = if level > 15 { 10 * 65_536 } else { 0 };
            assert_eq!(probe_check(&case.profile, &case.table), refused, "{level}");
        }
    }

    fn written_by(program: &str, input: &[u8]) -> String {
        let program = find(program).unwrap_or_else(|sentence| panic!("{sentence}"));
        run(&program, input).expect("the program runs").output
    }

    /// What the program writes for an input, which is what is expected.
    fn settle(input: &[u8]) -> String {
        let written = written_by("settle", input);
        assert_eq!(written, settle::expected(input), "on the input {input:02x?}");
        written
    }

    /// Calls that have a profile and a table alone.
    fn tables_with_faults() -> impl Iterator<Item = Trial> {
        let trials =
            Arrangement::of_tables().flat_map(|arrangement| all_combinations(arrangement, OVERDRIVEN));
        trials.filter(|trial| matches!(trial.call, AnyCall::Redraw))
    }

    /// The length of its input counts before all else, and its profile before its rows.
    #[test]
    fn the_program_settle_beside_every_combination_of_faults() {
        let mut overdriven = 0;
        for Trial { case, refusal, .. } in tables_with_faults() {
            let written = settle(&[&case.profile[..], &case.table].concat());
            match refusal {
                None => assert!(written.starts_with("blocks=10\n"), "{written}"),
                Some(refusal) if refusal.number < 4 => assert!(written.ends_with("\nplace=0\n"), "{written}"),
                Some(refusal) => {
                    assert_eq!(written, format!("refusal={}\nplace={}\n", refusal.number, refusal.row));
                    overdriven += u32::from(refusal.number == 10);
                }
            }
        }
        assert_eq!(overdriven, 6);
    }

    #[test]
    fn the_program_settle_at_every_level() {
        for level in 0..=u8::MAX {
            let case = comparator_and_dust(level);
            let written = settle(&[&case.profile[..], &case.table].concat());
            let rounds = if level == 0 { 1 } else { 2 };
            let expected = match level {
                ..=15 => format!("blocks=2\nrounds={rounds}\nrow=0,1,0,{level},0,0\nrow=1,1,0,{level},0,0\n"),
                _ => "refusal=10\nplace=0\n".to_owned(),
            };
            assert_eq!(written, expected, "{level}");
        }
    }

    /// What the program writes for a stream, which is what is expected.
    fn month(tables: &[Vec<u8>]) -> String {
        let stream = month::stream(&BENCH_PROFILE, tables);
        let written = written_by("month", &stream);
        assert_eq!(written, month::expected(&stream));
        written
    }

    /// Each accepted level is the level of one dust.
    #[test]
    fn the_program_month_at_every_level() {
        let tables: Vec<_> = (0..=u8::MAX).map(|level| comparator_and_dust(level).table).collect();
        let levels: String = (0..16).map(|level| format!("level_{level}=1\n")).collect();
        let counts = "tables=16\nrefused=240\nrounds_1=1\nrounds_2=15\n";
        let written = month(&tables);
        assert!(written.starts_with(counts) && written.contains(&levels), "{written}");
        for (level, table) in tables.into_iter().enumerate() {
            let refused = usize::from(level > 15);
            let first = format!("tables={}\nrefused={refused}\n", 1 - refused);
            assert!(month(&[table]).starts_with(&first), "{level}");
        }
    }

    #[test]
    fn the_program_month_beside_every_combination_of_faults() {
        let has_good_length = |trial: &Trial| trial.refusal.is_none_or(|refusal| refusal.number > 3);
        let trials: Vec<_> = tables_with_faults().filter(has_good_length).collect();
        let tables: Vec<_> = trials.iter().map(|trial| trial.case.table.clone()).collect();
        let refused = trials.iter().filter(|trial| trial.refusal.is_some()).count();
        assert_eq!([tables.len(), refused], [6 * 8, 6 * 7]);
        assert!(month(&tables).starts_with("tables=6\nrefused=42\n"));
    }
}
