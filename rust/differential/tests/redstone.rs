//! electrical.rs and sim.rs, through the editor's crate, on accepted and damaged tables.

#[cfg(no_original)]
#[test]
fn the_original_was_not_found() {
    differential::suite::say_original_not_found("redstone");
}

#[cfg(not(no_original))]
mod compared {
    use differential::compare::{Answer, Answers, Tally, compare, run};
    use differential::generate::{self, BENCH_PROFILE, Case};
    use differential::oracle::{Oracle, world};
    use differential::probe::{Probe, redstone_switch};
    use differential::redstone::{
        ALTERATIONS, OriginalRun, ProvedRun, Step, compare_case, edges, settle_at_every_limit, single_bytes,
        steps,
    };
    use differential::settling::{Call, Input, SIGNAL, STATE, TABLE};
    use differential::suite::{
        assert_alterations_reported, assert_compared, compare_many, good_cases, setting,
    };
    use original::sim::{Parts, RedstoneTickSimulator};
    use original::world::World;
    use redstone::{Kind, Row};

    /// So many calls are compared, or more where DIFF_CALLS says so; 1,000,000 take some minutes.
    const CALLS: u64 = 50_000;

    /// Every number of rounds and every refusal is among the answers; and among the tables are such with 13 bytes of
    /// profile, with 14 and no bulbs, and with bulbs.
    #[test]
    fn redstone_agrees_with_the_original() {
        let calls = setting("DIFF_CALLS", CALLS).max(CALLS);
        let tally = assert_compared("redstone", compare_many(calls, compare_case));
        let rounds = (1..=17).map(|rounds| ("rounds", rounds));
        let refusals = (1..=10).map(|refusal| ("refusal", refusal));
        let missing: Vec<_> =
            rounds.chain(refusals).filter(|answer| !tally.answers.contains_key(answer)).collect();
        assert!(missing.is_empty(), "not among the answers: {missing:?}");
        let tables: u64 = tally.tables.values().sum();
        let few = [tables - tally.fourteen, tally.fourteen - tally.with_bulbs, tally.with_bulbs];
        assert!(few.iter().all(|few| *few > tables / 10), "of {tables} tables {few:?} are of a sort");
    }

    #[test]
    fn settling_agrees_at_every_limit() {
        let compared = run(good_cases(10_000), |case, tally| {
            let oracle = Oracle::new(case);
            compare(settle_at_every_limit(&oracle), &oracle, &Probe(case), tally)
        });
        assert_compared("limits", compared);
    }

    #[test]
    fn runs_agree_with_the_original() {
        let compared = run(good_cases(300), |case, tally| {
            let oracle = Oracle::new(case);
            compare(steps(&oracle), &OriginalRun::new(&oracle), &ProvedRun::new(case, false), tally)
        });
        assert_compared("runs", compared);
    }

    /// Whatever was asked before, an answer is by the profile of the case that it is about.
    #[test]
    fn runs_by_turns_answer_by_their_own_profiles() {
        let cases: Vec<_> = (0..40).map(generate::case).collect();
        let oracles: Vec<_> = cases.iter().map(Oracle::new).collect();
        let sides =
            oracles.iter().map(|oracle| (OriginalRun::new(oracle), ProvedRun::new(oracle.case, false)));
        let sides: Vec<_> = sides.collect();
        for step in [Step::Fresh, Step::Ticks(1), Step::Ticks(3)] {
            for ((original, proved), case) in sides.iter().zip(&cases) {
                assert_eq!(original.answer(&step), proved.answer(&step), "{case}");
            }
        }
    }

    #[test]
    fn many_ticks_in_one_call_are_as_many_single_ones() {
        let compared = run(good_cases(300), |case, tally| {
            let steps = steps(&Oracle::new(case));
            compare(steps, &ProvedRun::new(case, true), &ProvedRun::new(case, false), tally)
        });
        assert_compared("single ticks", compared);
    }

    #[test]
    fn inputs_at_the_ends_agree() {
        assert_each_agrees("ends", edges());
    }

    #[test]
    fn every_byte_set_to_every_value_agrees() {
        assert_each_agrees("single bytes", single_bytes());
    }

    fn assert_each_agrees(title: &str, asked: impl Iterator<Item = (Case, Call)>) {
        let mut tally = Tally::default();
        for (case, call) in asked {
            tally.count(&case);
            let compared = compare([call], &Oracle::new(&case), &Probe(&case), &mut tally);
            compared.unwrap_or_else(|mismatch| panic!("{title}: {case}{mismatch}"));
        }
        tally.print(title);
    }

    #[test]
    fn altered_answers_are_reported() {
        assert_alterations_reported(&ALTERATIONS, compare_case);
    }

    /// A run that is packed and unpacked at each tick comes to the states of a run that is not.
    #[test]
    fn packed_states_lose_nothing() {
        for case in (0..500).map(generate::case) {
            let oracle = Oracle::new(&case);
            let mut whole = oracle.started();
            for _ in 0..12 {
                let mut stepped = oracle.simulator(&whole.packed());
                assert_eq!(stepped.tick(1), whole.tick(1), "{case}");
                assert_eq!(stepped.packed(), whole.packed(), "{case}");
            }
        }
    }

    fn bench_case(rows: impl IntoIterator<Item = Row>) -> Case {
        Case::new("test book", BENCH_PROFILE, rows)
    }

    /// The answer that both sides give.
    fn answer(case: &Case, input: Input) -> Answer {
        let call = Call { input, columns: [case.rows(); 3] };
        let answer = Probe(case).answer(&call);
        assert_eq!(answer, Oracle::new(case).answer(&call), "{case}{call:?}");
        answer
    }

    /// The original counts ticks in 64 bits and goes on.
    #[test]
    fn a_tick_number_past_32_bits_is_refused() {
        let case = bench_case([Row::new(Kind::RedstoneLamp, [0; 3])]);
        let tick = |ticks| answer(&case, Input::Tick { state: vec![0; 16], tick: u32::MAX - 1, ticks });
        assert_eq!([0, 1, 2, u32::MAX].map(|ticks| tick(ticks).refusal()), [None, None, Some(9), Some(9)]);
        let parts = Parts { tick: u32::MAX.into(), ..Parts::default() };
        let simulator = |world: &World| RedstoneTickSimulator::from_parts(world.clone(), parts).unwrap();
        let mut original = world(&BENCH_PROFILE, &[]).map(simulator);
        assert_eq!(original.get_mut().advance_tick().unwrap().tick, 1 << 32);
    }

    /// The editor's crate has only 0 and 1 for a switch.
    #[test]
    fn any_number_but_0_switches_on() {
        let case = bench_case([Row::new(Kind::Lever, [0; 3])]);
        let state = vec![0; 16];
        for (number, powered) in
            [(0, false), (1, true), (2, true), (256, true), (65_536, true), (u32::MAX, true)]
        {
            let (mut table, mut signal, mut weak, mut strong) = (case.table.clone(), [9], [9], [9]);
            redstone_switch(
                &case.profile,
                &mut table,
                &state,
                0,
                0,
                0,
                number,
                &mut signal,
                &mut weak,
                &mut strong,
            );
            let switched = answer(&case, Input::Switch { state: state.clone(), at: [0; 3], powered });
            assert_eq!((table, signal.to_vec()), (switched.bytes(TABLE), switched.bytes(SIGNAL)), "{number}");
        }
    }

    /// Test 4 of the book.
    #[test]
    fn fifteen_dust_settle_in_seventeen_rounds() {
        let case = Case::line("test book", 15);
        let settle = |limit| answer(&case, Input::Settle { devices: vec![0; case.rows()], limit });
        let settled = settle(128);
        assert_eq!(settled.number, 17);
        assert_eq!(settled.bytes(SIGNAL).last(), Some(&1));
        assert_eq!(settle(17), settled);
        assert_eq!(settle(16).refusal(), Some(8));
    }

    /// Test 10 of the book: the lever on the lamp is thrown after tick 4.
    #[test]
    fn a_lamp_first_dark_at_tick_5_is_out_at_tick_7() {
        let lamp = Row::new(Kind::RedstoneLamp, [0, 0, 0]);
        let lever = Row::new(Kind::Lever, [0, 1, 0]).with_support([0, -1, 0]);
        let [on, off] = [true, false].map(|powered| bench_case([lamp, lever.with_powered(powered)]));
        let fresh = answer(&on, Input::Fresh { state_bytes: 32 }).bytes(STATE);
        let state = answer(&on, Input::Tick { state: fresh, tick: 0, ticks: 4 }).bytes(STATE);
        let lamp_after = |ticks| {
            let tick = Input::Tick { state: state.clone(), tick: 4, ticks };
            answer(&off, tick).bytes(STATE)[2..4].to_vec()
        };
        assert_eq!([0, 1, 2, 3].map(lamp_after), [[1, 0], [1, 2], [1, 1], [0, 0]]);
    }
}
