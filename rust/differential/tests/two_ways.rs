//! The two ways to settle, in one pass and round by round, against each other, the original and a reading of the keys.

use std::cell::RefCell;
use std::collections::BTreeMap;
use std::fs;
use std::path::Path;

use differential::compare::{Answer, Answers, Compared, Tally, compare, difference, run};
use differential::differences::examples;
use differential::generate::{self, BENCH_PROFILE, Case};
use differential::probe::Probe;
use differential::random::Random;
use differential::settling::{Call, Input, LIMIT, SIGNAL, STATE, STRONG, TABLE, WEAK};
use differential::suite::{
    assert_alterations_reported, assert_compared, at_least_seeds, print, setting, with_damaged,
};
use differential::two_ways::{
    ALTERATIONS, ByRounds, Keys, LARGE, LINES_GOING_ON, MISPLACINGS, MISREADINGS, Misreading, READING,
    Refused, SEARCHES, TABLES, Trial, all_combinations, by_rounds_after, compare_case, device_bytes,
    device_columns, full_tables, in_every_order, lengths, limits, limits_beside_faults, lines, queries,
    settle, single_bytes, single_rows, turned,
};
use differential::{bulb, feeders, positions, table, torch};
use redstone::{Kind, MOST_ROWS, Row, STATE_BYTES};

#[cfg(no_original)]
#[test]
fn the_original_was_not_found() {
    differential::suite::say_original_not_found("two_ways");
}

/// The calls that the original and the reading of the keys are asked: of a large table those about the rounds.
fn asked(case: &Case) -> Vec<Call> {
    if case.rows() < LARGE || case.rows() > MOST_ROWS {
        queries(case)
    } else {
        about_the_rounds(case).collect()
    }
}

/// With each device column, at the last limit that is too low, at the first that is not and at the simulator's.
fn about_the_rounds(case: &Case) -> impl Iterator<Item = Call> {
    device_columns(case).into_iter().flat_map(|devices| {
        let rounds = ByRounds(case).answer(&settle(case, &devices, LIMIT)).number as u32;
        [rounds - 1, rounds, LIMIT].map(|limit| settle(case, &devices, limit))
    })
}

#[cfg(not(no_original))]
fn compare_with_the_original(case: &Case, calls: Vec<Call>, tally: &mut Tally) -> Compared {
    compare(calls, &differential::oracle::Oracle::new(case), &Probe(case), tally)
}

#[cfg(no_original)]
fn compare_with_the_original(_: &Case, _: Vec<Call>, _: &mut Tally) -> Compared {
    Ok(())
}

/// Both ways with each other, the plain one with the reading of the keys and the other with the original. Prints how much was
/// compared.
fn assert_agree(title: &str, cases: impl Iterator<Item = Case>) -> Tally {
    let [read, original] = [(); 2].map(|()| RefCell::new(Tally::default()));
    let compared = run(cases, |case, tally| {
        compare_case(case, &Probe(case), tally)?;
        let calls = asked(case);
        compare(calls.clone(), &Keys::new(case), &ByRounds(case), &mut read.borrow_mut())?;
        compare_with_the_original(case, calls, &mut original.borrow_mut())
    });
    let tally = assert_compared(&format!("two ways, {title}"), compared);
    let [read, original] = [read, original].map(|tally| tally.borrow().all_comparisons());
    print(&format!(
        "two ways, {title}: {read} calls with the reading of the keys, {original} with the original"
    ));
    tally
}

/// So many tables of each generator, or more where DIFF_TABLES says so.
const TABLES_OF_A_GENERATOR: u64 = 400;

fn four_generators(seed: u64) -> [Case; 4] {
    let random = &mut Random::new(seed);
    let with_arms = generate::with_arms(random, generate::case(seed));
    let (case, _) = feeders::generated(seed);
    [with_arms, generate::leaning_case(seed), case, generate::hard_case(seed)]
}

/// Every number of rounds is among the answers, and every refusal that settling has.
#[test]
fn generated_tables_agree_at_every_limit() {
    let cases = with_damaged(at_least_seeds(TABLES_OF_A_GENERATOR).flat_map(four_generators));
    let tally = assert_agree("generated", cases);
    let rounds = (1..=17).map(|rounds| ("rounds", rounds));
    let refusals = [1, 2, 4, 5, 6, 7, 8, 10].map(|refusal| ("refusal", refusal));
    let missing: Vec<_> =
        rounds.chain(refusals).filter(|answer| !tally.answers.contains_key(answer)).collect();
    assert!(missing.is_empty(), "not among the answers: {missing:?}");
}

/// The tables of docs/DIFFERENCES.md.
fn document_cases() -> Vec<Case> {
    let path = Path::new(env!("CARGO_MANIFEST_DIR")).join("../../docs/DIFFERENCES.md");
    let document = fs::read_to_string(path).expect("docs/DIFFERENCES.md");
    let examples = examples(&document).unwrap_or_else(|fault| panic!("{fault}"));
    examples.iter().map(|example| example.case()).collect()
}

/// Those of the tests of the book in document 01 that settle, and both of its last.
fn book_cases() -> Vec<Case> {
    let solid = |x| Row::new(Kind::Solid, [x, 0, 0]);
    let of_rows = |rows: Vec<Row>| Case::new("test book", BENCH_PROFILE, rows);
    let dust = |at| Row::new(Kind::RedstoneWire, at);
    let comparator = |level| {
        Row::new(Kind::Comparator, [0, 1, 0]).with_facing(redstone::Facing::East).with_power_level(level)
    };
    let step =
        |shape| vec![dust([0, 1, 0]), solid(1).with_position([1, 1, 0]).with_shape(shape), dust([1, 2, 0])];
    let tables = [
        vec![],
        vec![solid(0)],
        vec![Row::new(Kind::RedstoneBlock, [0; 3])],
        vec![comparator(15), dust([1, 1, 0])],
        vec![comparator(200), dust([1, 1, 0])],
        step(redstone::Shape::TopSlab),
        step(redstone::Shape::Plain),
        vec![solid(1_000_000)],
        vec![solid(1_000_001)],
        (0..1_024).map(solid).collect(),
        (0..1_025).map(solid).collect(),
    ];
    let lines = [2, 15].map(|dust| Case::line("test book", dust));
    tables.map(of_rows).into_iter().chain(lines).collect()
}

/// The tables that the other areas have by hand.
fn written_cases() -> impl Iterator<Item = Case> {
    let torches =
        torch::TRIALS.iter().flat_map(|trial| torch::BYTES.into_iter().flat_map(|byte| trial.cases(byte)));
    let bulbs = bulb::TRIALS.iter().map(|trial| trial.case());
    let fed = feeders::TABLES.iter().flat_map(feeders::turned).map(|trial| trial.case);
    let replaced = feeders::REPLACEMENTS.iter().flat_map(feeders::replaced).map(|trial| trial.case);
    torches.chain(bulbs).chain(fed).chain(replaced.step_by(8))
}

#[test]
fn tables_of_the_documents_agree_at_every_limit() {
    let cases = document_cases().into_iter().chain(book_cases()).chain(written_cases());
    assert_agree("documents", cases);
}

/// Of what the areas of torches and bulbs enumerate, one in so many; all where DIFF_TABLES asks for more than ten times as many
/// tables as a generator gives here.
const ONE_IN: usize = 40;

#[test]
fn torches_and_bulbs_agree_at_every_limit() {
    let is_long = setting("DIFF_TABLES", 0) > 10 * TABLES_OF_A_GENERATOR;
    let cases = torch::pairs().map(|pair| pair.case()).chain(bulb::beside_every_kind());
    assert_agree("torches and bulbs", cases.step_by(if is_long { 1 } else { ONE_IN }));
}

/// 1,024 rows in every shape.
#[test]
fn full_tables_of_every_shape_agree_at_every_limit() {
    assert_agree("full tables", full_tables());
}

/// The small ones first.
fn trials() -> impl Iterator<Item = Trial> {
    single_rows().chain(TABLES.iter().flat_map(turned)).chain(lines())
}

fn assert_same(side: &str, expected: &Answer, actual: &Answer, case: &Case, call: &Call) {
    assert!(expected == actual, "{side}: {}, {call:?}\n{case}", difference(expected, actual));
}

/// Each way, and what it is called.
fn each_way(case: &Case, call: &Call) -> [(&'static str, Answer); 2] {
    [("in one pass", Probe(case).answer(call)), ("round by round", ByRounds(case).answer(call))]
}

/// 44 tables in four turns, no rows and one row of each of 13 kinds, and 171 lines.
#[test]
fn written_tables_settle_as_by_hand() {
    let (mut tables, mut calls) = (0, 0);
    for trial in trials() {
        for limit in limits() {
            let (call, expected) = (trial.call(limit), trial.expected(limit));
            for (way, answer) in each_way(&trial.case, &call) {
                assert_same(way, &expected, &answer, &trial.case, &call);
            }
            calls += 1;
        }
        tables += 1;
    }
    assert_eq!(tables, 4 * TABLES.len() + 14 + 171);
    print(&format!("two ways, by hand: {tables} tables, {calls} calls each way"));
    assert_agree("written", trials().map(|trial| trial.case));
}

/// Each call is refused by both ways as by hand, or else by neither; and all sides answer the same.
fn assert_each_refused(title: &str, calls: impl Iterator<Item = Refused>) -> BTreeMap<Option<u32>, u64> {
    let mut refused = BTreeMap::new();
    for trial in calls {
        let Refused { case, call, refusal } = &trial;
        for (way, answer) in each_way(case, call) {
            match trial.expected() {
                Some(expected) => assert_same(way, &expected, &answer, case, call),
                None => assert_eq!(answer.refusal(), None, "{way}: {call:?}\n{case}"),
            }
        }
        assert_sides_agree(case, call);
        *refused.entry(refusal.map(|refusal| refusal.number)).or_default() += 1;
    }
    let calls: u64 = refused.values().sum();
    print(&format!("two ways, {title}: {calls} calls each way, refused {refused:?}"));
    refused
}

/// The answer of all sides.
fn assert_sides_agree(case: &Case, call: &Call) -> Answer {
    let [(_, in_one_pass), (_, by_rounds)] = each_way(case, call);
    assert_same("the ways", &by_rounds, &in_one_pass, case, call);
    assert_same("the keys", &Keys::new(case).answer(call), &by_rounds, case, call);
    #[cfg(not(no_original))]
    assert_same(
        "the original",
        &differential::oracle::Oracle::new(case).answer(call),
        &by_rounds,
        case,
        call,
    );
    by_rounds
}

/// 11 faults that are there or not, in six ways.
#[test]
fn every_combination_of_faults() {
    let refused = assert_each_refused("every combination of faults", all_combinations());
    let firsts = |faults: &[u32]| faults.iter().map(|fault| 6 << (10 - fault)).sum::<u64>();
    let by_number =
        [(1, firsts(&[0])), (2, firsts(&[1])), (3, firsts(&[2])), (4, firsts(&[3])), (5, firsts(&[4]))];
    let later = [(6, firsts(&[6, 7])), (7, firsts(&[9])), (8, firsts(&[10])), (10, firsts(&[5, 8]))];
    let numbers = by_number.into_iter().chain(later).map(|(number, calls)| (Some(number), calls));
    assert_eq!(refused, numbers.chain([(None, 6)]).collect());
}

/// 8 of these faults, of which those of the table stand in 9 orders.
#[test]
fn faults_at_rows_in_every_combination_and_order() {
    let refused = assert_each_refused("faults in every order", in_every_order());
    assert_eq!(refused.values().sum::<u64>(), 9 * 256);
}

/// Six tables, each with four buffers of a length.
#[test]
fn buffers_of_every_length_about_the_right_one() {
    let refused = assert_each_refused("lengths", lengths());
    assert_eq!(refused.values().sum::<u64>(), 4 * ((10 + 11 + 12 + 15 + 2 * 19) + 6 * 5));
    assert!(refused[&Some(7)] == 3 * refused[&Some(6)], "{refused:?}");
}

#[test]
fn every_limit_beside_a_column_of_a_wrong_length() {
    let refused = assert_each_refused("limits", limits_beside_faults());
    assert_eq!(refused, [(None, 28), (Some(7), 32), (Some(8), 4)].into());
}

#[test]
fn every_device_byte_of_every_kind() {
    let refused = assert_each_refused("device bytes", device_bytes());
    let good = 10 + 2 * 2 + 16;
    assert_eq!([refused[&None], refused[&Some(10)]], [good, 240]);
    assert_eq!(refused[&Some(6)], 13 * 256 - 240 - good);
}

/// Five rows, 14 bytes of profile and five of devices.
#[test]
fn every_byte_set_to_every_value() {
    let mut answers = BTreeMap::new();
    for (case, call) in single_bytes() {
        *answers.entry(assert_sides_agree(&case, &call).refusal()).or_insert(0_u64) += 1;
    }
    let calls: u64 = answers.values().sum();
    print(&format!("two ways, single bytes: {calls} calls each way, refused {answers:?}"));
    assert_eq!(calls, (5 * 32 + 14 + 5) * 256);
    assert!([1, 4, 5, 6, 10].iter().all(|number| answers[&Some(*number)] > 100), "{answers:?}");
}

/// A switch or some ticks.
fn any_input(random: &mut Random, case: &Case, state: Vec<u8>) -> Input {
    let rows = table::rows(&case.table);
    match random.below(3) {
        0 => Input::Switch { state, at: positions::any_position(random, &rows), powered: random.percent(50) },
        _ => Input::Tick { state, tick: 0, ticks: random.pick(&[0, 1, 1, 1, 2, 7]) },
    }
}

const RUNS: u64 = 300;

/// What fresh, tick and switch settle is what the plain way makes of the table and the devices that they leave.
#[test]
fn fresh_tick_and_switch_settle_as_the_plain_way() {
    let mut rounds = BTreeMap::new();
    let mut calls = BTreeMap::new();
    for case in at_least_seeds(RUNS).flat_map(|seed| [generate::case(seed), generate::hard_case(seed)]) {
        let random = &mut Random::new(case.seed);
        let mut input = Input::Fresh { state_bytes: STATE_BYTES * case.rows() };
        let mut now = case;
        for _ in 0..8 {
            let call = Call { input, columns: [now.rows(); 3] };
            let answer = Probe(&now).answer(&call);
            let plain = by_rounds_after(&now, &answer);
            assert_eq!(answer.number, plain.number, "{call:?}\n{now}");
            for column in [SIGNAL, WEAK, STRONG] {
                assert_eq!(answer.buffers[column], plain.buffers[column], "{call:?}\n{now}");
            }
            *rounds.entry(answer.number).or_insert(0_u64) += 1;
            *calls.entry(differential::compare::Query::function(&call)).or_insert(0_u64) += 1;
            now.table = answer.bytes(TABLE);
            input = any_input(random, &now, answer.bytes(STATE));
        }
    }
    print(&format!("two ways, runs: {calls:?}, rounds {rounds:?}"));
    assert!((1..=17).all(|number| rounds.contains_key(&number)), "{rounds:?}");
}

/// Runs of the tables that are hard to settle, in which the devices step, too.
#[cfg(not(no_original))]
#[test]
fn runs_of_hard_tables_agree_with_the_original() {
    use differential::oracle::Oracle;
    use differential::redstone::{OriginalRun, ProvedRun, steps};

    let compared = run(at_least_seeds(RUNS).map(generate::hard_case), |case, tally| {
        let oracle = Oracle::new(case);
        compare(steps(&oracle), &OriginalRun::new(&oracle), &ProvedRun::new(case, false), tally)
    });
    assert_compared("two ways, runs of hard tables with the original", compared);
}

#[test]
fn altered_answers_are_reported() {
    assert_alterations_reported(&ALTERATIONS, compare_case);
}

fn all_misreadings() -> impl Iterator<Item = &'static Misreading> {
    MISREADINGS.iter().chain(&MISPLACINGS).chain(&SEARCHES)
}

/// Whether the keys read so answer a call otherwise.
fn is_told(misreading: &Misreading, case: &Case, call: &Call, expected: &Answer) -> bool {
    let mut wrong = READING;
    (misreading.change)(&mut wrong);
    Keys::reading(case, wrong).answer(call) != *expected
}

/// Whether the keys read so answer a call about the rounds of a case otherwise than the plain way.
fn is_told_by(misreading: &Misreading, case: &Case) -> bool {
    about_the_rounds(case).any(|call| is_told(misreading, case, &call, &ByRounds(case).answer(&call)))
}

/// Each wrong reading answers a call otherwise than is written by hand.
#[test]
fn misreadings_are_reported() {
    for misreading in all_misreadings() {
        let differs = |trial: &Trial| {
            let about = [trial.rounds - 1, trial.rounds, LIMIT];
            about
                .iter()
                .any(|limit| is_told(misreading, &trial.case, &trial.call(*limit), &trial.expected(*limit)))
        };
        assert!(trials().any(|trial| differs(&trial)), "{}", misreading.what);
    }
    print(&format!("two ways: {} wrong readings reported", all_misreadings().count()));
}

const TELLING_TABLES: u64 = 800;

/// So many of the generated tables tell each.
#[test]
fn generated_tables_tell_wrong_readings() {
    let told = |misreading: &'static Misreading| {
        let cases = at_least_seeds(TELLING_TABLES).map(generate::hard_case);
        (misreading.what, cases.filter(|case| is_told_by(misreading, case)).count())
    };
    let told: Vec<_> = all_misreadings().map(told).collect();
    print(&format!("two ways, wrong readings told by tables of {TELLING_TABLES}: {told:?}"));
    let few: Vec<_> = told.iter().filter(|(_, tables)| *tables == 0).collect();
    assert!(few.is_empty(), "{few:?}");
}

/// By each profile.
#[test]
fn the_ends_of_every_line_tell_lines_that_go_on() {
    let is_lit = |case: &Case| case.sort == "the ends of every line, the last ones lit";
    let cases: Vec<_> = full_tables().filter(is_lit).collect();
    assert_eq!(cases.len(), 3);
    for misreading in LINES_GOING_ON {
        assert!(cases.iter().all(|case| is_told_by(misreading, case)), "{}", misreading.what);
    }
}
