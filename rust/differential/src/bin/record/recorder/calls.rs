//! Operations 10 to 13: settle, fresh, ticks and switch.

use differential::compare::{Answer, Answers};
use differential::devices::{any_devices, is_switch};
use differential::generate::{BENCH_PROFILE, BENCH_PROFILE_WITH_BULB, Case};
use differential::oracle::Oracle;
use differential::random::Random;
use differential::redstone::{OriginalRun, Step, fresh_devices};
use differential::settling::{Call, Input, SIGNAL, STATE, STRONG, TABLE, WEAK};
use differential::table::{self, Position};
use redstone::{Facing, Kind, ROW_BYTES, Row, STATE_BYTES};

use super::record::Record;
use super::{MOST_ROWS, small_cases};

/// The simulator's limit and the most rounds. Beside them the rounds that are needed and one fewer are asked.
const LIMITS: [u32; 2] = [128, 17];

const SETTLED_TABLES: usize = 10;
const MOST_SETTLED_ROWS: usize = 24;
const LEAST_ROUNDS: u32 = 3;
/// Of the limits for a device column of a generated table this many are kept.
const LIMITS_KEPT: usize = 2;

/// So many of the tables in which a torch charges a block are settled, and run.
const CHARGING_TABLES: usize = 5;
const CHARGING_RUNS: usize = 2;

/// Each step of a run has its table and state with it, so these are small tables.
const RUNS: usize = 6;
const MOST_RUN_ROWS: usize = 12;
/// So many of a run's calls at least change the state.
const LEAST_CHANGES: usize = 3;
/// Runs of tables with bulbs, in which so many calls at least change a light.
const BULB_RUNS: usize = 2;
const LEAST_LIGHTS: usize = 2;

/// The least rows of the tables of the short runs.
const SHORT_RUNS: [usize; 2] = [20, 40];

pub fn records(seed: u64, random: &mut Random) -> Vec<Record> {
    let [short_line, long_line] = [2, 15].map(|dust| Case::line("line", dust));
    let mut records = Vec::new();
    let [with_value, without_value] = [true, false].map(|charges| charged().with_torch_charging(charges));
    for case in [&short_line, &long_line, &comparator(), &with_value, &without_value, &bulbs()] {
        records.extend(settles(random, case, LIMITS.len() + 2));
    }
    for case in slow_cases(seed).take(SETTLED_TABLES).chain(charging_cases(seed).take(CHARGING_TABLES)) {
        records.extend(settles(random, &case, LIMITS_KEPT));
    }
    let charging_runs = charging_cases(seed).take(CHARGING_RUNS);
    for case in [short_line, lamp(), with_value, bulbs(), blinking()].into_iter().chain(charging_runs) {
        records.extend(run(&case, &steps(random, &case)).records);
    }
    let lively = |run: &Run| run.changes >= LEAST_CHANGES;
    records.extend(switched_runs(seed, random).filter(lively).take(RUNS).flat_map(|run| run.records));
    let lighted = |run: &Run| run.lights >= LEAST_LIGHTS;
    records.extend(switched_runs(seed, random).filter(lighted).take(BULB_RUNS).flat_map(|run| run.records));
    for case in [long_line, comparator()] {
        records.extend(run(&case, &[Step::Fresh, Step::Ticks(1)]).records);
    }
    let off = Step::Switch { at: PLATE, powered: false };
    let steps = [Step::Fresh, Step::Ticks(1), Step::Ticks(1), off, Step::Ticks(2)];
    records.extend(run(&subtracting(), &steps).records);
    for least_rows in SHORT_RUNS {
        let mut cases = small_cases(seed, MOST_ROWS).filter(|case| case.rows() >= least_rows);
        let case = cases.next().expect("there are tables of every size");
        records.extend(run(&case, &short_steps(random, &case)).records);
    }
    records
}

/// Settling with the fresh devices and with any, each at so many of the limits.
fn settles(random: &mut Random, case: &Case, kept: usize) -> Vec<Record> {
    let oracle = Oracle::new(case);
    let mut records = Vec::new();
    let mut columns_of_devices = vec![fresh_devices(&oracle), any_devices(random, &oracle.rows)];
    columns_of_devices.dedup();
    for devices in columns_of_devices {
        let settle = |limit| settle(&oracle, &devices, limit);
        let rounds = number(&settle(LIMITS[0]));
        let mut limits = [&LIMITS[..], &[rounds, rounds - 1]].concat();
        random.keep(&mut limits, kept);
        for limit in limits {
            let input = Input::Settle { devices: devices.clone(), limit };
            records.push(record(case, &input, &settle(limit)));
        }
    }
    records
}

fn settle(oracle: &Oracle, devices: &[u8], limit: u32) -> Answer {
    let input = Input::Settle { devices: devices.to_vec(), limit };
    oracle.answer(&Call { input, columns: [oracle.rows.len(); 3] })
}

/// What a call on a case was asked and answered.
pub fn record(case: &Case, input: &Input, answer: &Answer) -> Record {
    let [table, state] = [TABLE, STATE].map(|buffer| answer.bytes(buffer));
    let with = |operation| Record::new(operation).slice(&case.profile).slice(&case.table);
    let record = match input {
        Input::Settle { devices, limit } => columns(with(10).slice(devices), answer).number(*limit),
        Input::Fresh { .. } => columns(with(11).slice(&state), answer),
        Input::Tick { state: before, tick, ticks } => {
            columns(with(12).slice(before).slice(&state), answer).number(*tick).number(*ticks)
        }
        Input::Switch { at, powered, .. } => {
            let record = columns(with(13).slice(&table).slice(&state), answer);
            record.position(*at).number((*powered).into())
        }
    };
    record.number(number(answer))
}

/// A run, and how many of its calls with ticks changed the state, and the light of a bulb.
struct Run {
    records: Vec<Record>,
    changes: usize,
    lights: usize,
}

/// The steps of a run, each from the table and state that the one before left.
fn run(case: &Case, steps: &[Step]) -> Run {
    let oracle = Oracle::new(case);
    let original = OriginalRun::new(&oracle);
    let (mut now, mut state, mut tick) = (case.clone(), Vec::new(), 0);
    let mut run = Run { records: Vec::new(), changes: 0, lights: 0 };
    for step in steps {
        let answer = original.answer(step);
        let next = answer.bytes(STATE);
        let input = match *step {
            Step::Fresh => Input::Fresh { state_bytes: next.len() },
            Step::Ticks(ticks) => {
                run.changes += usize::from(state != next);
                run.lights += usize::from(lights(&now, &state) != lights(&now, &next));
                Input::Tick { state, tick, ticks }
            }
            Step::Switch { at, powered } => Input::Switch { state, at, powered },
        };
        run.records.push(record(&now, &input, &answer));
        if let Step::Ticks(ticks) = step {
            tick += ticks;
        }
        (now.table, state) = (answer.bytes(TABLE), next);
    }
    run
}

/// The lights of the bulbs.
fn lights(case: &Case, state: &[u8]) -> Vec<u8> {
    let rows = case.table.chunks_exact(ROW_BYTES).zip(state.chunks_exact(STATE_BYTES));
    rows.filter(|(row, _)| row[12] == Kind::CopperBulb.code()).map(|(_, state)| state[2]).collect()
}

/// The signal, weak and strong columns.
fn columns(record: Record, answer: &Answer) -> Record {
    [SIGNAL, WEAK, STRONG].into_iter().fold(record, |record, column| record.slice(&answer.bytes(column)))
}

fn number(answer: &Answer) -> u32 {
    u32::try_from(answer.number).expect("an answer of the layout's width")
}

/// One, two, five and forty ticks in a call and none, and between them switches: a row's on and off, and one where there is no row.
fn steps(random: &mut Random, case: &Case) -> Vec<Step> {
    let (at, powered) = (switch_position(random, case), random.percent(50));
    let empty = empty_position(random, case);
    vec![
        Step::Fresh,
        Step::Ticks(1),
        Step::Ticks(2),
        Step::Switch { at, powered },
        Step::Ticks(5),
        Step::Switch { at: empty, powered },
        Step::Switch { at, powered: !powered },
        Step::Ticks(40),
        Step::Ticks(0),
    ]
}

fn short_steps(random: &mut Random, case: &Case) -> Vec<Step> {
    let (at, powered) = (switch_position(random, case), random.percent(50));
    vec![Step::Fresh, Step::Switch { at, powered }, Step::Ticks(5)]
}

/// The position of a switch if there is one, else of any row.
fn switch_position(random: &mut Random, case: &Case) -> Position {
    let rows = table::rows(&case.table);
    let mut switches: Vec<_> = rows.iter().filter(|row| is_switch(row)).collect();
    if switches.is_empty() {
        switches = rows.iter().collect();
    }
    random.pick(&switches).position()
}

/// A position beside a row that no row has.
fn empty_position(random: &mut Random, case: &Case) -> Position {
    let rows = table::rows(&case.table);
    let mut at = rows[random.below(rows.len())].position();
    while rows.iter().any(|row| row.position() == at) {
        at[1] += 1;
    }
    at
}

/// Tables that need several rounds with their fresh devices.
fn slow_cases(seed: u64) -> impl Iterator<Item = Case> {
    small_cases(seed, MOST_SETTLED_ROWS).filter(|case| {
        let oracle = Oracle::new(case);
        number(&settle(&oracle, &fresh_devices(&oracle), LIMITS[0])) >= LEAST_ROUNDS
    })
}

/// Small tables in which the fresh devices give a block other strong power by profile value 32 than without it.
fn charging_cases(seed: u64) -> impl Iterator<Item = Case> {
    let strong = |case: &Case| {
        let oracle = Oracle::new(case);
        settle(&oracle, &fresh_devices(&oracle), LIMITS[0]).bytes(STRONG)
    };
    small_cases(seed, MOST_RUN_ROWS)
        .filter(move |case| strong(case) != strong(&case.with_torch_charging(false)))
}

/// Runs of small tables with a switch.
fn switched_runs(seed: u64, random: &mut Random) -> impl Iterator<Item = Run> {
    let switched = |case: &Case| table::rows(&case.table).iter().any(is_switch);
    small_cases(seed, MOST_RUN_ROWS).filter(switched).map(|case| run(&case, &steps(random, &case)))
}

/// Test 5: a comparator at 15, and dust before it.
fn comparator() -> Case {
    let comparator = Row::new(Kind::Comparator, [0, 1, 0]).with_facing(Facing::East).with_power_level(15);
    Case::new("comparator", BENCH_PROFILE, [comparator, Row::new(Kind::RedstoneWire, [1, 1, 0])])
}

/// Where the plate of the next table stands.
const PLATE: Position = [1, 0, 2];

/// A comparator takes from a lever's level that of a plate, which another comparator leads to its side.
fn subtracting() -> Case {
    let comparator = |at, facing| Row::new(Kind::Comparator, at).with_facing(facing);
    let rows = [
        Row::new(Kind::Lever, [0, 0, 0]).with_powered(true).with_power_level(9),
        comparator([1, 0, 0], Facing::East).with_subtract(true),
        comparator([1, 0, 1], Facing::North),
        Row::new(Kind::PressurePlate, PLATE).with_powered(true).with_power_level(4),
        Row::new(Kind::RedstoneWire, [2, 0, 0]),
    ];
    Case::new("subtracting", BENCH_PROFILE, rows)
}

/// A lever puts out a torch, and so takes the charge from the block over it, which dust, a lamp, a repeater and another
/// torch read.
fn charged() -> Case {
    let rows = [
        Row::new(Kind::Solid, [0, 0, 0]),
        Row::new(Kind::Lever, [0, 1, 0]).with_support([0, -1, 0]),
        Row::new(Kind::RedstoneTorch, [1, 0, 0]).with_support([-1, 0, 0]),
        Row::new(Kind::Solid, [1, 1, 0]),
        Row::new(Kind::RedstoneWire, [1, 2, 0]),
        Row::new(Kind::RedstoneLamp, [2, 1, 0]),
        Row::new(Kind::Repeater, [1, 1, 1]).with_facing(Facing::South),
        Row::new(Kind::RedstoneTorch, [1, 1, -1]).with_support([0, 0, 1]),
    ];
    Case::new("charged", BENCH_PROFILE, rows)
}

/// A lever on a lamp, as for test 10.
fn lamp() -> Case {
    let lever = Row::new(Kind::Lever, [0, 1, 0]).with_powered(true).with_support([0, -1, 0]);
    Case::new("lamp", BENCH_PROFILE, [Row::new(Kind::RedstoneLamp, [0, 0, 0]), lever])
}

/// A lever on a bulb, beside it a bulb that is lit and a lamp, and a torch on it.
fn bulbs() -> Case {
    let rows = [
        Row::new(Kind::CopperBulb, [0, 0, 0]),
        Row::new(Kind::Lever, [0, 1, 0]).with_support([0, -1, 0]),
        Row::new(Kind::CopperBulb, [1, 0, 0]).with_powered(true),
        Row::new(Kind::RedstoneLamp, [0, 0, 1]),
        Row::new(Kind::RedstoneTorch, [-1, 0, 0]).with_support([1, 0, 0]),
    ];
    Case::new("bulbs", BENCH_PROFILE_WITH_BULB, rows)
}

/// A torch that its own dust puts out, and a bulb under that dust.
fn blinking() -> Case {
    let rows = [
        Row::new(Kind::Solid, [0, 0, 0]),
        Row::new(Kind::Solid, [0, 0, 1]),
        Row::new(Kind::RedstoneWire, [0, 1, 0]),
        Row::new(Kind::RedstoneWire, [0, 1, 1]),
        Row::new(Kind::CopperBulb, [1, -1, 1]),
        Row::new(Kind::RedstoneTorch, [1, 0, 0]).with_support([-1, 0, 0]),
        Row::new(Kind::RedstoneWire, [1, 0, 1]),
    ];
    Case::new("blinking", BENCH_PROFILE_WITH_BULB, rows)
}
