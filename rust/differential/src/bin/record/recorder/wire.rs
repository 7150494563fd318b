//! Operations 7 to 9: arms, transfers and the redrawn table.

use std::collections::BTreeMap;

use differential::compare::{Answer, Answers};
use differential::generate::{BENCH_PROFILE, Case};
use differential::oracle::Oracle;
use differential::table::{self, Position};
use differential::wire::{self, WireQuery};
use redstone::{Kind, Row, Shape};

use super::record::Record;
use super::small_cases;

/// Each record has its table with it, so these are small tables.
const MOST_ROWS: usize = 8;

/// An arm is one of three as it is inferred, and as it is resolved; of each pair this many are kept.
const PAIRS_OF_ARMS: usize = 9;
const ARMS_KEPT: usize = 2;

/// There are three transfers, and none.
const TRANSFERS: usize = 4;
const TRANSFERS_KEPT: usize = 3;

const REDRAWN_TABLES: usize = 8;

pub fn records(seed: u64) -> Vec<Record> {
    let cases = || small_cases(seed, MOST_ROWS);
    let mut records = first_of_each(PAIRS_OF_ARMS, ARMS_KEPT, cases().flat_map(|case| arms(&case)));
    records.extend(rises());
    records.extend(first_of_each(TRANSFERS, TRANSFERS_KEPT, cases().flat_map(|case| transfers(&case))));
    let redrawn = |case: &Case| ask(case, &WireQuery::Redraw).bytes(0) != case.table;
    records.extend(cases().filter(redrawn).take(REDRAWN_TABLES).map(|case| redraw(&case)));
    records
}

/// So many records for each of so many answers.
fn first_of_each<A: Ord>(
    answers: usize,
    kept: usize,
    records: impl Iterator<Item = (A, Record)>,
) -> Vec<Record> {
    let mut counts = BTreeMap::<A, usize>::new();
    let first = |(answer, record)| {
        let count = counts.entry(answer).or_default();
        *count += 1;
        (*count <= kept).then_some(record)
    };
    records.filter_map(first).take(answers * kept).collect()
}

fn ask(case: &Case, query: &WireQuery) -> Answer {
    Oracle::new(case).answer(query)
}

fn number(case: &Case, query: &WireQuery) -> u8 {
    u8::try_from(ask(case, query).number).expect("an answer of the layout's width")
}

/// Every arm of every dust, with the numbers recorded of it.
fn arms(case: &Case) -> Vec<([u8; 2], Record)> {
    let arm = |(at, facing): (Position, u8)| {
        let asked = [WireQuery::Infer(at, facing.into()), WireQuery::Resolved(at, facing.into())];
        let numbers = asked.map(|query| number(case, &query));
        let record = Record::new(7).slice(&case.profile).slice(&case.table);
        (numbers, record.position(at).bytes(&[facing]).bytes(&numbers))
    };
    dusts(case).into_iter().flat_map(|at| (1..=4).map(move |facing| (at, facing))).map(arm).collect()
}

/// The transfers that the differential run asks for, with the number recorded of each.
fn transfers(case: &Case) -> Vec<(u8, Record)> {
    let asked = |query| match query {
        WireQuery::Transfer(source, sink) => Some(transfer(case, source, sink)),
        _ => None,
    };
    wire::queries(case).into_iter().filter_map(asked).collect()
}

fn transfer(case: &Case, source: Position, sink: Position) -> (u8, Record) {
    let number = number(case, &WireQuery::Transfer(source, sink));
    let record = Record::new(8).slice(&case.profile).slice(&case.table);
    (number, record.position(source).position(sink).bytes(&[number]))
}

/// The redrawn table.
pub fn redraw(case: &Case) -> Record {
    let answer = ask(case, &WireQuery::Redraw);
    let code = u32::try_from(answer.number).expect("an answer of the layout's width");
    Record::new(9).slice(&case.profile).slice(&case.table).slice(&answer.bytes(0)).number(code)
}

fn dusts(case: &Case) -> Vec<Position> {
    let rows = table::rows(&case.table);
    rows.iter().filter(|row| row.kind() == Kind::RedstoneWire).map(Row::position).collect()
}

/// Test 6 of document 01: a dust, a block beside it, a top slab or plain, and a dust on that; upward and downward.
fn rises() -> impl Iterator<Item = Record> {
    let [below, above] = [[0, 1, 0], [1, 2, 0]];
    [Shape::TopSlab, Shape::Plain].into_iter().flat_map(move |shape| {
        let rows = [
            Row::new(Kind::RedstoneWire, below),
            Row::new(Kind::Solid, [1, 1, 0]).with_shape(shape),
            Row::new(Kind::RedstoneWire, above),
        ];
        let case = Case::new("rise", BENCH_PROFILE, rows);
        [transfer(&case, below, above).1, transfer(&case, above, below).1]
    })
}
