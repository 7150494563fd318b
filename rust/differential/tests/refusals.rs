//! Refusals 1 to 5, and 10 on rows, on accepted and damaged tables.

use differential::checks::{ALTERATIONS, compare_case};
use differential::generate::{self, BENCH_PROFILE, Case};
use differential::probe::probe_check;
use differential::suite::{assert_agrees, assert_alterations_reported, good_cases, with_damaged};
use redstone::{Kind, Row};

#[test]
fn refusals_agree_with_document_01() {
    assert_agrees("refusals", with_damaged(good_cases(100_000)), compare_case);
}

#[test]
fn every_byte_of_a_small_table_set_to_every_value() {
    let small = |seed: &Case| (1..=96).contains(&seed.table.len());
    let cases = (0..).map(generate::case).filter(small).take(20);
    assert_agrees("single bytes", cases.flat_map(|case| single_bytes(&case)), compare_case);
}

fn single_bytes(case: &Case) -> Vec<Case> {
    let change = |at: usize, value: u8| {
        let mut changed = case.clone();
        changed.sort = "one byte set";
        match at.checked_sub(changed.profile.len()) {
            Some(at) => changed.table[at] = value,
            None => changed.profile[at] = value,
        }
        changed
    };
    let bytes = 0..case.profile.len() + case.table.len();
    bytes
        .flat_map(|at| (0..=255).map(move |value| (at, value)))
        .map(|(at, value)| change(at, value))
        .collect()
}

/// Test 11 of the book.
#[test]
fn the_farthest_coordinate_and_the_most_rows_pass() {
    let solid = |x| Row::new(Kind::Solid, [x, 0, 0]);
    let check = |rows: Vec<Row>| probe_check(&BENCH_PROFILE, &redstone::table(rows));
    assert_eq!(check(vec![solid(1_000_000)]), 0);
    assert_eq!(check(vec![solid(1_000_001)]), 4 * 65_536);
    assert_eq!(check((0..1_024).map(solid).collect()), 0);
    assert_eq!(check((0..1_025).map(solid).collect()), 3 * 65_536);
}

#[test]
fn altered_refusals_are_reported() {
    assert_alterations_reported(&ALTERATIONS, compare_case);
}
