//! Look-ups on rows in any order, against document 02's Change 2.

use differential::compare::{Query, compare, run};
use differential::disorder::{self, small_cases};
use differential::generate::Case;
use differential::look_up::{
    Find, LookUp, MISREADINGS, MISREADINGS_AT_THE_ENDS, Misreading, Reading, first_at_or_past,
    first_that_stands, queries, small_queries,
};
use differential::probe::Probe;
use differential::refusals::check;
use differential::suite::{assert_compared, good_cases, seeds, with_damaged};
use differential::table::positions;

const TABLES: u64 = 30_000;
const DAMAGED_TABLES: u64 = 40_000;

fn cases() -> impl Iterator<Item = Case> {
    seeds(TABLES).map(disorder::case)
}

fn refused_cases() -> impl Iterator<Item = Case> {
    with_damaged(good_cases(DAMAGED_TABLES)).filter(|case| check(&case.profile, &case.table).is_err())
}

fn in_order(case: &Case) -> bool {
    positions(&case.table).is_sorted()
}

type Queries = fn(&Case) -> Vec<LookUp>;

/// Holds the proved functions to a reading, and prints how much was compared.
fn assert_reads(title: &str, cases: impl Iterator<Item = Case>, queries: Queries, find: Find) {
    let compared =
        run(cases, |case, tally| compare(queries(case), &Reading::new(case, find), &Probe(case), tally));
    assert_compared(&format!("look-up, {title}"), compared);
}

#[test]
fn small_tables_in_every_order_agree_with_document_02() {
    assert_reads("small tables in every order", small_cases(), small_queries, first_at_or_past);
}

#[test]
fn tables_in_any_order_agree_with_document_02() {
    assert_reads("tables in any order", cases(), queries, first_at_or_past);
}

#[test]
fn refused_tables_agree_with_document_02() {
    assert_reads("refused tables", refused_cases(), queries, first_at_or_past);
}

/// Of the tables above, those in order: there the search before Change 2 gives the same answers.
#[test]
fn on_rows_in_order_the_answers_are_as_before() {
    assert_reads("small tables in order", small_cases().filter(in_order), small_queries, first_that_stands);
    assert_reads("tables in order", cases().filter(in_order), queries, first_that_stands);
    assert_reads("refused tables in order", refused_cases().filter(in_order), queries, first_that_stands);
}

/// The functions that are look-ups, and those over look-ups.
const LOOK_UPS: [&str; 2] = ["find", "kind_at"];
const OVER_LOOK_UPS: [&str; 6] = [
    "port",
    "port_coordinate",
    "component_connects",
    "infer_wire_connection",
    "resolved_wire_connection",
    "dust_transfer",
];

/// Tables on which a misreading must show.
const MISREAD_TABLES: u64 = 5_000;

fn misread_cases() -> impl Iterator<Item = Case> {
    (0..MISREAD_TABLES).map(disorder::case)
}

/// The function that is reported where it is misread.
fn reported(
    cases: impl Iterator<Item = Case>,
    queries: Queries,
    function: &str,
    misreading: &Misreading,
) -> Option<&'static str> {
    let compared = run(cases, |case, tally| {
        let asked = queries(case).into_iter().filter(|query| query.function() == function);
        compare(asked, &Reading::new(case, first_at_or_past), &Reading::new(case, misreading.find), tally)
    });
    compared.err().map(|report| report.mismatch.function)
}

fn each_of<'a>(
    misreadings: &'a [Misreading],
    functions: &'a [&'static str],
) -> impl Iterator<Item = (&'a Misreading, &'static str)> {
    misreadings.iter().flat_map(|misreading| functions.iter().map(move |function| (misreading, *function)))
}

/// The misreading is reported on the tables, and on those of them in order if it shows there.
fn assert_reported<I: Iterator<Item = Case>>(
    cases: impl Fn() -> I,
    queries: Queries,
    function: &'static str,
    misreading: &Misreading,
) {
    let shown = reported(cases(), queries, function, misreading);
    assert_eq!(shown, Some(function), "{}", misreading.what);
    let shown = reported(cases().filter(in_order), queries, function, misreading);
    assert_eq!(shown, misreading.in_order.then_some(function), "in order: {}", misreading.what);
}

#[test]
fn misreadings_are_reported_on_small_tables() {
    for (misreading, function) in each_of(&MISREADINGS, &LOOK_UPS) {
        assert_reported(small_cases, small_queries, function, misreading);
    }
}

#[test]
fn misreadings_are_reported_on_tables_in_any_order() {
    let of_look_ups = each_of(&MISREADINGS, &LOOK_UPS).chain(each_of(&MISREADINGS_AT_THE_ENDS, &LOOK_UPS));
    for (misreading, function) in of_look_ups {
        assert_reported(misread_cases, queries, function, misreading);
    }
}

/// Of the misreadings those that do not show on rows in order.
#[test]
fn misread_functions_over_look_ups_are_reported() {
    let out_of_order = each_of(&MISREADINGS, &OVER_LOOK_UPS).filter(|(misreading, _)| !misreading.in_order);
    for (misreading, function) in out_of_order {
        let shown = reported(misread_cases(), queries, function, misreading);
        assert_eq!(shown, Some(function), "{}", misreading.what);
    }
}

#[cfg(no_original)]
#[test]
fn the_original_was_not_found() {
    differential::suite::say_original_not_found("look-up, the original on the rows found");
}

#[cfg(not(no_original))]
mod original {
    use differential::compare::{Report, Tally};
    use differential::look_up::{BY_POSITION, compare_with_original, has_world};

    use super::*;

    fn with_original(
        cases: impl Iterator<Item = Case>,
        find: Find,
        functions: &[&str],
    ) -> Result<Tally, Box<Report>> {
        run(cases.filter(has_world), |case, tally| compare_with_original(case, find, functions, tally))
    }

    #[test]
    fn rows_found_in_any_order_agree_with_the_original() {
        let compared = with_original(cases(), first_at_or_past, &BY_POSITION);
        assert_compared("look-up, the original on the rows found", compared);
    }

    #[test]
    fn a_search_that_runs_on_is_reported_by_the_original() {
        for function in BY_POSITION {
            let report = with_original(misread_cases(), first_that_stands, &[function]).err();
            assert_eq!(report.map(|report| report.mismatch.function), Some(function));
        }
    }
}
