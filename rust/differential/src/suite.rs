//! What the tests of all areas share.

use std::cell::Cell;
use std::collections::BTreeSet;
use std::env;
use std::io::Write;
use std::ops::Range;
use std::panic::{UnwindSafe, catch_unwind, set_hook, take_hook};
use std::sync::Once;

use crate::compare::{Alteration, Altered, Answers, Compared, Query, Report, Tally, run};
use crate::damage::damaged;
use crate::generate::{self, Case};
use crate::probe::Probe;
use crate::random::Random;

/// This many seeds or DIFF_TABLES, from 0 or DIFF_SEED on.
pub fn seeds(tables: u64) -> Range<u64> {
    from_the_first(setting("DIFF_TABLES", tables))
}

/// The same, where fewer than this many would not do.
pub fn at_least_seeds(tables: u64) -> Range<u64> {
    from_the_first(setting("DIFF_TABLES", tables).max(tables))
}

/// The accepted tables of these seeds.
pub fn good_cases(tables: u64) -> impl Iterator<Item = Case> {
    seeds(tables).map(generate::case)
}

/// The accepted tables of these.
pub fn at_least_good_cases(tables: u64) -> impl Iterator<Item = Case> {
    at_least_seeds(tables).map(generate::case)
}

fn from_the_first(tables: u64) -> Range<u64> {
    let first = setting("DIFF_SEED", 0);
    first..first + tables
}

pub fn setting(name: &str, otherwise: u64) -> u64 {
    let Ok(value) = env::var(name) else {
        return otherwise;
    };
    value.parse().unwrap_or_else(|_| panic!("{name} is to be a whole number, and is {value:?}"))
}

/// Each of these cases followed by a damaged copy.
pub fn with_damaged(cases: impl Iterator<Item = Case>) -> impl Iterator<Item = Case> {
    cases.flat_map(|case| {
        let damaged = damaged(&case, &mut Random::new(!case.seed));
        [case, damaged]
    })
}

/// An area's comparison of one case: what is expected against the given side.
pub type CompareCase<Q> = fn(&Case, &dyn Answers<Q>, &mut Tally) -> Compared;

/// Holds the proved functions of an area to what is expected, and prints how much was compared.
pub fn assert_agrees<Q>(title: &str, cases: impl Iterator<Item = Case>, compare_case: CompareCase<Q>)
where
    for<'a> Probe<'a>: Answers<Q>,
{
    assert_compared(title, compare_probe(cases, compare_case));
}

/// Prints how much was compared, where all of it agreed.
pub fn assert_compared(title: &str, compared: Result<Tally, Box<Report>>) -> Tally {
    let tally = compared.unwrap_or_else(|report| panic!("{title}: {report}"));
    tally.print(title);
    tally
}

/// Prints past the test harness, which holds back what a passing test prints.
pub fn print(text: &str) {
    writeln!(std::io::stdout(), "\n{}", text.trim_end()).expect("standard output can be written");
}

/// Accepted and damaged tables, until as many comparisons as `wanted` are made of them.
pub fn compare_many<Q>(wanted: u64, compare_case: CompareCase<Q>) -> Result<Tally, Box<Report>>
where
    for<'a> Probe<'a>: Answers<Q>,
{
    let made = Cell::new(0);
    let cases = with_damaged((setting("DIFF_SEED", 0)..).map(generate::case));
    run(cases.take_while(|_| made.get() < wanted), |case, tally| {
        let compared = compare_case(case, &Probe(case), tally);
        made.set(tally.all_comparisons());
        compared
    })
}

fn compare_probe<Q>(
    cases: impl Iterator<Item = Case>,
    compare_case: CompareCase<Q>,
) -> Result<Tally, Box<Report>>
where
    for<'a> Probe<'a>: Answers<Q>,
{
    run(cases, |case, tally| compare_case(case, &Probe(case), tally))
}

/// Tables on which an alteration must show, and tables on which each function of an area must be compared.
const ALTERED_TABLES: u64 = 5_000;
const COVERING_TABLES: u64 = 50;

/// Asserts that each alteration is reported, and that there is one for each function of the area.
pub fn assert_alterations_reported<Q: Query>(alterations: &[Alteration<Q>], compare_case: CompareCase<Q>)
where
    for<'a> Probe<'a>: Answers<Q>,
{
    let cases = |tables| with_damaged((0..tables).map(generate::case));
    for alteration in alterations {
        let altered = |case: &Case, tally: &mut Tally| {
            let side = Probe(case);
            compare_case(case, &Altered { side, case, alteration }, tally)
        };
        let Alteration { function, what, .. } = alteration;
        match run(cases(ALTERED_TABLES), altered) {
            Ok(_) => panic!("{function}: it was not reported that {what}"),
            Err(report) => assert_eq!(report.mismatch.function, *function, "{report}"),
        }
    }
    let compared = compare_probe(cases(COVERING_TABLES), compare_case);
    let compared = compared.unwrap_or_else(|report| panic!("{report}")).comparisons;
    let altered: BTreeSet<_> = alterations.iter().map(|one| one.function).collect();
    assert!(compared.keys().eq(&altered), "compared {compared:?}, altered {altered:?}");
}

thread_local! {
    static PANIC_EXPECTED: Cell<bool> = const { Cell::new(false) };
}

/// Whether a call panics. Nothing is printed of it.
pub fn panics<T>(call: impl FnOnce() -> T + UnwindSafe) -> bool {
    static HOOK: Once = Once::new();
    HOOK.call_once(|| {
        let print = take_hook();
        set_hook(Box::new(move |panic| {
            if !PANIC_EXPECTED.get() {
                print(panic);
            }
        }));
    });
    PANIC_EXPECTED.set(true);
    let panicked = catch_unwind(call).is_err();
    PANIC_EXPECTED.set(false);
    panicked
}

/// Stands in for an area's tests where there is nothing to compare with.
#[cfg(no_original)]
pub fn say_original_not_found(area: &str) {
    let text = "the original was not found (rust/original/build.rs says where it is looked for), \
                so nothing was compared with it: only the recorded answers are replayed.";
    print(&format!("{area}: {text}"));
}
