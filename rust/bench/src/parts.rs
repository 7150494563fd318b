//! The parts of what is printed: tables, and what is to be said of them.

use crate::settling::{Timing, counted};
use crate::timing::Calls;
use crate::{calls, clear, feeders, library, merge, month, settling, tables};

/// The parts, in the order in which they are printed.
pub const PARTS: [(&str, fn()); 6] = [
    ("settling", print_settling),
    ("look-ups", print_look_ups),
    ("month", print_month),
    ("merge", print_merge),
    ("clear", print_clear),
    ("feeders", print_feeders),
];

/// The calls that settle: the tables, the times of each call on each, and those of settle in single calls and by the number of
/// rows.
fn print_settling() {
    let before = library::Before::named();
    let (tables, sizes) = (tables::tables(), tables::sizes());
    for case in tables.iter().chain(&sizes).flat_map(|timed| &timed.cases) {
        settling::assert_sides_agree(case);
        before.iter().for_each(|before| settling::assert_before_agrees(before, case));
    }
    println!("| table | rows | dust | rounds |");
    println!("|---|---:|---:|---:|");
    for timed in &tables {
        let [rows, dust, rounds] = timed.size();
        println!("| {} | {} | {} | {rounds} |", timed.name, counted(rows), counted(dust));
    }
    println!("\nOf 64 tables by turns, dust and rounds are those of the first.");
    println!("\n{}", settling::heading("| table | call ", before.is_some()));
    for timed in &tables {
        for (call, timing) in settling::TIMINGS {
            let times = settling::times(timed, timing, before.as_ref(), Calls::Own);
            println!("| {} | {call} {times}", timed.name);
        }
    }
    println!("\n{NOTES_ON_SETTLING}");
    println!("\n{}", settling::heading("| table ", before.is_some()));
    for timed in tables::settled_singly() {
        println!("| {} {}", timed.name, settling::times(&timed, Timing::Settle, before.as_ref(), Calls::One));
    }
    println!("\n{NOTES_ON_SINGLE_CALLS}");
    println!("\n{}", settling::heading("| kind | rows | dust ", before.is_some()));
    for timed in &sizes {
        let [rows, dust, _] = timed.size();
        let times = settling::times(timed, Timing::Settle, before.as_ref(), Calls::Own);
        println!("| {} | {} | {} {times}", timed.name, counted(rows), counted(dust));
    }
}

fn print_look_ups() {
    println!("\n| table | call | original | proved | original / proved | runs |");
    println!("|---|---|---:|---:|---:|---:|");
    for case in calls::cases() {
        calls::assert_sides_agree(&case);
        for (call, medians) in calls::medians_of_look_ups(&case) {
            println!("| {} | {call} | {medians} |", case.sort);
        }
    }
    println!("\n{NOTES_ON_LOOK_UPS}");
}

/// The program `month` beside the original and, where MONTH_BEFORE names one, beside a program of before.
fn print_month() {
    let program = &differential::program::find("month").unwrap_or_else(|sentence| {
        eprintln!("{sentence}");
        std::process::exit(1)
    });
    println!(
        "\n| table | tables in a stream | original, tables a second | `month`, tables a second | `month` / original | runs |"
    );
    println!("|---|---:|---:|---:|---:|---:|");
    for (case, tables) in month::streams() {
        month::assert_sides_agree(program, &case, tables);
        let rates = month::medians_of_streams(program, &case, tables).rates(tables);
        println!("| {} | {tables} | {rates} |", case.sort);
    }
    println!("\n{NOTES_ON_MONTH}");
    if let Some(before) = std::env::var_os("MONTH_BEFORE") {
        println!("\n| table | tables in a stream | before | now | before / now | runs |");
        println!("|---|---:|---:|---:|---:|---:|");
        for (case, tables) in month::long_streams() {
            println!(
                "| {} | {tables} | {} |",
                case.sort,
                month::medians_of_programs(&before, program, &case, tables)
            );
        }
    }
}

fn print_merge() {
    println!("\n| tables | ordered map | proved | ordered map / proved | runs |");
    println!("|---|---:|---:|---:|---:|");
    for (tables, merge) in merge::calls() {
        merge::assert_sides_agree(&merge);
        println!("| {tables} | {} |", merge::medians_of(&merge));
    }
    println!("\n{NOTES_ON_MERGE}");
}

fn print_clear() {
    println!("\n| table | original | proved | original / proved | runs |");
    println!("|---|---:|---:|---:|---:|");
    for case in clear::cases() {
        clear::assert_sides_agree(&case);
        println!("| {} | {} |", case.sort, clear::medians_of(&case));
    }
    println!("\n{NOTES_ON_CLEAR}");
}

/// The list of what feeds dust, and then the same kept up.
fn print_feeders() {
    println!("\n| table | the original is asked | original | proved | original / proved | runs |");
    println!("|---|---|---:|---:|---:|---:|");
    for case in calls::cases() {
        feeders::assert_sides_agree(&case);
        for (asked, medians) in feeders::medians_of_lists(&case) {
            println!("| {} | {asked} | {medians} |", case.sort);
        }
    }
    println!("\n{NOTES_ON_LISTS}");
    println!("\n| table | list anew | list kept up | anew / kept up | runs |");
    println!("|---|---:|---:|---:|---:|");
    for case in calls::cases().filter(|case| case.rows() > 0) {
        println!("| {} | {} |", case.sort, feeders::medians_of_replacements(&case));
    }
    println!("\n{NOTES_ON_REPLACEMENTS}");
}

const NOTES_ON_SETTLING: &str = "\
Each figure is the median time of one call in microseconds, and a ratio above 1 says that the call is faster now. All sides
were built in release and run by turns in one process; a run is one call, or as many as take some 200 µs. Buffers were not
cleared between runs: each call wrote over what the one before had left. All sides gave the same answers before they were
timed.

- settle: the fresh devices and limit 128, beside `solve_instantaneous` and beside the call that settles round by round.
- fresh: beside `RedstoneTickSimulator::new`. The copy of the world that it takes is made before the clock starts.
- switch: on and off by turns, beside `set_powered`.
- tick: one tick after the other, beside `advance_tick`. The proved call keeps no levels between calls, so it settles
  before each tick and after it.
- 200 ticks, each: a call of 200 ticks, whose time is divided by them, beside one `advance_tick`.";

const NOTES_ON_SINGLE_CALLS: &str = "\
Settle, as above, but for the runs: each is one call, so that every call comes after the other sides' and finds the caches and
the branch predictor as they leave them.";

const NOTES_ON_LOOK_UPS: &str = "\
- look-up: each row's position in turn, beside `World::get`.
- look-up, nothing there: the first empty cell to the South of each row in turn. The proved search ends at the first row
  past it.";

const NOTES_ON_MONTH: &str = "\
Each figure is the number of tables in a stream, divided by the median time of the whole stream. `month` read it from a
pipe, and its time is from its start to its end, with the reading and the checks. The original ran by turns with it, in a
loop that took the fresh devices, settled and counted, over a world that was made before the clock started. Both gave the
same figures before they were timed.";

const NOTES_ON_MERGE: &str = "\
Each figure is the median time of one call, by turns with the other side in one process. The ordered map is a `BTreeMap` of
Rust, into which each row of both tables is put at its position, and out of which the rows are written in order. It tells a
clash, and tests nothing else; the proved call tests every row of both tables, too. Both wrote the same bytes before they
were timed.";

const NOTES_ON_CLEAR: &str = "\
Each figure is the median time of one call, by turns with the other side in one process. The original is its `support_issues`
on a world, the removal of the blocks that it names, and both again until it names none; the copy of the world that they are
removed from is made before the clock starts. The proved call tests the profile and every row, and writes the kept rows and
the passes, too. The support of each row that needs one is looked up once, from the first row on, as in the look-ups above.
Then each pass goes over all rows, and a last one finds none that goes: a tower that falls is gone over 1,025 times. Both
named the same rows in the same passes before they were timed.";

const NOTES_ON_LISTS: &str = "\
Each figure is the median time of one list, by turns with the other side in one process. The original has no list. In its
place stand its `dust_transmits` of every two rows, and of the dust at the twelve positions around each dust, as it asks
where it settles; its world is made before the clock starts. The proved call asks the twelve positions, too, and reads them
off the columns that settling prepares, which it prepares first. It also tests the profile and every row. Both gave the same
lists before they were timed.";

const NOTES_ON_REPLACEMENTS: &str = "\
Each figure is the median time of one replacement, by turns with the other way in one process: a dust in the middle becomes
a solid block, then dust again. Anew the row is written to the table and the list is built by the proved call. Kept up, the
other proved call does both. Both calls test the profile and every row. At the end the tables and the lists were the same.";
