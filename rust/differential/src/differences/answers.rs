//! A bench's answers held against those that are written.

use redstone::{Kind, Row, STATE_BYTES};
use redstone_text::{Step, arms_text, position_text};

use super::Fault;
use super::bench::{Bench, Settled};
use super::document::{Example, Shown, Sort, Turn, Written};
use crate::report;
use crate::table::{self, Position};

/// Puts a table through a bench, once for each block of answers, up to the first line that differs.
pub fn check<B: Bench>(example: &Example, bench: impl Fn() -> B) -> Result<(), Fault> {
    let answers = |written| answers(written, &example.table.rows, bench());
    let check = |written| answers(written).map_or(Ok(()), |answers| compare(written, &answers));
    example.answers.iter().try_for_each(check)
}

fn compare(written: &Written, answers: &[String]) -> Result<(), Fault> {
    let mut pairs = written.lines.iter().zip(answers);
    let first = pairs.find(|(line, answer)| line.text != *answer).map(|(line, _)| *line);
    let uneven = (written.lines.len() != answers.len()).then_some(written.word);
    match first.or(uneven) {
        Some(line) => Err(Fault::at(line, format!("the block is to be\n{}", answers.join("\n")))),
        None => Ok(()),
    }
}

/// The lines that a block is to have, if the bench can say.
fn answers(written: &Written, rows: &[Row], mut bench: impl Bench) -> Option<Vec<String>> {
    Some(match (&written.sort, bench.fresh()) {
        (Sort::Original, _) => lines(&output(rows, &bench.unrefused()?)),
        (_, Err(refusal)) => lines(&report::refused(refusal)),
        (Sort::Output, Ok(fresh)) => lines(&output(rows, &fresh)),
        (Sort::Run(turns), Ok(fresh)) => run(turns, rows, fresh, bench),
        (Sort::Redrawn, Ok(_)) => redrawn(&bench.redrawn()),
        (Sort::Unsupported, Ok(_)) => unsupported(rows, &bench.unsupported()),
        (Sort::Cleared, Ok(_)) => cleared(rows, &bench.passes()),
    })
}

fn lines(text: &str) -> Vec<String> {
    text.lines().map(str::to_owned).collect()
}

fn output(rows: &[Row], settled: &Settled) -> String {
    let numbers: Vec<_> = (0..rows.len()).map(|row| numbers(rows, settled, row)).collect();
    report::settled(settled.rounds, &numbers)
}

fn numbers(rows: &[Row], settled: &Settled, row: usize) -> (Position, [u8; 3]) {
    (rows[row].position(), settled.columns.each_ref().map(|column| column[row]))
}

/// What is done stands as it is printed, what is shown as the bench has it.
fn run(turns: &[Turn], rows: &[Row], mut settled: Settled, mut bench: impl Bench) -> Vec<String> {
    let answer = |turn: &Turn| match *turn {
        Turn::Done(step) => {
            settled = match step {
                Step::Tick(ticks) => bench.tick(ticks),
                Step::Switch { position, powered } => bench.switch(position, powered),
            };
            step.to_string()
        }
        Turn::Shown(what, row) => shown(what, rows, &settled, row),
    };
    turns.iter().map(answer).collect()
}

fn shown(what: Shown, rows: &[Row], settled: &Settled, row: usize) -> String {
    let state = |word: &str, byte: usize| {
        let at = position_text(rows[row].position());
        format!("{word}={at},{}", settled.state[STATE_BYTES * row + byte])
    };
    match what {
        Shown::Row => report::row(&numbers(rows, settled, row)),
        Shown::Device => state("device", 0),
        Shown::Lamp => state("lamp", 2),
        Shown::Candidate => state("candidate", 8),
        Shown::HadPower => state("had_power", 9),
    }
}

fn redrawn(table: &[u8]) -> Vec<String> {
    let dust = table::rows(table).into_iter().filter(|row| row.kind() == Kind::RedstoneWire);
    let line = |row: Row| {
        let arms = row.arms().expect("the redraw stores arms");
        format!("arms={},{}", position_text(row.position()), arms_text(arms))
    };
    dust.map(line).collect()
}

fn unsupported(rows: &[Row], listed: &[usize]) -> Vec<String> {
    let at = |row: &usize| position_text(rows[*row].position());
    named("unsupported", listed.iter().map(at).collect())
}

fn cleared(rows: &[Row], passes: &[u16]) -> Vec<String> {
    let gone = rows.iter().zip(passes).filter(|(_, pass)| **pass > 0);
    let at = |(row, pass): (&Row, &u16)| format!("{},{pass}", position_text(row.position()));
    named("cleared", gone.map(at).collect())
}

/// A line for each, or one that says that there is none.
fn named(word: &str, mut each: Vec<String>) -> Vec<String> {
    if each.is_empty() {
        each.push("none".to_owned());
    }
    each.iter().map(|what| format!("{word}={what}")).collect()
}
