//! The timing chart of a run in SVG.

use std::fmt::Write;
use std::ops::Range;

use crate::device::States;
use crate::expect::Met;
use crate::run::{Lane, Outlook, Run};

/// The width of a tick and the height of a line.
const TICK: usize = 20;
const LINE: usize = 34;
const TOP: usize = 24;
/// The heights, in a line, of off and of on.
const LOW: usize = 28;
const HIGH: usize = 11;
/// The height, in a line, on which words stand.
const WORDS: usize = 24;
/// The width of a letter of a label, and of what stands behind the ticks.
const LETTER: usize = 7;
const BEHIND: usize = 70;
/// The most lines of a chart, so that it fits on a sheet of paper.
const LANES_ON_A_SHEET: usize = 24;
/// The most ticks that stand side by side.
const TICKS_SIDE_BY_SIDE: usize = 40;

/// The chart, in parts that are not too wide.
pub fn charts(run: &Run, met: &[Met]) -> String {
    let lanes = run.lanes();
    if lanes.is_empty() {
        return "<p>There is no repeater, torch, comparator, lamp or bulb.</p>\n".to_owned();
    }
    let mut text = String::new();
    for first in (0..run.frames.len()).step_by(TICKS_SIDE_BY_SIDE) {
        let ticks = first..run.frames.len().min(first + TICKS_SIDE_BY_SIDE);
        for lanes in lanes.chunks(LANES_ON_A_SHEET) {
            text += &chart(run, lanes, met, ticks.clone());
        }
    }
    text
}

fn chart(run: &Run, lanes: &[Lane], met: &[Met], ticks: Range<usize>) -> String {
    let left = 10 + LETTER * lanes.iter().map(|lane| lane.label.len()).max().unwrap_or(0);
    let (width, height) = (left + TICK * ticks.len() + BEHIND, TOP + LINE * lanes.len() + 4);
    let (first, last) = (ticks.start, ticks.end - 1);
    let mut text = format!(
        "<figure><svg class=\"chart\" xmlns=\"http://www.w3.org/2000/svg\" width=\"{width}\" height=\"{height}\" \
         viewBox=\"0 0 {width} {height}\" role=\"img\" aria-label=\"ticks {first} to {last}\">\n"
    );
    background(&mut text, run, left, height, &ticks);
    for (line, lane) in lanes.iter().enumerate() {
        draw(&mut text, lane, left, TOP + LINE * line, &ticks);
        for met in met.iter().filter(|met| met.expectation.position() == Some(run.rows[lane.row].position()))
        {
            mark(&mut text, met, left, TOP + LINE * line, &ticks);
        }
    }
    text + "</svg></figure>\n"
}

/// The numbers of the ticks, a line at every fifth, and a shade over the ticks of which the rest is made.
fn background(text: &mut String, run: &Run, left: usize, height: usize, ticks: &Range<usize>) {
    let from = match run.outlook {
        Outlook::Still { from } => Some((from as usize, "still")),
        Outlook::Cycle { from, .. } => Some((from as usize, "cycle")),
        Outlook::Open => None,
    };
    if let Some((from, class)) = from.filter(|(from, _)| *from < ticks.end) {
        let begin = from.max(ticks.start) - ticks.start;
        let (x, wide) = (left + TICK * begin, TICK * (ticks.len() - begin));
        let _ = writeln!(
            text,
            "<rect class=\"{class}\" x=\"{x}\" y=\"{TOP}\" width=\"{wide}\" height=\"{}\"/>",
            height - TOP
        );
    }
    for tick in ticks.clone() {
        let x = left + TICK * (tick - ticks.start);
        let class = if tick.is_multiple_of(5) { "fifth" } else { "one" };
        let _ = writeln!(text, "<path class=\"{class}\" d=\"M{x} {TOP}V{height}\"/>");
        if tick.is_multiple_of(5) {
            let _ =
                writeln!(text, "<text class=\"tick\" x=\"{}\" y=\"{}\">{tick}</text>", x + TICK / 2, TOP - 8);
        }
    }
}

fn draw(text: &mut String, lane: &Lane, left: usize, top: usize, ticks: &Range<usize>) {
    let values = ticks.clone().map(|tick| lane.values[tick].to_string()).collect::<Vec<_>>().join(",");
    let class = if lane.blinks { "lane blinks" } else { "lane" };
    let _ = write!(text, "<g class=\"{class}\" data-lane=\"{}\" data-values=\"{values}\">", lane.label);
    let _ =
        write!(text, "<text class=\"label\" x=\"{}\" y=\"{}\">{}</text>", left - 8, top + WORDS, lane.label);
    let height = |tick: usize| LOW - (LOW - HIGH) * share(lane, tick) / 15;
    let x = |tick: usize| left + TICK * (tick - ticks.start);
    // The spans of ticks over which the value stays.
    let mut spans = Vec::new();
    for tick in ticks.clone() {
        if tick == ticks.start || lane.changes_at(tick) {
            spans.push(tick..tick + 1);
        } else if let Some(span) = spans.last_mut() {
            span.end = tick + 1;
        }
    }
    for span in spans.iter().filter(|span| lane.values[span.start] > 0) {
        let (x, y, wide) = (x(span.start), top + height(span.start), TICK * span.len());
        let _ = write!(
            text,
            "<rect class=\"on\" x=\"{x}\" y=\"{y}\" width=\"{wide}\" height=\"{}\"/>",
            top + LOW - y
        );
    }
    let mut path = format!("M{} {}", x(ticks.start), top + height(ticks.start));
    for span in &spans {
        let _ = write!(path, "V{}H{}", top + height(span.start), x(span.start) + TICK * span.len());
    }
    let _ = write!(text, "<path class=\"line\" d=\"{path}\"/>");
    for span in &spans {
        if lane.changes_at(span.start) {
            let (x, y) = (x(span.start), top + height(span.start));
            let _ = write!(text, "<circle class=\"change\" cx=\"{x}\" cy=\"{y}\" r=\"3\"/>");
        }
        if lane.has_levels() {
            let _ = write!(
                text,
                "<text class=\"level\" x=\"{}\" y=\"{}\">{}</text>",
                x(span.start) + TICK / 2,
                top + height(span.start) - 2,
                lane.values[span.start]
            );
        }
    }
    let (class, word) = ending(lane, ticks.end - 1);
    let _ = write!(
        text,
        "<text class=\"end {class}\" x=\"{}\" y=\"{}\">{word}</text>",
        x(ticks.end) + 8,
        top + WORDS
    );
    *text += "</g>\n";
}

/// A lane's height at a tick, of 15.
fn share(lane: &Lane, tick: usize) -> usize {
    match (lane.has_levels(), lane.values[tick]) {
        (true, level) => level.into(),
        (false, 0) => 0,
        (false, _) => 15,
    }
}

/// How a lane stands at its end, in a word.
fn ending(lane: &Lane, tick: usize) -> (&'static str, String) {
    let value = lane.values[tick];
    let class = if value > 0 { "lit" } else { "dark" };
    if lane.blinks {
        return ("blinking", "blinks".to_owned());
    }
    let word = match lane.states {
        States::Levels => value.to_string(),
        States::Two { words, .. } => words[usize::from(value > 0)].to_owned(),
    };
    (class, word)
}

/// The mark of an expectation, at its tick.
fn mark(text: &mut String, met: &Met, left: usize, top: usize, ticks: &Range<usize>) {
    let tick = met.expectation.tick as usize;
    if !ticks.contains(&tick) {
        return;
    }
    let (x, y) = (left + TICK * (tick - ticks.start) + TICK / 2, top + LOW + 2);
    if met.is_met {
        let _ = writeln!(
            text,
            "<circle class=\"met\" cx=\"{x}\" cy=\"{y}\" r=\"2.5\"><title>as expected</title></circle>"
        );
    } else {
        let _ = writeln!(
            text,
            "<rect class=\"differs\" x=\"{}\" y=\"{}\" width=\"{TICK}\" height=\"{}\"/>\
             <text class=\"differs-sign\" x=\"{x}\" y=\"{}\">&#8800;<title>{met}</title></text>",
            x - TICK / 2,
            top + 2,
            LINE - 4,
            top + WORDS
        );
    }
}
