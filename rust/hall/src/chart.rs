//! The timing chart of a run, in text.

use std::fmt::Write;

use crate::run::{Lane, Run};

/// The most ticks that stand side by side.
const TICKS_SIDE_BY_SIDE: usize = 50;

/// What the signs of the chart stand for.
const LEGEND: &str = ". off, out or dark   / goes on, lights up   - on, lit   \\ goes off, goes out\n";
const LEGEND_OF_LEVELS: &str = "comparators: the level where it changes, a to f for 10 to 15; = it stays\n";

/// The chart: a line for each device, a sign for each tick.
#[must_use]
pub fn chart(run: &Run) -> String {
    let lanes = run.lanes();
    if lanes.is_empty() {
        return "There is no repeater, torch, comparator, lamp or bulb.\n".to_owned();
    }
    let width = lanes.iter().map(|lane| lane.label.chars().count()).max().unwrap_or(0);
    let mut text = String::new();
    for first in (0..run.frames.len()).step_by(TICKS_SIDE_BY_SIDE) {
        let ticks = first..run.frames.len().min(first + TICKS_SIDE_BY_SIDE);
        let tens =
            ticks.clone().map(|tick| if tick % 10 == 0 { (tick / 10).to_string() } else { " ".into() });
        let _ = writeln!(text, "{:width$}  {}", "", tens_line(tens).trim_end());
        let ones: String = ticks.clone().map(|tick| digit(tick % 10)).collect();
        let _ = writeln!(text, "{:width$}  {ones}", "tick");
        for lane in &lanes {
            let signs: String = ticks.clone().map(|tick| sign(lane, tick)).collect();
            let note = if lane.blinks { "  blinks" } else { "" };
            let _ = writeln!(text, "{:width$}  {signs}{note}", lane.label);
        }
        text.push('\n');
    }
    text += LEGEND;
    if lanes.iter().any(Lane::has_levels) {
        text += LEGEND_OF_LEVELS;
    }
    text
}

/// The tens over the ones: each begins over its tick, and none stands over another.
fn tens_line(tens: impl Iterator<Item = String>) -> String {
    let mut line = String::new();
    for (column, text) in tens.enumerate() {
        if line.len() <= column {
            line += &text;
        }
    }
    line
}

fn digit(number: usize) -> char {
    char::from_digit(number as u32, 10).unwrap_or('?')
}

/// The sign of a lane at a tick.
fn sign(lane: &Lane, tick: usize) -> char {
    let (value, changes) = (lane.values[tick], lane.changes_at(tick));
    match (lane.has_levels(), value, changes) {
        (true, _, false) if !tick.is_multiple_of(TICKS_SIDE_BY_SIDE) => '=',
        (true, ..) => level_digit(value),
        (false, 0, false) => '.',
        (false, 0, true) => '\\',
        (false, _, true) => '/',
        (false, _, false) => '-',
    }
}

/// A level as a hexadecimal digit.
#[must_use]
pub fn level_digit(level: u8) -> char {
    char::from_digit(level.into(), 16).expect("a level is at most 15")
}

#[cfg(test)]
mod tests {
    use super::*;
    use crate::Hall;

    fn chart_of(text: &str, ticks: u32) -> String {
        let hall = Hall::from_text("a.hall", text, None).expect("a hall");
        chart(&Run::new(&hall, ticks).expect("an accepted table"))
    }

    #[test]
    fn a_line_a_device_and_a_sign_a_tick() {
        let text = "0,0,0 PressurePlate level=11\n1,0,0 Comparator facing=East\n9,0,0 RedstoneTorch\n\
                    9,0,1 Comparator facing=South level=12\nswitch tick 2 0,0,0 on\nswitch tick 4 0,0,0 off\n";
        let lines = [
            "                  0         1",
            "tick              012345678901",
            "plate 0,0,0       ../-\\.......",
            "torch 9,0,0       ------------",
            "comparator 1,0,0  0==b=0======",
            "comparator 9,0,1  cf==========",
            "",
            LEGEND.trim_end(),
            LEGEND_OF_LEVELS,
        ];
        assert_eq!(chart_of(text, 11), lines.join("\n"));
    }

    /// After the lamps, and as they are.
    #[test]
    fn a_bulb_has_its_line() {
        let text = "0,0,0 CopperBulb\n0,1,0 Lever support=0,-1,0\n9,0,0 RedstoneLamp\nswitch tick 1 0,1,0 on\n\
                    switch tick 3 0,1,0 off\nswitch tick 5 0,1,0 on\n";
        let chart = chart_of(text, 8);
        let lines: Vec<_> = chart.lines().skip(2).take(3).collect();
        assert_eq!(lines, ["lever 0,1,0  ./-\\./---", "lamp 9,0,0   .........", "bulb 0,0,0   ../---\\.."]);
    }

    #[test]
    fn a_long_run_stands_in_parts() {
        let chart = chart_of("0,0,0 Lever\n1,0,0 RedstoneLamp\n", 120);
        let heads: Vec<_> = chart.lines().filter(|line| line.starts_with("tick")).map(str::len).collect();
        assert_eq!(heads, [62, 62, 33]);
        assert!(chart.contains("            10        11        12\n"), "{chart}");
    }

    #[test]
    fn no_device_is_said() {
        assert_eq!(chart_of("0,0,0 Solid\n", 3), "There is no repeater, torch, comparator, lamp or bulb.\n");
    }
}
