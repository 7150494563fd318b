//! Generated tables: what the program shows is what `settle` and the library give.

use std::process::Command;

use differential::generate::{self, Case};
use differential::program::find;
use differential::suite::with_damaged;
use redstone::{Columns, Device, Kind, ROW_BYTES, Row, STATE_BYTES};

use hall::{Hall, Outlook, Run};

use crate::support::{hall_with, run};

/// Accepted tables.
pub fn cases(number: u64) -> impl Iterator<Item = Case> {
    (0..number).map(generate::case)
}

/// What `settle` writes, made of what `hall run` shows of tick 0. The columns of `hall csv` are the same.
fn as_settle_writes(input: &[u8]) -> String {
    let shown = hall_with(&["run", "-", "--ticks=0"], input);
    if shown.status != Some(0) {
        return shown.err;
    }
    let mut lines = shown.text().lines();
    let (blocks, rounds) = lines.next().and_then(|head| head.split_once(", settled in ")).expect("a head");
    let number = |text: &str| text.split(' ').find(|word| word.parse::<u32>().is_ok()).map(str::to_owned);
    let blocks = number(blocks.rsplit(": ").next().expect("blocks")).expect("a number");
    let head = format!("blocks={blocks}\nrounds={}\n", number(rounds).expect("a number"));
    let table =
        lines.skip_while(|line| !line.starts_with("x,y,z ")).skip(1).take_while(|line| !line.is_empty());
    let row = |line: &str| {
        let words: Vec<_> = line.split_whitespace().collect();
        format!("row={},{}\n", words[0], words[2..].join(","))
    };
    let rows: String = table.map(row).collect();
    let csv = hall_with(&["csv", "-", "--ticks=0"], input);
    let of_columns = |line: &str| {
        let fields: Vec<_> = line.split(',').collect();
        format!("row={},{}\n", fields[1..4].join(","), fields[5..8].join(","))
    };
    assert_eq!(rows, csv.text().lines().skip(1).map(of_columns).collect::<String>());
    head + &rows
}

#[test]
fn the_settled_figures_are_those_of_settle() {
    let program = find("settle").unwrap_or_else(|sentence| panic!("{sentence}"));
    let (mut accepted, mut refused) = (0, 0);
    for case in with_damaged(cases(350)) {
        let input = [&case.profile[..], &case.table].concat();
        let settled = run(&mut Command::new(&program), &input);
        let shown = as_settle_writes(&input);
        match settled.text().strip_prefix("refusal=") {
            None => {
                assert_eq!(shown, settled.text(), "{case}");
                accepted += 1;
            }
            // What has no zero byte is taken for text, and refused as such.
            Some(_) if !input.contains(&0) => assert!(shown.starts_with("hall: standard input:"), "{shown}"),
            Some(rest) => {
                let (number, place) = rest.split_once("\nplace=").expect("a place");
                assert!(
                    shown.starts_with(&format!("hall: standard input: refusal {number}, ")),
                    "{shown}\n{case}"
                );
                let row = format!("row {} ", place.trim_end());
                assert!(
                    !matches!(number, "4" | "5" | "10")
                        || shown.contains(&row)
                        || shown.contains(" are both at "),
                    "{shown}"
                );
                refused += 1;
            }
        }
    }
    assert!(accepted > 300 && refused > 200, "{accepted} accepted, {refused} refused");
    println!("\nhall beside settle: {accepted} tables accepted, {refused} refused, all alike");
}

/// The lines that `hall csv` writes, made of one call of the library for each tick.
fn as_library_gives(case: &Case, ticks: u32, switches: &[(u32, [i32; 3], bool)]) -> String {
    let rows = case.table.len() / ROW_BYTES;
    let mut text = String::new();
    for tick in 0..=ticks {
        // From the fresh state on, with as few calls as the switches allow.
        let (mut table, mut now) = (case.table.clone(), 0);
        let (mut state, mut columns) =
            (vec![0; STATE_BYTES * rows], [vec![0; rows], vec![0; rows], vec![0; rows]]);
        let lend = |columns: &mut [Vec<u8>; 3], call: &mut dyn FnMut(Columns<'_>)| {
            let [signal, weak, strong] = columns;
            call(Columns { signal, weak, strong });
        };
        lend(&mut columns, &mut |columns| {
            redstone::fresh(&case.profile, &table, &mut state, columns).expect("an accepted table");
        });
        for &(at, position, on) in switches.iter().filter(|(at, ..)| *at <= tick) {
            lend(&mut columns, &mut |columns| {
                redstone::tick(&case.profile, &table, &mut state, now, at - now, columns).expect("accepted");
            });
            now = at;
            lend(&mut columns, &mut |columns| {
                redstone::switch(&case.profile, &mut table, &state, position, on, columns).expect("accepted");
            });
        }
        lend(&mut columns, &mut |columns| {
            redstone::tick(&case.profile, &table, &mut state, now, tick - now, columns).expect("accepted");
        });
        for number in 0..rows {
            let row = Row::try_from(&case.table[ROW_BYTES * number..][..ROW_BYTES]).expect("a row");
            let bytes = state[STATE_BYTES * number..].first_chunk().expect("a row's state");
            Device::read(&row, bytes).expect("a valid state");
            let [x, y, z] = row.position();
            let [signal, weak, strong] = [0, 1, 2].map(|column: usize| columns[column][number]);
            text += &format!("{tick},{x},{y},{z},{},{signal},{weak},{strong},", row.kind());
            let shown = [0, 1, 2, 3, 8, 9].map(|at: usize| bytes[at].to_string());
            text += &format!("{}\n", shown.join(","));
        }
    }
    text
}

#[test]
fn the_ticks_are_those_of_the_library() {
    let mut switched = 0;
    for case in cases(150).filter(|case| case.rows() <= 200) {
        let rows = redstone::rows(&case.table).expect("rows");
        let is_switch = |row: &&Row| matches!(row.kind(), Kind::Lever | Kind::Button | Kind::PressurePlate);
        let found: Vec<_> = rows.iter().filter(is_switch).take(2).collect();
        let switches: Vec<_> =
            found.iter().flat_map(|row| [(2, row.position(), true), (5, row.position(), false)]).collect();
        let mut switches: Vec<_> = switches;
        switches.sort_by_key(|(at, ..)| *at);
        switched += usize::from(!switches.is_empty());
        let mut words = vec!["csv".to_owned(), "-".to_owned(), "--ticks=12".to_owned()];
        for (at, [x, y, z], on) in &switches {
            words.push(format!("--switch={at}:{x},{y},{z}={}", if *on { "on" } else { "off" }));
        }
        let words: Vec<_> = words.iter().map(String::as_str).collect();
        let done = hall_with(&words, &[&case.profile[..], &case.table].concat());
        assert_eq!(done.status, Some(0), "{}\n{case}", done.err);
        let lines = done.text().split_once('\n').expect("a head").1;
        assert_eq!(lines, as_library_gives(&case, 12, &switches), "{case}");
    }
    assert!(switched > 20, "only {switched} tables have something to switch");
}

/// The expectations of a line of figures, with the values that it gives, or with others.
fn expectations(line: &str, is_right: bool) -> String {
    let fields: Vec<_> = line.split(',').collect();
    let number = |at: usize| fields[at].parse::<u8>().expect("a byte") ^ u8::from(!is_right);
    let level = |at: usize| format!("= {}", number(at));
    let word = |at: usize, words: [&str; 2]| words[usize::from(number(at))].to_owned();
    let mut all = vec![("signal", level(5)), ("weak", level(6)), ("strong", level(7))];
    match fields[4] {
        "RedstoneWire" => all.push(("dust", level(5))),
        "Repeater" => all.push(("repeater", word(8, ["off", "on"]))),
        "Comparator" => all.push(("comparator", level(8))),
        "RedstoneLamp" => all.push(("lamp", word(10, ["dark", "lit"]))),
        "CopperBulb" => all.push(("bulb", word(10, ["dark", "lit"]))),
        "RedstoneTorch" => {
            all.extend([("torch", word(8, ["out", "lit"])), ("candidate", word(12, ["no", "yes"]))]);
        }
        _ => {}
    }
    let line =
        |(figure, value)| format!("expect tick {} {figure} {} {value}\n", fields[0], fields[1..4].join(","));
    all.into_iter().map(line).collect()
}

#[test]
fn each_expectation_is_about_its_figure() {
    let (mut expected, mut of_bulbs) = (0, 0);
    for case in cases(120).filter(|case| (1..=100).contains(&case.rows())) {
        let figures = as_library_gives(&case, 9, &[]);
        let rows = hall_with(&["unpack", "-"], &[&case.profile[..], &case.table].concat());
        for is_right in [true, false] {
            let lines: String = figures.lines().map(|line| expectations(line, is_right)).collect();
            let number = lines.lines().count();
            let done = hall_with(&["check", "-"], format!("{}{lines}", rows.text()).as_bytes());
            let head = match is_right {
                true => format!("standard input: ok, {number} expectations"),
                false => format!("standard input: DIFFERS, {number} of {number} expectations"),
            };
            let line = done.text().lines().next().unwrap_or_default();
            assert_eq!(line.split(';').next(), Some(head.as_str()), "{case}");
            expected += number;
            of_bulbs += lines.lines().filter(|line| line.contains(" bulb ")).count();
        }
    }
    assert!(expected > 100_000 && of_bulbs > 1000, "only {expected} expectations, {of_bulbs} of bulbs");
}

/// What a run says of the ticks to come holds of as many again, and of no earlier tick.
#[test]
fn what_repeats_goes_on_so() {
    let (mut still, mut cycles, mut open, mut late) = (0, 0, 0, 0);
    let chosen = |case: &Case| case.rows() <= 200 && (case.sort == "clock" || case.seed < 150);
    for case in cases(1500).filter(chosen) {
        let hall = Hall::from_packed("a.bin", &case.profile, &case.table).expect("an accepted table");
        let (run, long) = (Run::new(&hall, 40).expect("a run"), Run::new(&hall, 100).expect("a run"));
        let (from, ticks) = match run.outlook {
            Outlook::Still { from } => (from as usize, 1),
            Outlook::Cycle { from, ticks } => (from as usize, ticks as usize),
            Outlook::Open => {
                open += 1;
                continue;
            }
        };
        let differs = (from..=100 - ticks).find(|tick| long.looks_different(*tick, tick + ticks));
        assert_eq!(differs, None, "from {from}, {ticks} ticks\n{case}");
        let deciding = |tick: usize| -> Vec<_> {
            let states = long.frames[tick].devices.iter().map(Device::bytes);
            states.map(|state| [state[0], state[1], state[2], state[3], state[9]]).collect()
        };
        assert_eq!(deciding(from), deciding(from + ticks), "from {from}, {ticks} ticks\n{case}");
        if let Some(earlier) = from.checked_sub(1) {
            assert_ne!(deciding(earlier), deciding(earlier + ticks), "from {from}, {ticks} ticks\n{case}");
            late += 1;
        }
        match run.outlook {
            Outlook::Still { .. } => still += 1,
            _ => {
                cycles += 1;
                // No shorter one, and something changes in it.
                let shorter = (1..ticks).find(|ticks| {
                    (from..=100 - ticks)
                        .all(|tick| long.frames[tick].devices == long.frames[tick + ticks].devices)
                });
                assert_eq!(shorter, None, "from {from}, {ticks} ticks\n{case}");
            }
        }
    }
    assert!(
        still > 100 && cycles > 10 && late > 30,
        "{still} still, {cycles} cycles, {open} open, {late} late"
    );
    println!(
        "\nhall's outlook: {still} tables come to rest, {cycles} go on in a cycle, {open} are open after 40 ticks"
    );
}
