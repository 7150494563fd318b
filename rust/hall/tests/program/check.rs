//! `hall check`: expectations that are met, that are not, and that cannot be read.

use std::fs;
use std::process::Command;

use crate::support::{Done, file, folder, hall, run};

/// A lever on a lamp, with dust and a torch, and these lines.
fn with(lines: &str) -> String {
    format!(
        "0,0,0 RedstoneLamp\n0,1,0 Lever support=0,-1,0\n1,1,0 RedstoneWire\n0,0,1 RedstoneTorch support=0,0,-1\n\
         2,1,0 Comparator facing=East\n1,1,1 Repeater facing=South\n{lines}"
    )
}

fn check(test: &str, lines: &str) -> (Done, String) {
    let name = file(test, "a.hall", with(lines));
    (hall(&["check", &name]), name)
}

#[test]
fn each_form_of_an_expectation_is_met_or_not() {
    let right = "\
switch tick 2 0,1,0 on
switch tick 6 0,1,0 off
expect blocks = 6
expect rounds = 2
expect tick 2 rounds = 2
expect dust 1,1,0 = 0
expect tick 2 dust 1,1,0 = 15
expect tick 2 lamp 0,0,0 dark
expect tick 3 lamp 0,0,0 lit
expect tick 9 lamp 0,0,0 dark
expect torch 0,0,1 lit
expect tick 3 torch 0,0,1 out
expect tick 3 candidate 0,0,1 no
expect repeater 1,1,1 off
expect tick 3 repeater 1,1,1 on
expect comparator 2,1,0 = 0
expect tick 3 comparator 2,1,0 = 15
expect tick 3 signal 0,1,0 = 15
expect tick 3 strong 0,0,0 = 15
expect weak 0,0,0 = 0
";
    let (done, name) = check("check_right", right);
    assert_eq!((done.status, done.err.as_str()), (Some(0), ""), "{}", done.text());
    assert_eq!(
        done.text(),
        format!(
            "{name}: ok, 18 expectations; 3 hints, see `hall run`\n\
             1 file: 1 ok, 0 DIFFERS, 0 REFUSED; 18 expectations, 0 not met; 3 hints\n"
        )
    );

    let others = [
        (" = 6", " = 7"),
        ("rounds = 2", "rounds = 3"),
        ("= 0", "= 1"),
        ("= 15", "= 14"),
        (" lit", " lit?"),
        (" dark", " lit"),
        (" lit?", " dark"),
        (" out", " lit"),
        (" no", " yes"),
        (" off", " off?"),
        (" on\n", " off\n"),
        (" off?", " on"),
    ];
    let mut wrong = String::new();
    for line in right.lines() {
        let line = format!("{line}\n");
        let turned = others.iter().fold(line.clone(), |line, (from, to)| line.replace(from, to));
        wrong += if line.starts_with("switch") { &line } else { &turned };
    }
    let wrong = wrong.replace("torch 0,0,1 dark", "torch 0,0,1 out");
    let (done, name) = check("check_wrong", &wrong);
    assert_eq!((done.status, done.err.as_str()), (Some(1), ""));
    let lines: Vec<_> = done.text().lines().collect();
    assert_eq!(
        lines[0],
        format!("{name}: DIFFERS, 18 of 18 expectations; 3 hints, see `hall run`"),
        "{}",
        done.text()
    );
    assert_eq!(lines.len(), 20, "{}", done.text());
    for (at, expected, given) in [
        (0, "blocks = 7", "6"),
        (1, "rounds = 3", "2"),
        (4, "tick 2 dust 1,1,0 = 14", "15"),
        (5, "tick 2 lamp 0,0,0 lit", "dark"),
        (9, "tick 3 torch 0,0,1 lit", "out"),
        (10, "tick 3 candidate 0,0,1 yes", "no"),
        (12, "tick 3 repeater 1,1,1 off", "on"),
    ] {
        // The expectations begin in line 9, after six rows and two switches.
        let line = format!("    {name}:{}: expected {expected}, given {given}", 9 + at);
        assert_eq!(lines[1 + at], line);
    }
    assert_eq!(lines[19], "1 file: 0 ok, 1 DIFFERS, 0 REFUSED; 18 expectations, 18 not met; 3 hints");
}

/// A run shows 20 ticks; what is expected later is run on to, with the switches on the way.
#[test]
fn what_is_expected_after_the_shown_ticks_is_met_or_not() {
    let lines = "switch tick 2 0,1,0 on\nswitch tick 30 0,1,0 off\nexpect tick 1000 lamp 0,0,0 dark\n\
                 expect tick 20 lamp 0,0,0 lit\nexpect tick 21 lamp 0,0,0 lit\nexpect tick 30 dust 1,1,0 = 0\n\
                 expect tick 29 dust 1,1,0 = 15\n";
    let (done, name) = check("check_later", lines);
    assert_eq!((done.status, done.err.as_str()), (Some(0), ""), "{}", done.text());
    assert!(done.text().starts_with(&format!("{name}: ok, 5 expectations;")), "{}", done.text());

    let (done, name) = check(
        "check_later",
        &lines.replace("= 15", "= 0").replace("21 lamp 0,0,0 lit", "21 lamp 0,0,0 dark"),
    );
    assert_eq!(done.status, Some(1));
    let differences: Vec<_> = done.text().lines().filter(|line| line.starts_with(' ')).collect();
    assert_eq!(
        differences,
        [
            format!("    {name}:11: expected tick 21 lamp 0,0,0 dark, given lit"),
            format!("    {name}:13: expected tick 29 dust 1,1,0 = 0, given 15"),
        ]
    );
}

#[test]
fn what_cannot_be_read_is_an_error_with_its_place() {
    for (line, column, message) in [
        (
            "expct dust 1,1,0 = 7",
            1,
            "found \"expct\", expected a position or another first word: did you mean expect?",
        ),
        ("expect", 7, "found nothing, expected a figure, or tick"),
        ("expect lampe 0,0,0 lit", 8, "found \"lampe\", expected a figure: did you mean lamp?"),
        (
            "expect lamp 9,9,9 lit",
            13,
            "found \"9,9,9\", expected the position of a lamp: no row stands there",
        ),
        (
            "expect lamp 0,1,0 lit",
            13,
            "found \"0,1,0\", expected the position of a lamp: a lever stands there",
        ),
        ("expect lamp 0, 0, 0 lit", 13, "found \"0,\", expected a position x,y,z"),
        ("expect weak 9,9,9 = 1", 13, "found \"9,9,9\", expected the position of a row: no row stands there"),
        ("expect lamp 0,0,0 litt", 19, "found \"litt\", expected a state: did you mean lit?"),
        ("expect lamp 0,0,0", 18, "found nothing, expected lit or dark"),
        ("expect lamp 0,0,0 lit now", 23, "found \"now\", expected the end of the line"),
        ("expect dust 1,1,0=7", 13, "found \"1,1,0=7\", expected a position x,y,z, and blanks around ="),
        ("expect dust 1,1,0 =7", 19, "found \"=7\", expected = and a number, with blanks between"),
        ("expect dust 1,1,0 7", 19, "found \"7\", expected = and a number, with blanks between"),
        ("expect dust 1,1,0 = 16", 21, "found \"16\", expected a whole number from 0 to 15"),
        ("expect comparator 2,1,0 = 16", 27, "found \"16\", expected a whole number from 0 to 15"),
        ("expect signal 2,1,0 = 200", 23, "found \"200\", expected a whole number from 0 to 15"),
        ("expect weak 0,0,0 = 16", 21, "found \"16\", expected a whole number from 0 to 15"),
        ("expect strong 0,0,0 = 255", 23, "found \"255\", expected a whole number from 0 to 15"),
        ("expect rounds = 18", 17, "found \"18\", expected a whole number from 0 to 17"),
        ("expect tick lamp 0,0,0 lit", 13, "found \"lamp\", expected a whole number from 0 to 1000000"),
        ("expect tick 1 tick 2 lamp 0,0,0 lit", 15, "found \"tick\" again, expected a figure"),
        (
            "switch 0,0,0 on",
            8,
            "found \"0,0,0\", expected the position of a lever, button or plate: a lamp stands there",
        ),
        ("switch tick 4 0,1,0 onn", 21, "found \"onn\", expected a setting: did you mean on?"),
        (
            "swich 0,1,0 on",
            1,
            "found \"swich\", expected a position or another first word: did you mean switch?",
        ),
    ] {
        let (done, name) = check("check_unread", line);
        assert_eq!(done.status, Some(2), "{line}");
        let (place, text) = (format!("{name}:7:{column}: {message}"), done.text());
        assert_eq!(text.lines().nth(1).map(str::trim), Some(place.as_str()), "{line}");
        assert!(
            text.starts_with(&format!("{name}: REFUSED\n"))
                && text.ends_with("0 ok, 0 DIFFERS, 1 REFUSED; 0 expectations, 0 not met\n")
        );
        // No other command passes it over.
        for command in ["run", "levels", "csv", "pack", "unpack"] {
            let done = hall(&[command, &name]);
            assert_eq!((done.status, done.text()), (Some(2), ""), "{command} {line}");
            assert_eq!(done.err, format!("hall: {place}.\n").replace("?.", "?"), "{command}");
        }
    }
}

#[test]
fn the_largest_status_counts_and_the_order_is_that_of_the_names() {
    let folder = folder("check_order");
    let path = |name: &str| folder.join(name).to_str().expect("UTF-8").to_owned();
    let names: Vec<_> = (0..60).map(|number| path(&format!("{number}.hall"))).collect();
    for (number, name) in names.iter().enumerate() {
        // The first ones take longest.
        let tick = 3000 / (number + 1);
        let lamp = if number % 7 == 3 { "lit" } else { "dark" };
        fs::write(name, with(&format!("expect tick {tick} lamp 0,0,0 {lamp}\n"))).expect("a file");
    }
    let words = |names: &[String]| -> Vec<String> { [&["check".to_owned()], names].concat() };
    let done = |names: &[String]| hall(&words(names).iter().map(String::as_str).collect::<Vec<_>>());
    let all = done(&names);
    assert_eq!(all.status, Some(1));
    let heads: Vec<_> = all.text().lines().filter(|line| !line.starts_with(' ')).collect();
    assert_eq!(heads.len(), 61);
    for (number, name) in names.iter().enumerate() {
        let word = if number % 7 == 3 { "DIFFERS, 1 of 1 expectation" } else { "ok, 1 expectation" };
        assert_eq!(heads[number], format!("{name}: {word}; 1 hint, see `hall run`"));
    }
    assert_eq!(heads[60], "60 files: 51 ok, 9 DIFFERS, 0 REFUSED; 60 expectations, 9 not met; 60 hints");
    assert_eq!(done(&[names[0].clone(), path("none.hall"), names[3].clone()]).status, Some(2));
    assert_eq!(done(&names[..3]).status, Some(0));
}

#[test]
fn a_packed_table_and_one_without_expectations_are_ok() {
    let packed = folder("check_packed").join("a.bin");
    let packed = packed.to_str().expect("UTF-8");
    assert_eq!(hall(&["pack", "halls/vault-door.hall", "-o", packed]).status, Some(0));
    let done = hall(&["check", packed]);
    assert_eq!(
        (done.status, done.text().lines().next()),
        (Some(0), Some(format!("{packed}: ok, nothing is expected").as_str()))
    );
}

/// A terminal sees how far it is; a pipe does not.
#[test]
fn progress_is_for_a_terminal() {
    let has_script =
        Command::new("script").arg("--version").output().is_ok_and(|found| found.status.success());
    let dark = |ticks| format!("expect tick {ticks} lamp 0,0,0 dark\n");
    let solid = |rows| (0..rows).map(|z| format!("9,0,{z} Solid\n")).collect::<String>();
    for (rows, ticks) in [(0, 100_000), (0, 1_000_000), (1_000, 200_000)] {
        let name = file("check_progress", "long.hall", with(&(solid(rows) + &dark(ticks))));
        assert_eq!(hall(&["check", &name]).err, "");
        if !has_script {
            return;
        }
        let line = format!("{} check {name} {name} {name}", env!("CARGO_BIN_EXE_hall"));
        let done = run(Command::new("script").args(["-qec", &line, "/dev/null"]), b"");
        assert_eq!(done.status, Some(0), "{}", done.text());
        assert!(done.text().contains("3 files: 3 ok"), "{}", done.text());
        if done.text().contains("0 of 3 files\r") {
            return;
        }
    }
    panic!("200,000 ticks of a thousand rows were run before a terminal saw how far it is");
}
