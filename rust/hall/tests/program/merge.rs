//! Two halls in one.

use std::fs;
use std::process::Command;

use redstone::{
    BENCH_PROFILE, BENCH_PROFILE_WITH_BULB, Kind, PROFILE_BYTES, PROFILE_BYTES_WITH_BULB, ROW_BYTES, Row,
    clashes, merged,
};

use crate::generated::cases;
use crate::support::{Done, MERGED_ROOMS, file, folder, hall, hall_with, run};

/// `hall merge` of two texts, the first from standard input, and the second's name.
fn merge(test: &str, first: &str, second: &str, words: &[&str]) -> (Done, String) {
    let name = file(test, "second.hall", second);
    (hall_with(&[&["merge", "-", &name], words].concat(), first.as_bytes()), name)
}

/// What is written of two texts that are merged, and what is said.
fn written(test: &str, first: &str, second: &str, words: &[&str]) -> (String, String) {
    let (done, name) = merge(test, first, second, words);
    assert_eq!(done.status, Some(0), "{}", done.err);
    (done.text().replace(&name, "second.hall"), done.err)
}

/// The sentence that two texts are refused with.
fn refused(test: &str, first: &str, second: &str, words: &[&str]) -> String {
    let (done, name) = merge(test, first, second, words);
    assert_eq!((done.status, done.text()), (Some(2), ""));
    done.err.replace(&name, "second.hall")
}

/// The lamp of one room is lit by the lever of the other, which its expectations say once they are added.
#[test]
fn two_rooms_work_as_one() {
    let done = hall(&MERGED_ROOMS);
    assert_eq!(
        (done.status, done.err.as_str()),
        (
            Some(0),
            "hall: 2 lines left out that expect rounds or blocks: the hall is another now, so write them anew.\n"
        )
    );
    let more = "expect blocks = 11\nexpect tick 3 lamp 5,1,0 dark\nexpect tick 4 lamp 5,1,0 lit\n";
    let checked = hall_with(&["check", "-"], format!("{}{more}", done.text()).as_bytes());
    assert_eq!(checked.status, Some(0), "{}", checked.text());
    assert!(checked.text().starts_with("standard input: ok, 7 expectations\n"), "{}", checked.text());
}

/// In the packed form or as text, from a file or from standard input.
#[test]
fn the_rows_are_those_of_the_call() {
    let bench = file("merge_bench", "bench.bin", BENCH_PROFILE_WITH_BULB);
    let (mut accepted, mut clashing) = (0, 0);
    let all: Vec<_> = cases(40).collect();
    let pairs = all.windows(2).flat_map(|pair| [[&pair[0], &pair[1]], [&pair[0], &pair[0]]]);
    for pair in pairs {
        let [one, other] = pair.map(|case| [&case.profile[..], &case.table].concat());
        let second = file("merge_rows", "second.bin", &other);
        let text = hall_with(&["unpack", "-"], &other).out;
        let as_text = file("merge_rows_text", "second.hall", text);
        for (by, offset) in [("0,0,0", [0; 3]), ("-5000,70,1", [-5000, 70, 1]), ("1,0,-1", [1, 0, -1])] {
            let words = ["--by", by, "--profile", &bench];
            let done = hall_with(&[&["merge", "-", &second], &words[..]].concat(), &one);
            match merged(&pair[0].table, &pair[1].table, offset) {
                Ok(table) => {
                    assert_eq!(done.status, Some(0), "{}", done.err);
                    let packed = hall_with(&["pack", "-"], &done.out);
                    assert_eq!(packed.out[..PROFILE_BYTES_WITH_BULB], BENCH_PROFILE_WITH_BULB);
                    assert_eq!(packed.out[PROFILE_BYTES_WITH_BULB..], table);
                    let other = hall_with(&[&["merge", "-", &as_text], &words[..]].concat(), &one);
                    assert_eq!(other.out, done.out);
                    accepted += 1;
                }
                Err(refusal) if refusal.number == 12 => {
                    let number = clashes(&pair[0].table, &pair[1].table, offset).count();
                    assert!(done.err.starts_with("hall: refusal 12, clash: "), "{}", done.err);
                    assert!(done.err.contains(&format!("differ at {number} position")), "{}", done.err);
                    clashing += 1;
                }
                Err(refusal) => {
                    assert_eq!(refusal.number, 11, "{refusal}");
                    assert!(
                        done.err.starts_with(&format!("hall: {second}: refusal 11, off ground: ")),
                        "{}",
                        done.err
                    );
                }
            }
        }
    }
    assert!(accepted > 20 && clashing > 5, "{accepted} accepted, {clashing} clashing");
}

const LEVER: &str = "0,1,0 Lever\n";

#[test]
fn switches_and_expectations_go_with_their_hall() {
    let first = "0,1,0 Lever\n1,1,0 RedstoneWire\nswitch 0,1,0 on\nexpect rounds = 2\nexpect tick 3 dust 1,1,0 = 15\n";
    let second = "0,0,0 Button  # the bell\n1,0,0 RedstoneLamp\nswitch tick 7 0,0,0 on\nexpect lamp 1,0,0 dark\n\
                  expect tick 8 weak 1,0,0 = 0\nexpect tick 2 blocks = 2\n";
    let (text, said) = written("merge_lines", first, second, &["--by", "-3,2,10"]);
    assert_eq!(
        text,
        "blocks=4\n-3,2,10 Button\n-2,2,10 RedstoneLamp\n0,1,0 Lever\n1,1,0 RedstoneWire\n\n# standard input\n\
         switch 0,1,0 on\nexpect tick 3 dust 1,1,0 = 15\n\n# second.hall, moved by -3,2,10\n\
         switch tick 7 -3,2,10 on\nexpect lamp -2,2,10 dark\nexpect tick 8 weak -2,2,10 = 0\n"
    );
    assert!(said.starts_with("hall: 2 lines left out that expect rounds or blocks: "), "{said}");
    // Every line is read again, and none is left out then.
    let (again, said) = written("merge_again", &text, "blocks=0\n", &[]);
    let sorted = |text: &str| {
        let mut lines: Vec<_> =
            text.lines().filter(|line| !line.starts_with('#') && !line.is_empty()).collect();
        lines.sort_unstable();
        lines.join("\n")
    };
    assert_eq!((sorted(&again), said.as_str()), (sorted(&text), ""));
}

/// A hall with itself is that hall, and beside itself it is twice there.
#[test]
fn a_hall_is_merged_with_itself() {
    const LOCK: &str = "halls/repeater-lock.hall";
    let rows = |done: &Done| {
        let is_row = |line: &&str| line.starts_with(|letter: char| letter.is_ascii_digit());
        done.text().lines().filter(is_row).count()
    };
    let count = |done: &Done, word: &str| done.text().lines().filter(|line| line.starts_with(word)).count();
    let same = hall(&["merge", LOCK, LOCK]);
    assert_eq!(same.status, Some(0), "{}", same.err);
    let alone = hall(&["unpack", LOCK]);
    assert!(same.text().starts_with(alone.text()), "{}", same.text());
    assert_eq!((count(&same, "switch"), count(&same, "expect")), (3, 11));
    let twice = hall(&["merge", LOCK, LOCK, "--by", "0,0,20"]);
    assert_eq!((count(&twice, "switch"), count(&twice, "expect")), (6, 22));
    assert_eq!((rows(&same), rows(&twice)), (rows(&alone), 2 * rows(&alone)));
    let checked = hall_with(&["check", "-"], &twice.out);
    assert_eq!(checked.status, Some(0), "{}", checked.text());
}

#[test]
fn a_hall_without_rows_is_merged() {
    assert_eq!(written("merge_none", "blocks=0\n", "blocks=0\n", &["--by", "7,7,7"]).0, "blocks=0\n");
    let moved = written("merge_one", "blocks=0\n", LEVER, &["--by", "-1,0,2"]).0;
    assert_eq!(moved, "blocks=1\n-1,1,2 Lever\n");
}

#[test]
fn a_line_of_both_is_written_once() {
    let one = format!("{LEVER}1,1,0 RedstoneWire\nswitch tick 4 0,1,0 on\nexpect tick 4 dust 1,1,0 = 15\n");
    let other = "-1,1,0 Lever\n-1,5,0 RedstoneLamp\nswitch tick 4 -1,1,0 on\nswitch tick 5 -1,1,0 off\n\
                 expect lamp -1,5,0 dark\nexpect tick 4 signal -1,1,0 = 15\n";
    let (text, _) = written("merge_once", &one, other, &["--by=1,0,0"]);
    let (_, lines) = text.split_once("\n\n").expect("sections");
    assert_eq!(
        lines,
        "# standard input\nswitch tick 4 0,1,0 on\nexpect tick 4 dust 1,1,0 = 15\n\n\
         # second.hall, moved by 1,0,0\nswitch tick 5 0,1,0 off\nexpect lamp 0,5,0 dark\nexpect tick 4 signal 0,1,0 = 15\n"
    );
    let (text, _) = written("merge_once_expected", &one, &one, &[]);
    assert_eq!(text.matches("expect").count(), 1, "{text}");
}

/// The last line of a tick counts in each hall, and they are to agree.
#[test]
fn a_block_that_both_halls_set_is_set_alike() {
    let with = |lines: &str| format!("{LEVER}{lines}");
    let on = "switch tick 4 0,1,0 on\n";
    let off = "switch tick 4 0,1,0 off\n";
    for (first, second, words) in [
        (on.to_owned(), off.to_owned(), ("on", "off")),
        (format!("{on}{off}"), on.to_owned(), ("off", "on")),
        (off.to_owned(), format!("{off}{on}"), ("off", "on")),
    ] {
        let (one, other) = words;
        assert_eq!(
            refused("merge_unlike", &with(&first), &with(&second), &[]),
            format!(
                "hall: at tick 4 standard input sets lever 0,1,0 {one}, and second.hall sets the same block {other}: \
                 take one of the two lines out.\n"
            )
        );
    }
    for (first, second, lines) in [
        (on, format!("{off}{on}"), on.to_owned()),
        (off, format!("{on}{off}"), off.to_owned()),
        ("", format!("{on}{off}"), format!("{on}{off}")),
    ] {
        let (text, _) = written("merge_alike", &with(first), &with(&second), &[]);
        assert!(text.ends_with(&lines) && text.matches("switch").count() == lines.lines().count(), "{text}");
    }
}

/// Both halls set one lever and expect its signal, at tick after tick.
#[test]
fn many_lines_of_both_are_merged() {
    const LINES: usize = 20_000;
    // What is set and expected of the lever at x,1,0, at the ticks that are multiples of a step and good.
    let lines = |x: i32, step: usize, is_good: fn(&usize) -> bool| -> String {
        let ticks: Vec<_> = (1..=LINES).map(|number| step * number).filter(is_good).collect();
        let is_on = |tick: usize| tick % 4 < 2;
        let switches = ticks.iter().map(|&tick| {
            let setting = if is_on(tick) { "on" } else { "off" };
            format!("switch tick {tick} {x},1,0 {setting}\n")
        });
        let expectations = ticks.iter().map(|&tick| {
            let level = if is_on(tick) { 15 } else { 0 };
            format!("expect tick {tick} signal {x},1,0 = {level}\n")
        });
        switches.chain(expectations).collect()
    };
    let (own, others) = (lines(0, 2, |_| true), lines(0, 3, |tick| tick % 2 != 0 || *tick > 2 * LINES));
    let second = format!("-1,1,0 Lever\n{}", lines(-1, 3, |_| true));
    let (text, said) = written("merge_many", &format!("{LEVER}{own}"), &second, &["--by", "1,0,0"]);
    let expected =
        format!("blocks=1\n{LEVER}\n# standard input\n{own}\n# second.hall, moved by 1,0,0\n{others}");
    assert!(text == expected, "{} lines, {} expected", text.lines().count(), expected.lines().count());
    assert_eq!(said, "");
}

#[test]
fn a_clash_is_told_with_both_rows() {
    let first = "# Two blocks.\n0,0,0 Solid\n5,0,0 Solid shape=glass\n";
    let second = "1,0,0 Solid\n\n0,0,0 Transparent\n";
    assert_eq!(
        refused("merge_clash", first, second, &["--by", "5,0,0"]),
        "hall: refusal 12, clash: standard input, and second.hall moved by 5,0,0, differ at 1 position:\n    5,0,0\n        \
         standard input:3: 5,0,0 Solid shape=glass\n        second.hall:3: 0,0,0 Transparent\n\
         Make both rows the same, or give another offset after --by.\n"
    );
    // What it says to do.
    let same = second.replace("Transparent", "Solid shape=glass");
    assert!(written("merge_same", first, &same, &["--by", "5,0,0"]).0.starts_with("blocks=3\n"));
    assert!(written("merge_beside", first, second, &["--by", "6,0,0"]).0.starts_with("blocks=4\n"));
}

#[test]
fn of_many_clashes_some_are_shown_and_all_counted() {
    let line = |kind: &str, number| -> String { (0..number).map(|x| format!("{x},0,0 {kind}\n")).collect() };
    for (number, shown, more) in
        [(5, 5, None), (6, 5, Some("    and 1 more\n")), (300, 5, Some("    and 295 more\n"))]
    {
        let said = refused("merge_clashes", &line("Solid", number), &line("Piston", number + 1), &[]);
        assert!(said.contains(&format!(" moved by 0,0,0, differ at {number} positions:\n")), "{said}");
        assert_eq!(said.matches(" Solid\n").count(), shown);
        assert_eq!(said.matches(" Piston\n").count(), shown);
        assert_eq!(said.contains(" more\n"), more.is_some(), "{said}");
        assert!(more.is_none_or(|more| said.contains(more)), "{said}");
    }
}

/// A packed file has no lines to tell.
#[test]
fn a_clash_of_packed_halls_is_told_without_lines() {
    let packed = |kind| [&BENCH_PROFILE[..], &redstone::table([Row::new(kind, [1, 2, 3])])].concat();
    let second = file("merge_packed", "second.bin", packed(Kind::Lever));
    let done = hall_with(&["merge", "-", &second], &packed(Kind::Solid));
    assert_eq!((done.status, done.text()), (Some(2), ""));
    let rows = format!("\n        standard input: 1,2,3 Solid\n        {second}: 1,2,3 Lever\n");
    assert!(done.err.contains(&rows), "{}", done.err);
}

#[test]
fn a_block_off_the_ground_is_told_with_its_line() {
    let second = "0,0,0 Solid\n# The far one.\n999998,0,-20 Lever\n";
    assert_eq!(
        refused("merge_ground", LEVER, second, &["--by", "3,0,0"]),
        "hall: second.hall:3: refusal 11, off ground: lever 999998,0,-20 would come to 1000001,0,-20, where no block may \
         be: give a dx from -1000000 to 2 after --by.\n"
    );
    assert_eq!(
        refused("merge_ground_z", LEVER, second, &["--by", "0,0,-999981"]),
        "hall: second.hall:3: refusal 11, off ground: lever 999998,0,-20 would come to 999998,0,-1000001, where no block \
         may be: give a dz from -999980 to 1000000 after --by.\n"
    );
    for by in ["2,0,0", "-1000000,0,0", "0,0,-999980"] {
        written("merge_ground_good", LEVER, second, &["--by", by]);
    }
}

#[test]
fn more_rows_than_a_table_may_have_are_counted() {
    let line = |number| -> String { (0..number).map(|x| format!("{x},0,0 Solid\n")).collect() };
    assert_eq!(
        refused("merge_crowded", &line(600), &line(500), &["--by", "590,0,0"]),
        "hall: refusal 3, crowded: standard input has 600 rows and second.hall 500, 10 of them in both, which are 1090 \
         together: a hall has at most 1024, so keep them apart, or take blocks out.\n"
    );
    let (text, _) = written("merge_full", &line(600), &line(500), &["--by", "524,0,0"]);
    assert!(text.starts_with("blocks=1024\n"));
}

#[test]
fn halls_of_two_profiles_are_refused() {
    let other = "profile Solid=31 RedstoneTorch=32\n5,0,0 Solid\n";
    assert_eq!(
        refused("merge_profile", "profile Solid=31 Piston=1\n0,0,0 Solid\n", other, &[]),
        "hall: second.hall: its profile has RedstoneTorch=32, and that of standard input has RedstoneTorch=0: write the \
         same line `profile` into both, or give a profile for both with --profile.\n"
    );
    let profile = file("merge_profile_both", "one.txt", "profile Solid=7\n");
    let (text, _) = written("merge_profile_given", LEVER, other, &["--profile", &profile]);
    assert_eq!(text, "profile Solid=7\nblocks=2\n0,1,0 Lever\n5,0,0 Solid\n");
}

/// Whichever of them has it.
#[test]
fn the_byte_of_the_bulb_may_be_missing_in_one() {
    let without = "profile Solid=31\n0,0,0 Solid\n";
    let with = "profile Solid=31 CopperBulb=5\n1,0,0 CopperBulb\n";
    let both = "profile Solid=31 CopperBulb=5\nblocks=2\n0,0,0 Solid\n1,0,0 CopperBulb\n";
    assert_eq!(written("merge_bulb_second", without, with, &[]).0, both);
    assert_eq!(written("merge_bulb_first", with, without, &[]).0, both);
    let none = written("merge_bulb_none", without, &without.replace("0,0,0", "4,0,0"), &[]).0;
    assert!(none.starts_with("profile Solid=31\nblocks=2\n"), "{none}");
    let said = refused("merge_bulb_unlike", with, &with.replace("=5", "=7"), &["--by", "9,0,0"]);
    assert!(said.contains("has CopperBulb=7, and that of standard input has CopperBulb=5: "), "{said}");
    // The bench profile of a packed file has 13 bytes, and a text without a profile has 14.
    let packed = [&BENCH_PROFILE[..], &redstone::table([Row::new(Kind::Solid, [9, 9, 9])])].concat();
    let text = file("merge_bulb_text", "text.hall", "0,0,0 CopperBulb\n");
    let done = hall_with(&["merge", "-", &text], &packed);
    assert_eq!((done.status, done.text()), (Some(0), "blocks=2\n0,0,0 CopperBulb\n9,9,9 Solid\n"));
    assert_eq!(packed.len(), PROFILE_BYTES + ROW_BYTES);
}

#[test]
fn the_hall_that_cannot_be_read_is_named() {
    let good = file("merge_good", "good.hall", LEVER);
    let bad = "0,0,0 Solid\n0,0,0 Levr\n";
    for words in [["merge", "-", &good], ["merge", &good, "-"]] {
        let done = hall_with(&words, bad.as_bytes());
        assert_eq!((done.status, done.text()), (Some(2), ""));
        let said = "hall: standard input:2:7: found \"Levr\", expected a kind: did you mean Lever?\n";
        assert_eq!(done.err, said);
    }
    let over = refused("merge_over", LEVER, "0,0,0 Solid\n0,1,0 Comparator level=16\n", &[]);
    assert!(over.starts_with("hall: second.hall:2: refusal 10, overdriven: row 1 at 0,1,0: "), "{over}");
}

#[test]
fn nothing_is_written_where_it_is_refused() {
    let out = folder("merge_out").join("both.hall");
    fs::write(&out, "an older hall").expect("a file");
    let name = out.to_str().expect("UTF-8");
    let words = ["halls/rooms/lever-room.hall", "halls/rooms/lamp-room.hall", "-o", name];
    let done = hall(&[&["merge"], &words[..]].concat());
    assert_eq!((done.status, done.text()), (Some(2), ""));
    assert_eq!(fs::read_to_string(&out).expect("a file"), "an older hall");
    // A file is the same as standard output.
    let done = hall(&[&MERGED_ROOMS[..], &["-o", name]].concat());
    assert_eq!((done.status, done.text()), (Some(0), ""), "{}", done.err);
    assert_eq!(fs::read(&out).expect("a file"), hall(&MERGED_ROOMS).out);
}

#[test]
fn a_full_disk_is_told_and_nothing_else() {
    let line = format!("$hall {} >/dev/full", MERGED_ROOMS.join(" "));
    let done = run(Command::new("sh").args(["-c", &line]).env("hall", env!("CARGO_BIN_EXE_hall")), b"");
    let said = "hall: standard output could not be written: the disk is full.\n";
    assert_eq!((done.status, done.err.as_str()), (Some(2), said));
}

/// A name may have any sign in it, and the comment with it stays one.
#[test]
fn a_name_of_two_lines_is_one_comment() {
    let name = file("merge_name", "a\n0,9,0 Solid.hall", "1,0,0 Lever\nswitch 1,0,0 on\n");
    let done = hall_with(&["merge", "-", &name], LEVER.as_bytes());
    assert!(done.text().starts_with("blocks=2\n0,1,0 Lever\n1,0,0 Lever\n\n# "), "{}", done.text());
    assert_eq!(hall_with(&["check", "-"], &done.out).status, Some(0));
}
