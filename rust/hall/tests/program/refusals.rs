//! What is refused, and what cannot be read.

use std::fs;
use std::os::unix::fs::PermissionsExt;

use redstone::{
    BENCH_PROFILE, BENCH_PROFILE_WITH_BULB, Circuit, Kind, PROFILE_BYTES, PROFILE_BYTES_WITH_BULB, ROW_BYTES,
    Row,
};

use crate::support::{file, folder, hall, hall_with};

/// A packed table, changed by a closure.
fn packed(change: impl FnOnce(&mut Vec<u8>)) -> Vec<u8> {
    let rows = [Row::new(Kind::Solid, [0, 0, 0]), Row::new(Kind::Lever, [0, 1, 0])];
    let mut bytes = [&BENCH_PROFILE[..], &redstone::table(rows)].concat();
    change(&mut bytes);
    bytes
}

/// Asserts that every command gives this sentence of an input.
fn assert_refused(input: &[u8], place: &str, sentence: &str) {
    let on_input =
        ["run", "levels", "csv", "pack", "unpack", "clear", "stream"].map(|command| vec![command, "-"]);
    for words in on_input.into_iter().chain([vec!["feeders", "-", "0,0,0"]]) {
        let done = hall_with(&words, input);
        assert_eq!((done.status, done.text()), (Some(2), ""), "{words:?}");
        assert_eq!(done.err, format!("hall: standard input:{place} {sentence}.\n"), "{words:?}");
    }
    let done = hall_with(&["check", "-"], input);
    assert_eq!((done.status, done.err.as_str()), (Some(2), ""));
    assert_eq!(
        done.text(),
        format!(
            "standard input: REFUSED\n    standard input:{place} {sentence}\n\
             1 file: 0 ok, 0 DIFFERS, 1 REFUSED; 0 expectations, 0 not met\n"
        )
    );
    let done = hall_with(&["report", "-"], input);
    assert_eq!(done.status, Some(2));
    assert!(done.text().contains("<p class=\"verdict refused\">REFUSED</p>"), "{}", done.text());
    assert_eq!(done.err, format!("hall: standard input:{place} {sentence}.\n"));
}

const PACKED: &str = " (it was taken for the packed form, since it has a zero byte)";

/// What the library says of a packed table under a profile of 13 bytes.
fn refusal(bytes: &[u8]) -> String {
    let (profile, table) = bytes.split_at(bytes.len().min(PROFILE_BYTES));
    Circuit::from_table(profile, table).expect_err("a table that is refused").to_string()
}

#[test]
fn each_refusal_of_the_packed_form() {
    for (bytes, number) in [
        (packed(|bytes| bytes.truncate(12)), "refusal 1, profile: "),
        (packed(|bytes| bytes[0] = 1), "refusal 1, profile: "),
        (packed(|bytes| bytes[1] = 32), "refusal 1, profile: "),
        (packed(|bytes| bytes[4] = 64), "refusal 1, profile: "),
        (packed(|bytes| bytes[13 + 13] = 7), "refusal 4, bad row: row 0 at 0,0,0: "),
        (packed(|bytes| bytes[13..].rotate_left(ROW_BYTES)), "refusal 5, misplaced: row 1 at 0,0,0 "),
    ] {
        let sentence = refusal(&bytes);
        assert!(sentence.starts_with(number), "{sentence}");
        assert_refused(&bytes, "", &format!("{sentence}{PACKED}"));
    }
}

/// As the program `settle` has it, before all else.
#[test]
fn more_bytes_than_a_table_may_have_are_refusal_3() {
    let sentence = format!(
        "refusal 3, crowded: there are more than 32782 bytes, 14 of profile and 1024 rows of 32{PACKED}"
    );
    assert_refused(&vec![0; 32_783], "", &sentence);
    assert_refused(&vec![0; 1_000_000], "", &sentence);
    let zero = hall(&["run", "/dev/zero"]);
    assert_eq!((zero.status, zero.err), (Some(2), format!("hall: /dev/zero: {sentence}.\n")));
}

/// The most rows, under a profile of 13 bytes and of 14.
#[test]
fn as_many_bytes_as_a_table_may_have_are_read() {
    let table = redstone::table((0..1024).map(|x| Row::new(Kind::Solid, [x, 0, 0])));
    for profile in [&BENCH_PROFILE[..], &BENCH_PROFILE_WITH_BULB] {
        let bytes = [profile, &table].concat();
        let done = hall_with(&["pack", "-"], &bytes);
        assert_eq!((done.status, done.out), (Some(0), bytes), "{}", done.err);
    }
}

/// The length tells a profile of 13 bytes from one of 14, and is looked at before the profile, which here is bad; but less
/// than a profile is refused as that.
#[test]
fn a_length_that_is_no_profile_and_rows_is_refusal_2() {
    for length in (1..130).chain(32_700..=32_782) {
        let mut bytes = vec![0; length];
        bytes[0] = 1;
        let done = hall_with(&["run", "-"], &bytes);
        let number = match length {
            ..13 => 1,
            _ if [PROFILE_BYTES, PROFILE_BYTES_WITH_BULB].contains(&(length % ROW_BYTES)) => 1,
            _ => 2,
        };
        let start = match (number, length) {
            (1, 1) => "hall: standard input:1:1: ".to_owned(), // no zero byte: a text
            _ => format!("hall: standard input: refusal {number}, "),
        };
        assert!(done.err.starts_with(&start), "{length} bytes: {}", done.err);
    }
    let sentence = "refusal 2, ragged: there are 50 bytes; they must be 13 of profile, or 14 with the bulb's, and 32 for \
                    each row";
    assert_refused(&packed(|bytes| bytes.truncate(50)), "", &format!("{sentence}{PACKED}"));
}

/// In a hall's line, in a file that --profile names, and packed.
#[test]
fn a_bulb_without_its_byte_of_the_profile_says_what_to_do() {
    const ROWS: &str = "0,0,0 Solid\n1,0,0 CopperBulb\n";
    let table = redstone::table([Row::new(Kind::Solid, [0, 0, 0]), Row::new(Kind::CopperBulb, [1, 0, 0])]);
    let packed = [&BENCH_PROFILE[..], &table].concat();
    let library = refusal(&packed);
    assert!(
        library.starts_with("refusal 4, bad row: row 1 at 1,0,0: kind (byte 12) is 13; that is CopperBulb,")
    );
    let sentence = format!(
        "{library} (write CopperBulb=7 into the line `profile`, or give a profile that has it with --profile)"
    );
    assert_refused(format!("profile Solid=31\n{ROWS}").as_bytes(), "3:", &sentence);
    // A packed file has no line to write into.
    let of_packed = format!("{library}, or give a profile that has the bulb's byte with --profile{PACKED}");
    assert_refused(&packed, "", &of_packed);
    assert!(![&sentence, &of_packed].iter().any(|sentence| sentence.contains(") (")));
    let without = file("bulb_without", "without.txt", "profile Solid=31\n");
    let done = hall_with(&["run", "-", "--profile", &without], ROWS.as_bytes());
    assert_eq!((done.status, done.err), (Some(2), format!("hall: standard input:2: {sentence}.\n")));

    // Each of what it says to do.
    let with = file("bulb_with", "with.txt", "profile Solid=31 CopperBulb=7\n");
    for (words, input) in [
        (vec![], format!("profile Solid=31 CopperBulb=7\n{ROWS}").into_bytes()),
        (vec!["--profile", &with], ROWS.into()),
        (vec!["--profile", &with], packed),
        (vec![], ROWS.into()),
    ] {
        let done = hall_with(&[&["unpack", "-"], &words[..]].concat(), &input);
        assert_eq!((done.status, done.err.as_str()), (Some(0), ""));
        assert!(done.text().ends_with(&format!("blocks=2\n{ROWS}")), "{}", done.text());
    }
}

/// In a hall's line, and packed.
#[test]
fn a_comparator_above_15_says_what_to_do() {
    let rows = |level| {
        let comparator = Row::new(Kind::Comparator, [0, 1, 0]).with_power_level(level);
        [Row::new(Kind::Solid, [0, 0, 0]), comparator]
    };
    let text = |level: u8| format!("0,1,0 Comparator level={level}  # the store's\n\n0,0,0 Solid\n");
    for level in [16, 200, 255] {
        let packed = [&BENCH_PROFILE[..], &redstone::table(rows(level))].concat();
        let library = refusal(&packed);
        assert_eq!(
            library,
            format!(
                "refusal 10, overdriven: row 1 at 0,1,0: power level (byte 16) is {level}; a comparator's may be at most 15"
            )
        );
        assert_refused(text(level).as_bytes(), "1:", &format!("{library} (write level=15 or less)"));
        assert_refused(
            &packed,
            "",
            &format!("{library}: set it to 15 or less in what packs the file{PACKED}"),
        );
    }
    // What it says to do, in either form.
    let packed = [&BENCH_PROFILE_WITH_BULB[..], &redstone::table(rows(15))].concat();
    let done = hall_with(&["pack", "-"], text(15).as_bytes());
    assert_eq!((done.status, done.err.as_str(), &done.out), (Some(0), "", &packed));
    let done = hall_with(&["unpack", "-"], &packed);
    assert_eq!((done.status, done.text()), (Some(0), "blocks=2\n0,0,0 Solid\n0,1,0 Comparator level=15\n"));
}

/// Of the row that comes first in the table, wherever it stands in the text.
#[test]
fn of_two_comparators_above_15_the_first_is_told() {
    let text = b"1,0,0 Comparator level=16\n0,0,0 Comparator level=17\n";
    let done = hall_with(&["run", "-"], text);
    let start =
        "hall: standard input:2: refusal 10, overdriven: row 0 at 0,0,0: power level (byte 16) is 17;";
    assert!(done.status == Some(2) && done.err.starts_with(start), "{}", done.err);
}

#[test]
fn a_lever_above_15_gives_15() {
    let text = b"0,0,0 Lever powered=true level=200\n1,0,0 RedstoneWire\n\
                 expect signal 0,0,0 = 15\nexpect dust 1,0,0 = 15\n";
    let done = hall_with(&["check", "-"], text);
    assert_eq!(done.status, Some(0), "{}", done.text());
}

#[test]
fn each_refusal_of_the_text_form() {
    let solid = |x| Row::new(Kind::Solid, [x, 0, 0]);
    let sentence =
        |profile: &[u8], rows: &[Row]| refusal(&[profile, &redstone::table(rows.iter().copied())].concat());
    let text: String = (0..1025).map(|x| format!("{x},0,0 Solid\n")).collect();
    let crowded = sentence(&BENCH_PROFILE, &(0..1025).map(solid).collect::<Vec<_>>());
    let far = sentence(&BENCH_PROFILE, &[solid(0), solid(1_000_001)]);
    let profile = sentence(&[0, 32, 0, 0, 0, 0, 0, 0, 0, 0, 0, 0, 0], &[solid(0)]);
    for (sentence, number) in [(&crowded, 3), (&far, 4), (&profile, 1)] {
        assert!(sentence.starts_with(&format!("refusal {number}, ")), "{sentence}");
    }
    assert_refused(text.as_bytes(), "", &crowded);
    assert_refused(b"0,0,0 Solid\n\n1000001,0,0 Solid\n", "3:", &far);
    assert_refused(b"profile Solid=32\n0,0,0 Solid\n", "", &profile);
    assert_refused(
        b"0,0,0 Solid\n0,0,0 Lever\n",
        "2:1:",
        "found \"0,0,0\" again, expected another position than line 1 has",
    );
    assert_refused(b"", "1:1:", "found the end of the text, expected a row, or blocks=0");
    assert_refused(
        b"blocks=2\n0,0,0 Solid\n",
        "1:8:",
        "found \"2\", expected 1, the number of rows that there are",
    );
    assert_refused(
        b"0,0,0 Solid\n# caf\xe9\n",
        "2:",
        "the text is not UTF-8, nor is it the packed form: save it as UTF-8",
    );
    let long = "#".repeat(5 << 20);
    assert_refused(long.as_bytes(), "", "the text has more than 4194304 bytes: a hall has at most 1024 rows");
}

/// In a hall's line, in a file that --profile names, and packed.
#[test]
fn a_profile_that_no_torch_or_lever_may_have_says_what_it_may_be() {
    let number = "refusal 1, profile: byte";
    for (field, at, byte, sentence) in [
        ("RedstoneTorch=64", 4, 64, "4 of the profile, RedstoneTorch's, is 64; it may be at most 63"),
        (
            "Lever=32",
            7,
            32,
            "7 of the profile, Lever's, is 32; it may be at most 31: take 32 off, which RedstoneTorch's alone may have",
        ),
    ] {
        let line = format!("profile Solid=31 {field}\n");
        assert_refused(format!("{line}0,0,0 Solid\n").as_bytes(), "", &format!("{number} {sentence}"));
        assert_refused(&packed(|bytes| bytes[at] = byte), "", &format!("{number} {sentence}{PACKED}"));
        let profile = file("profile_of_torch", "profile.txt", line);
        let done = hall(&["run", "halls/vault-door.hall", "--profile", &profile]);
        assert_eq!((done.status, done.err), (Some(2), format!("hall: {profile}: {number} {sentence}.\n")));
    }
}

/// As a hall's line, as one in a file that --profile names, as 13 bytes there, and packed.
#[test]
fn the_value_of_the_torch_is_taken_wherever_a_profile_stands() {
    const ROWS: &str = "0,0,0 RedstoneTorch\n0,1,0 Solid\n";
    for (byte, strong) in [(31, 0), (32, 15), (63, 15)] {
        let line = format!("profile Solid=31 RedstoneTorch={byte}\n");
        let profile = [0, 31, 0, 0, byte, 0, 0, 0, 0, 0, 0, 0, 0];
        let text = file("torch_line", "line.txt", &line);
        let bytes = file("torch_bytes", "bytes.bin", profile);
        let table = hall_with(&["pack", "-"], ROWS.as_bytes()).out.split_off(PROFILE_BYTES_WITH_BULB);
        for (words, input) in [
            (vec![], format!("{line}{ROWS}").into_bytes()),
            (vec!["--profile", &text], ROWS.into()),
            (vec!["--profile", &bytes], ROWS.into()),
            (vec![], [&profile[..], &table].concat()),
        ] {
            let done = hall_with(&[&["csv", "-", "--ticks=0"], &words[..]].concat(), &input);
            assert_eq!(done.status, Some(0), "{}", done.err);
            let row = format!("\n0,0,1,0,Solid,0,0,{strong},");
            assert!(done.text().contains(&row), "{byte}, {words:?}: {}", done.text());
        }
        let written = hall_with(&["unpack", "-"], &[&profile[..], &table].concat());
        assert_eq!(written.text(), format!("{line}blocks=2\n{ROWS}"));
    }
}

#[test]
fn a_mark_before_the_text_and_line_ends_of_two_signs_are_read() {
    let done = hall_with(&["unpack", "-"], "\u{feff}# caf\u{e9}\r\n0,0,0 Solid\r\n".as_bytes());
    assert_eq!((done.status, done.text()), (Some(0), "blocks=1\n0,0,0 Solid\n"));
}

#[test]
fn a_hall_without_rows_is_shown() {
    for command in ["run", "levels", "check", "csv", "report", "unpack"] {
        let done = hall_with(&[command, "-"], b"blocks=0\n");
        assert_eq!((done.status, done.err.as_str()), (Some(0), ""), "{command}");
    }
}

#[test]
fn another_profile_is_taken_for_the_file() {
    // With a profile in which nothing takes power, the lever's block has none.
    let text = file("profile", "none.txt", "# Nothing takes power.\nprofile\n");
    let bytes = file("profile_bytes", "none.bin", [0; 13]);
    let with_bulb = file("profile_with_bulb", "none.bin", [0; 14]);
    for name in [&text, &bytes, &with_bulb] {
        let done =
            hall(&["csv", "halls/vault-door.hall", "--ticks=0", "--switch=0:0,1,0=on", "--profile", name]);
        assert_eq!(done.status, Some(0), "{}", done.err);
        assert!(done.text().contains("\n0,0,0,0,Solid,0,0,0,"), "{}", done.text());
    }
    let bench = hall(&["csv", "halls/vault-door.hall", "--ticks=0", "--switch=0:0,1,0=on"]);
    assert!(bench.text().contains("\n0,0,0,0,Solid,0,0,15,"), "{}", bench.text());
    for (name, content, sentence) in [
        ("rows.txt", "0,0,0 Solid\n", ":1:1: found \"0,0,0\", expected the line of a profile: profile"),
        ("kind.txt", "profile Slid=3\n", ":1:9: found \"Slid\", expected a kind: did you mean Solid?"),
        ("empty.txt", "", ": there is no profile in it: write a line as `profile Solid=31 Piston=1`"),
    ] {
        let profile = file("profile_wrong", name, content);
        let done = hall(&["run", "halls/vault-door.hall", "--profile", &profile]);
        let end = if sentence.ends_with('?') { "" } else { "." };
        assert_eq!((done.status, done.err), (Some(2), format!("hall: {profile}{sentence}{end}\n")));
    }
    // The file at fault is named, and no hall.
    let short = file("profile_short", "short.bin", [0; 12]);
    let long = file("profile_long", "long.bin", [0; 15]);
    let large = file("profile_large", "large.txt", "profile Solid=32\n");
    for name in [&short, &long, &large] {
        for command in ["run", "check"] {
            let done = hall(&[command, "halls/vault-door.hall", "--profile", name]);
            assert_eq!((done.status, done.text()), (Some(2), ""), "{command}");
            assert!(done.err.starts_with(&format!("hall: {name}: refusal 1, profile: ")), "{}", done.err);
        }
    }
}

#[test]
fn a_file_that_ends_within_its_profile_is_refused_with_another_profile_too() {
    let profile = file("profile_bench", "bench.bin", BENCH_PROFILE);
    for length in [1, 12] {
        let bytes = packed(|bytes| bytes.truncate(length));
        let done = hall_with(&["run", "-", "--profile", &profile], &bytes);
        assert_eq!((done.status, done.text()), (Some(2), ""), "{length} bytes");
        assert_eq!(done.err, format!("hall: standard input: {}{PACKED}.\n", refusal(&bytes)));
    }
    // One that ends with its profile, of either length, has the other.
    let line = "profile Solid=31 Transparent=1 RedstoneLamp=31 RedstoneBlock=1\n";
    for length in [PROFILE_BYTES, PROFILE_BYTES_WITH_BULB] {
        let whole = hall_with(&["unpack", "-", "--profile", &profile], &vec![0; length]);
        assert_eq!(
            (whole.status, whole.text()),
            (Some(0), format!("{line}blocks=0\n").as_str()),
            "{}",
            whole.err
        );
    }
}

/// A mistyped name costs no page that was there.
#[test]
fn a_file_that_cannot_be_read_leaves_an_older_page() {
    let page = folder("older_page").join("a.html");
    fs::write(&page, "the older page").expect("a file");
    let done = hall(&["report", "halls/vault-door", "-o", page.to_str().expect("UTF-8")]);
    assert_eq!(
        (done.status, done.err.as_str()),
        (Some(2), "hall: halls/vault-door: there is no such file: did you mean halls/vault-door.hall?\n")
    );
    assert_eq!(fs::read_to_string(&page).expect("a file"), "the older page");
}

#[test]
fn a_folder_a_missing_file_and_a_locked_one() {
    let done = hall(&["run", "halls"]);
    assert_eq!(
        (done.status, done.err.as_str()),
        (Some(2), "hall: halls: this is a folder: name files, as in halls/*.hall.\n")
    );
    let done = hall(&["check", "halls", "halls/none.hall", "halls/fading-line.hall"]);
    assert_eq!(done.status, Some(2));
    assert_eq!(
        done.text(),
        "halls: REFUSED\n    halls: this is a folder: name files, as in halls/*.hall\n\
         halls/none.hall: REFUSED\n    halls/none.hall: there is no such file: look at its name, or begin one with \
         `hall new`\n\
         halls/fading-line.hall: ok, 6 expectations\n\
         3 files: 1 ok, 0 DIFFERS, 2 REFUSED; 6 expectations, 0 not met\n"
    );
    let locked = folder("locked").join("a.hall");
    fs::write(&locked, "0,0,0 Solid\n").expect("a file");
    fs::set_permissions(&locked, fs::Permissions::from_mode(0o000)).expect("a mode");
    // Who may read all files may read this one.
    if fs::read(&locked).is_err() {
        let done = hall(&["run", locked.to_str().expect("UTF-8")]);
        assert!(
            done.status == Some(2) && done.err.contains("it may not be read: see who may"),
            "{}",
            done.err
        );
    }
}
