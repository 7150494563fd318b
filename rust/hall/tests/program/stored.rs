//! Every command on every sample, beside what is stored of it in tests/stored.
//!
//! Where a change is meant, `HALL_STORE=1 cargo test -p hall stored` stores the outputs anew.

use std::collections::BTreeSet;
use std::path::{Path, PathBuf};
use std::{env, fs};

use crate::support::{MERGED_ROOMS, bench_samples, file, hall, samples};

/// The words of a case, and the name of the file that holds what it writes.
fn cases() -> Vec<(Vec<String>, String)> {
    let words = |text: &str| text.split(' ').map(str::to_owned).collect::<Vec<_>>();
    let mut cases = Vec::new();
    for sample in samples() {
        let name = Path::new(&sample).file_stem().and_then(|name| name.to_str()).expect("a name").to_owned();
        for (command, end) in [
            ("run", "run.txt"),
            ("run --ticks 60", "run-60.txt"),
            ("levels", "levels.txt"),
            ("levels --tick 6", "levels-6.txt"),
            ("check", "check.txt"),
            ("csv --ticks 3", "csv"),
            ("report", "html"),
            ("pack", "bin"),
            ("unpack", "unpack.txt"),
            ("clear", "clear.txt"),
            ("clear -o -", "cleared.txt"),
        ] {
            cases.push((words(&format!("{command} {sample}")), format!("{name}.{end}")));
        }
    }
    cases.push((words(&format!("stream {}", bench_samples().join(" "))), "samples.stream.bin".to_owned()));
    cases.push((MERGED_ROOMS.map(str::to_owned).to_vec(), "rooms.merge.txt".to_owned()));
    for (position, end) in [("4,2,0", "feeders"), ("5,1,0", "feeders-down"), ("1,1,0", "feeders-none")] {
        let command = format!("feeders halls/slab-rise.hall {position}");
        cases.push((words(&command), format!("slab-rise.{end}.txt")));
    }
    for command in [
        "new", "run", "levels", "feeders", "check", "report", "csv", "pack", "unpack", "merge", "clear",
        "stream",
    ] {
        cases.push((words(&format!("{command} --help")), format!("help-{command}.txt")));
    }
    cases.push((words("--help"), "help.txt".to_owned()));
    cases
}

fn stored() -> PathBuf {
    Path::new(env!("CARGO_MANIFEST_DIR")).join("tests/stored")
}

const STORE: &str = "HALL_STORE=1 cargo test -p hall stored";

#[test]
fn every_command_writes_what_is_stored() {
    let stores = env::var_os("HALL_STORE").is_some();
    let mut wrong = Vec::new();
    for (words, name) in cases() {
        let done = hall(&words.iter().map(String::as_str).collect::<Vec<_>>());
        assert_eq!(done.status, Some(0), "hall {}: {}", words.join(" "), done.err);
        let path = stored().join(&name);
        if stores {
            fs::create_dir_all(stored())
                .and_then(|()| fs::write(&path, &done.out))
                .expect("a file is stored");
            continue;
        }
        let known = fs::read(&path).unwrap_or_default();
        if known != done.out {
            wrong.push(format!("hall {}\n{}", words.join(" "), difference(&name, &known, &done.out)));
        }
    }
    let all: BTreeSet<_> = cases().into_iter().map(|(_, name)| name).collect();
    for entry in fs::read_dir(stored()).expect("tests/stored") {
        let name = entry.expect("an entry").file_name().into_string().expect("UTF-8");
        if !all.contains(&name) {
            wrong.push(format!("tests/stored/{name} is of no command: take it away"));
        }
    }
    assert!(wrong.is_empty(), "{}\n\nIf the change is meant: {STORE}", wrong.join("\n\n"));
}

/// The lines in which two texts differ, with the lines around them: `-` stored, `+` written.
fn difference(name: &str, stored: &[u8], written: &[u8]) -> String {
    const AROUND: usize = 2;
    const MOST: usize = 30;
    let lines = |bytes: &[u8]| -> Vec<String> {
        match str::from_utf8(bytes) {
            Ok(text) if !text.contains('\0') => text.lines().map(str::to_owned).collect(),
            _ => bytes.chunks(16).map(|chunk| format!("{chunk:02x?}")).collect(),
        }
    };
    let (old, new) = (lines(stored), lines(written));
    let same = |pairs: usize| pairs.min(old.len()).min(new.len());
    let before = (0..same(usize::MAX)).take_while(|at| old[*at] == new[*at]).count();
    let after = (0..same(usize::MAX) - before)
        .take_while(|at| old[old.len() - 1 - at] == new[new.len() - 1 - at])
        .count();
    let mut text = format!("tests/stored/{name}, from line {}:\n", before + 1);
    let mut add = |sign: &str, lines: &[String]| {
        for line in lines.iter().take(MOST) {
            text += &format!("{sign} {line}\n");
        }
        if lines.len() > MOST {
            text += &format!("{sign} .. {} lines more\n", lines.len() - MOST);
        }
    };
    add(" ", &old[before.saturating_sub(AROUND)..before]);
    add("-", &old[before..old.len() - after]);
    add("+", &new[before..new.len() - after]);
    add(" ", &old[old.len() - after..][..after.min(AROUND)]);
    text
}

#[test]
fn a_difference_is_shown_by_its_lines() {
    let shown = difference("a.txt", b"1\n2\n3\n4\n5\n6\n", b"1\n2\n3\nx\ny\n5\n6\n");
    assert_eq!(shown, "tests/stored/a.txt, from line 4:\n  2\n  3\n- 4\n+ x\n+ y\n  5\n  6\n");
    assert_eq!(difference("a.bin", b"\0", b"\x01"), "tests/stored/a.bin, from line 1:\n- [00]\n+ \u{1}\n");
}

#[test]
fn a_new_hall_is_whole_and_as_it_expects() {
    let first = file("new_hall", "other", "");
    let name = Path::new(&first).with_file_name("door");
    let name = name.to_str().expect("UTF-8");
    let made = hall(&["new", name]);
    assert_eq!(made.status, Some(0), "{}", made.err);
    assert_eq!(
        made.text(),
        format!(
            "{name}.hall is written. Try `hall run {name}.hall` and `hall check {name}.hall`, and change it.\n"
        )
    );
    let checked = hall(&["check", &format!("{name}.hall")]);
    assert_eq!(checked.status, Some(0));
    assert!(checked.text().contains(": ok, 4 expectations"), "{}", checked.text());
    let again = hall(&["new", &format!("{name}.hall")]);
    assert_eq!(again.status, Some(2));
    assert_eq!(again.err, format!("hall: {name}.hall is there already: take another name.\n"));
}
