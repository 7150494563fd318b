//! Output that cannot be written is noticed.

use std::process::{Command, Stdio};

use crate::support::{folder, root, run};

/// What the shell says of a line in which `$hall` is the program: the status, and what is said on standard error.
fn shell(line: &str) -> (Option<i32>, String) {
    let done = run(Command::new("sh").args(["-c", line]).env("hall", env!("CARGO_BIN_EXE_hall")), b"");
    (done.status, done.err)
}

/// Lines for the shell that show a hall.
fn shown() -> impl Iterator<Item = String> {
    let commands = ["run", "levels", "check", "csv", "report", "unpack", "clear"];
    let lines = commands.map(|command| format!("$hall {command} halls/vault-door.hall"));
    lines.into_iter().chain(["$hall feeders halls/vault-door.hall 1,1,0".to_owned()])
}

/// Those that know `-o`.
const WRITERS: [&str; 6] = ["report", "csv", "pack", "unpack", "clear", "stream"];

#[test]
fn a_full_disk() {
    let full = "hall: standard output could not be written: the disk is full.\n";
    for line in shown() {
        assert_eq!(shell(&format!("{line} >/dev/full")), (Some(2), full.into()), "{line}");
    }
    assert_eq!(shell("$hall --help >/dev/full"), (Some(2), full.into()));
    for command in ["pack", "stream"] {
        assert_eq!(
            shell(&format!("$hall {command} halls/slab-rise.hall >/dev/full")),
            (Some(2), full.into())
        );
    }
    for command in WRITERS {
        let (status, said) = shell(&format!("$hall {command} halls/slab-rise.hall -o /dev/full"));
        assert_eq!(
            (status, said.as_str()),
            (Some(2), "hall: /dev/full could not be written: the disk is full.\n")
        );
    }
}

#[test]
fn a_closed_standard_output() {
    for line in shown() {
        let (status, said) = shell(&format!("{line} >&-"));
        assert_eq!(
            (status, said.as_str()),
            (Some(2), "hall: standard output cannot be written: it is closed.\n"),
            "{line}"
        );
    }
}

#[test]
fn a_standard_output_that_is_only_for_reading() {
    let (status, said) = shell("$hall run halls/slab-rise.hall 1</dev/null");
    assert_eq!(status, Some(2));
    assert!(said.starts_with("hall: standard output could not be written: Bad file descriptor"), "{said}");
}

/// Where there is no `script`, nothing stands in for a terminal.
#[test]
fn pages_and_bytes_are_not_for_a_terminal() {
    for (command, sentence) in [
        ("report", "hall: a page is not for a terminal: name a file, as in -o hall.html."),
        ("pack", "hall: bytes are not for a terminal: name a file, as in -o hall.bin."),
        ("stream", "hall: bytes are not for a terminal: name a file, as in -o month.bin."),
    ] {
        let line = format!("{} {command} halls/slab-rise.hall", env!("CARGO_BIN_EXE_hall"));
        let mut script = Command::new("script");
        script.args(["-qec", &line, "/dev/null"]);
        if script.output().is_err() {
            return;
        }
        let done = run(&mut script, b"");
        assert_eq!((done.status, done.text().trim_end()), (Some(2), sentence));
    }
}

#[test]
fn a_pipe_that_nobody_reads() {
    let mut running = Command::new(env!("CARGO_BIN_EXE_hall"))
        .args(["csv", "halls/vault-door.hall", "--ticks", "500"])
        .current_dir(root())
        .stdout(Stdio::piped())
        .stderr(Stdio::piped())
        .spawn()
        .expect("the program starts");
    drop(running.stdout.take());
    let output = running.wait_with_output().expect("the program ends");
    assert_eq!(output.status.code(), Some(2));
    assert_eq!(
        String::from_utf8_lossy(&output.stderr),
        "hall: standard output was closed before all was written.\n"
    );
}

#[test]
fn what_is_thrown_away_on_purpose_is_written() {
    assert_eq!(shell("$hall run halls/slab-rise.hall >/dev/null"), (Some(0), String::new()));
    assert_eq!(shell("$hall run halls/slab-rise.hall 1<>/dev/null"), (Some(0), String::new()));
}

#[test]
fn a_file_is_the_same_as_standard_output() {
    let folder = folder("same");
    for command in WRITERS {
        let file = folder.join(command);
        let line = format!(
            "$hall {command} halls/slab-rise.hall -o {0} && $hall {command} halls/slab-rise.hall -o - | cmp - {0}",
            file.display()
        );
        assert_eq!(shell(&line).0, Some(0), "{line}");
    }
}
