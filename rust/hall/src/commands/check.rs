//! `hall check`: what the files expect, beside what the bench gives.

use std::collections::BTreeMap;
use std::ffi::{OsStr, OsString};
use std::fmt::Write as _;
use std::io::Write;
use std::sync::atomic::{AtomicBool, AtomicUsize, Ordering};
use std::sync::mpsc::{self, Receiver, RecvTimeoutError};
use std::thread;

use redstone::Refusal;

use crate::arguments::Arguments;
use crate::command::{Command, Failure, PROFILE, Status};
use crate::expect::{Met, meet};
use crate::hint::hints;
use crate::input;
use crate::name::counted;
use crate::progress::{self, Progress};
use crate::{DEFAULT_TICKS, Hall, Refused, Run};

pub const COMMAND: Command = Command {
    name: "check",
    operands: "FILES..",
    summary: "compares what the files expect with what the bench gives",
    help: "\
A file may have lines with expectations beside its rows:

    expect blocks = 27
    expect rounds = 12
    expect dust 5,1,0 = 7
    expect tick 8 lamp 12,1,0 dark

Without `tick` an expectation is about tick 0. Each may be about: dust, comparator, signal, weak or strong, with a position
and a level from 0 to 15; lamp or bulb (lit, dark), torch (lit, out), candidate (yes, no) or repeater (on, off), with a
position; rounds or blocks. A line that cannot be read, or that speaks of a position where no such block stands, is an
error.
Each file has a line: ok, DIFFERS or REFUSED, with the number of hints that `hall run` gives, where the game is known to
differ. The files are run on all cores, and their lines stand in the order given.",
    options: &[&PROFILE],
    run,
};

fn run(arguments: &Arguments, out: &mut dyn Write) -> Result<Status, Failure> {
    let files = arguments.files()?;
    let profile = arguments.profile()?;
    let (next, stop) = (AtomicUsize::new(0), AtomicBool::new(false));
    let cores = thread::available_parallelism().map_or(1, usize::from).min(files.len());
    thread::scope(|scope| {
        let (send, checked) = mpsc::channel();
        for _ in 0..cores {
            let (send, profile, next, stop) = (send.clone(), profile.as_deref(), &next, &stop);
            scope.spawn(move || {
                while !stop.load(Ordering::Relaxed) {
                    let number = next.fetch_add(1, Ordering::Relaxed);
                    let Some(file) = files.get(number) else { break };
                    if send.send((number, Checked::of(file, profile))).is_err() {
                        break;
                    }
                }
            });
        }
        drop(send);
        let status = write_in_order(files, &checked, out);
        stop.store(true, Ordering::Relaxed);
        status
    })
}

/// Writes what is found of each file once it and all before it are there, and the sum.
fn write_in_order(
    files: &[OsString],
    checked: &Receiver<(usize, Checked)>,
    out: &mut dyn Write,
) -> Result<Status, Failure> {
    let (mut sum, mut waiting, mut progress) = (Sum::default(), BTreeMap::new(), Progress::new(files.len()));
    let mut written = 0;
    while written < files.len() {
        match checked.recv_timeout(progress::BETWEEN_SIGHTS) {
            Ok((number, found)) => drop(waiting.insert(number, found)),
            Err(RecvTimeoutError::Timeout) => {}
            Err(RecvTimeoutError::Disconnected) => break,
        }
        while let Some(found) = waiting.remove(&written) {
            progress.clear();
            out.write_all(found.text.as_bytes())?;
            sum.add(&found);
            written += 1;
        }
        if progress.is_due() {
            // What is known is to be seen while the rest takes long.
            progress.clear();
            out.flush()?;
            progress.show(written + waiting.len());
        }
    }
    progress.clear();
    writeln!(out, "{sum}")?;
    Ok(sum.status)
}

/// What is found of a file.
struct Checked {
    status: Status,
    expectations: usize,
    differences: usize,
    hints: usize,
    text: String,
}

impl Checked {
    fn of(file: &OsStr, profile: Option<&[u8]>) -> Self {
        let found = input::read(file, profile).and_then(|hall| {
            let (met, hints) =
                run_hall(&hall).map_err(|refusal| Refused::file(&hall.name, refusal.to_string()))?;
            Ok((hall.name, met, hints))
        });
        match found {
            Ok((name, met, hints)) => Self::met(&name, &met, hints),
            Err(refused) => Self::refused(&refused),
        }
    }

    fn met(name: &str, met: &[Met], hints: usize) -> Self {
        let differing: Vec<_> = met.iter().filter(|met| !met.is_met).collect();
        let expectations = counted(met.len(), "expectation");
        let mut text = match (met.len(), differing.len()) {
            (0, _) => format!("{name}: ok, nothing is expected"),
            (_, 0) => format!("{name}: ok, {expectations}"),
            (_, differences) => format!("{name}: DIFFERS, {differences} of {expectations}"),
        };
        if hints > 0 {
            let _ = write!(text, "; {}, see `hall run`", counted(hints, "hint"));
        }
        text.push('\n');
        for met in &differing {
            let _ = writeln!(text, "    {name}:{}: {met}", met.expectation.line);
        }
        let status = if differing.is_empty() { Status::Good } else { Status::Differs };
        Self { status, expectations: met.len(), differences: differing.len(), hints, text }
    }

    fn refused(refused: &Refused) -> Self {
        let text = format!("{}: REFUSED\n    {refused}\n", refused.file);
        Self { status: Status::Refused, expectations: 0, differences: 0, hints: 0, text }
    }
}

/// What a hall's expectations are given, and how many hints its run has.
fn run_hall(hall: &Hall) -> Result<(Vec<Met>, usize), Refusal> {
    let run = Run::new(hall, DEFAULT_TICKS)?;
    Ok((meet(hall, &run)?, hints(hall, &run)?.len()))
}

/// The sum at the end.
struct Sum {
    status: Status,
    files: [usize; 3],
    expectations: usize,
    differences: usize,
    hints: usize,
}

impl Default for Sum {
    fn default() -> Self {
        Self { status: Status::Good, files: [0; 3], expectations: 0, differences: 0, hints: 0 }
    }
}

impl Sum {
    fn add(&mut self, found: &Checked) {
        self.status = self.status.max(found.status);
        self.files[found.status as usize] += 1;
        self.expectations += found.expectations;
        self.differences += found.differences;
        self.hints += found.hints;
    }
}

impl std::fmt::Display for Sum {
    fn fmt(&self, f: &mut std::fmt::Formatter<'_>) -> std::fmt::Result {
        let [good, differing, refused] = self.files;
        let files = counted(good + differing + refused, "file");
        write!(f, "{files}: {good} ok, {differing} DIFFERS, {refused} REFUSED; ")?;
        write!(f, "{}, {} not met", counted(self.expectations, "expectation"), self.differences)?;
        match self.hints {
            0 => Ok(()),
            hints => write!(f, "; {}", counted(hints, "hint")),
        }
    }
}
