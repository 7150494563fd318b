//! How far a command is, for who waits at a terminal.

use std::io::{self, IsTerminal, Write};
use std::time::{Duration, Instant};

/// What takes longer is shown.
const LONG: Duration = Duration::from_secs(1);
/// How often it is shown anew.
pub const BETWEEN_SIGHTS: Duration = Duration::from_millis(100);

/// How far it is, on standard error where that is a terminal and it takes long.
pub struct Progress {
    files: usize,
    is_terminal: bool,
    is_shown: bool,
    next: Instant,
}

impl Progress {
    pub fn new(files: usize) -> Self {
        Self { files, is_terminal: io::stderr().is_terminal(), is_shown: false, next: Instant::now() + LONG }
    }

    /// Whether it is time to show it, or to show it anew.
    pub fn is_due(&self) -> bool {
        self.is_terminal && self.next <= Instant::now()
    }

    /// Shows how many files are done.
    pub fn show(&mut self, done: usize) {
        write_error(&format!("{done} of {} files", self.files));
        (self.is_shown, self.next) = (true, Instant::now() + BETWEEN_SIGHTS);
    }

    /// Takes it away, before other lines.
    pub fn clear(&mut self) {
        if self.is_shown {
            write_error("\r\x1b[K");
            self.is_shown = false;
        }
    }
}

/// What cannot be shown is no reason to stop.
fn write_error(text: &str) {
    let mut errors = io::stderr();
    let _ = errors.write_all(text.as_bytes()).and_then(|()| errors.flush());
}
