//! The proved programs, found and run.

use std::ffi::{OsStr, OsString};
use std::io::{self, ErrorKind, Write};
use std::path::Path;
use std::process::{ChildStdin, Command, Stdio};
use std::time::Duration;
use std::{env, thread};

/// The program of a name, or a sentence that says what is missing.
pub fn find(name: &str) -> Result<OsString, String> {
    let built = Path::new(env!("CARGO_MANIFEST_DIR")).join(format!("../../crates/{name}/out/{name}"));
    let variable = format!("{}_BIN", name.to_uppercase());
    let program = env::var_os(&variable).unwrap_or(built.into());
    if Path::new(&program).is_file() {
        return Ok(program);
    }
    Err(format!(
        "The program `{name}` is not at {}: run `rt run` in crates/{name} of the repository first, or set {variable} to \
         where it is.",
        program.display()
    ))
}

/// What a program wrote to standard output and to standard error.
pub struct Written {
    pub output: String,
    pub errors: String,
}

/// Runs a program on an input.
pub fn run(program: &OsStr, input: &[u8]) -> io::Result<Written> {
    run_fed(program, |mut stdin| stdin.write_all(input))
}

/// The same, with an input that comes a byte at a time.
pub fn run_bytewise(program: &OsStr, input: &[u8]) -> io::Result<Written> {
    run_fed(program, |mut stdin| {
        for byte in input {
            stdin.write_all(&[*byte])?;
            thread::sleep(Duration::from_micros(200));
        }
        Ok(())
    })
}

fn run_fed(program: &OsStr, feed: impl FnOnce(ChildStdin) -> io::Result<()> + Send) -> io::Result<Written> {
    let mut command = Command::new(program);
    let mut running = command.stdin(Stdio::piped()).stdout(Stdio::piped()).stderr(Stdio::piped()).spawn()?;
    let stdin = running.stdin.take().expect("standard input is piped");
    let output = thread::scope(|scope| {
        let writing = scope.spawn(move || feed(stdin));
        let output = running.wait_with_output()?;
        match writing.join().expect("writing does not panic") {
            // A program need not read all.
            Err(error) if error.kind() != ErrorKind::BrokenPipe => Err(error),
            _ => Ok(output),
        }
    })?;
    if output.status.code().is_none() {
        return Err(io::Error::other(format!("the program did not end by itself: {}", output.status)));
    }
    let text = |bytes: Vec<u8>| String::from_utf8_lossy(&bytes).into_owned();
    Ok(Written { output: text(output.stdout), errors: text(output.stderr) })
}
