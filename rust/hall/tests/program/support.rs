//! Runs the program and keeps what it writes.

use std::fs;
use std::io::Write;
use std::path::{Path, PathBuf};
use std::process::{Command, Stdio};
use std::thread;

/// What a program wrote, and how it ended.
pub struct Done {
    pub status: Option<i32>,
    pub out: Vec<u8>,
    pub err: String,
}

impl Done {
    pub fn text(&self) -> &str {
        str::from_utf8(&self.out).expect("UTF-8")
    }
}

/// The repository's root, where the program is run.
pub fn root() -> PathBuf {
    fs::canonicalize(Path::new(env!("CARGO_MANIFEST_DIR")).join("../..")).expect("the root")
}

/// Runs `hall` with these words.
pub fn hall(words: &[&str]) -> Done {
    hall_with(words, b"")
}

/// Runs `hall` with these words and this standard input.
pub fn hall_with(words: &[&str], input: &[u8]) -> Done {
    run(Command::new(env!("CARGO_BIN_EXE_hall")).args(words), input)
}

/// Runs a program in the repository's root.
pub fn run(command: &mut Command, input: &[u8]) -> Done {
    let command =
        command.current_dir(root()).stdin(Stdio::piped()).stdout(Stdio::piped()).stderr(Stdio::piped());
    let mut running = command.spawn().expect("the program starts");
    let mut stdin = running.stdin.take().expect("standard input is piped");
    let output = thread::scope(|scope| {
        // A program may end before it has read all.
        scope.spawn(move || drop(stdin.write_all(input)));
        running.wait_with_output().expect("the program ends")
    });
    Done {
        status: output.status.code(),
        out: output.stdout,
        err: String::from_utf8(output.stderr).expect("UTF-8"),
    }
}

/// The sample halls, as in `halls/vault-door.hall`.
pub fn samples() -> Vec<String> {
    [bench_samples(), charging_samples(), names(BULBS), names(ROOMS), names(IMPORTED)].concat()
}

/// Those of the bench profile without bulbs, as `halls/*.hall` names them.
pub fn bench_samples() -> Vec<String> {
    let folders = [CHARGING, BULBS, ROOMS, IMPORTED];
    names("halls").into_iter().filter(|name| !folders.contains(&name.as_str())).collect()
}

/// Those of the bench profile with the value by which torches charge the block above.
pub fn charging_samples() -> Vec<String> {
    names(CHARGING)
}

const CHARGING: &str = "halls/charging";
const BULBS: &str = "halls/bulbs";
const ROOMS: &str = "halls/rooms";
const IMPORTED: &str = "halls/imported";

/// Two rooms, and the offset by which the second is beside the first.
pub const MERGED_ROOMS: [&str; 5] =
    ["merge", "halls/rooms/lever-room.hall", "halls/rooms/lamp-room.hall", "--by", "3,0,0"];

/// What stands in a folder of the repository.
fn names(folder: &str) -> Vec<String> {
    let name = |entry: std::io::Result<fs::DirEntry>| {
        format!("{folder}/{}", entry.expect("an entry").file_name().to_str().expect("a name in UTF-8"))
    };
    let mut names: Vec<_> = fs::read_dir(root().join(folder)).expect(folder).map(name).collect();
    names.sort();
    names
}

/// An empty folder for a test.
pub fn folder(test: &str) -> PathBuf {
    let path = Path::new(env!("CARGO_TARGET_TMPDIR")).join(test);
    let _ = fs::remove_dir_all(&path);
    fs::create_dir_all(&path).expect("a folder");
    path
}

/// A file with this content, by its name.
pub fn file(test: &str, name: &str, content: impl AsRef<[u8]>) -> String {
    let path = folder(test).join(name);
    fs::write(&path, content).expect("a file");
    path.to_str().expect("a name in UTF-8").to_owned()
}
