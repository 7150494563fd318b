//! Links the static library of the proved calls.
//!
//! It is taken from the folder that REDSTONE_LIB names, or else from `target/staticlib` of the repository. Missing there,
//! or older than the crates that it is made of, it is built anew: `rt lib` leaves it in the folder of its crate.

use std::collections::BTreeSet;
use std::env;
use std::ffi::OsStr;
use std::fs::{self, File, OpenOptions};
use std::io::{self, BufRead, BufReader, ErrorKind, Write};
use std::os::unix::process::parent_id;
use std::path::{Path, PathBuf};
use std::process::{Command, ExitStatus, exit};
use std::time::{Instant, SystemTime};

const LIBRARY: &str = "libredstone.a";
/// The crate that it is, and what `rt lib` makes of that crate.
const CRATE: &str = "redstone_c";
const MADE: &str = "out/libredstone_c.a";

fn main() {
    refuse_other_targets();
    println!("cargo:rerun-if-changed=build.rs");
    println!("cargo:rerun-if-env-changed=REDSTONE_LIB");
    let package = PathBuf::from(variable("CARGO_MANIFEST_DIR"));
    let root = fs::canonicalize(package.join("../..")).unwrap_or(package);
    let sources = Sources::of(&root);
    sources.watch();
    let library = match env::var_os("REDSTONE_LIB") {
        Some(folder) => named(&folder, &sources),
        None => built(&root, &sources),
    };
    let folder = library.parent().unwrap_or(Path::new("/"));
    println!("cargo:rerun-if-changed={}", library.display());
    println!("cargo:rustc-link-search=native={}", folder.display());
    println!("cargo:rustc-link-lib=static=redstone");
    // For the tests that compile C programs.
    println!("cargo:rustc-env=REDSTONE_ARCHIVE={}", library.display());
}

fn fail(sentence: &str) -> ! {
    eprintln!("{sentence}");
    exit(1)
}

fn variable(name: &str) -> String {
    env::var(name)
        .unwrap_or_else(|error| fail(&format!("cargo sets {name} for a build script, but: {error}.")))
}

fn refuse_other_targets() {
    let target = [
        variable("CARGO_CFG_TARGET_ARCH"),
        variable("CARGO_CFG_TARGET_OS"),
        variable("CARGO_CFG_TARGET_POINTER_WIDTH"),
    ];
    if target != ["x86_64", "linux", "64"] {
        fail(&format!(
            "The proved library is for x86-64 Linux alone, and this build is for {}: build for \
             x86_64-unknown-linux-gnu.",
            variable("TARGET")
        ));
    }
}

/// The library in the folder that REDSTONE_LIB names, from where cargo was called.
fn named(folder: &OsStr, sources: &Sources) -> PathBuf {
    if Path::new(folder).is_relative() {
        println!("cargo:rerun-if-env-changed=PWD");
    }
    let library = callers_folder().join(folder).join(LIBRARY);
    let Some(time) = modified(&library) else {
        fail(&format!(
            "REDSTONE_LIB is {}, but there is no {}: put the library there, or unset REDSTONE_LIB.",
            folder.display(),
            library.display()
        ));
    };
    if let Some(newer) = sources.newer_than(time) {
        println!(
            "cargo:warning={} is newer than {}, which REDSTONE_LIB names and which is linked as it is",
            newer.display(),
            library.display()
        );
    }
    library
}

/// Cargo runs a build script in its package; cargo itself stands where it was called.
fn callers_folder() -> PathBuf {
    let of_cargo = fs::read_link(format!("/proc/{}/cwd", parent_id())).ok();
    of_cargo.or_else(|| env::var_os("PWD").map(PathBuf::from)).unwrap_or_default()
}

/// The library of the repository, built where it is missing or older than a source.
fn built(root: &Path, sources: &Sources) -> PathBuf {
    let library = root.join("target/staticlib").join(LIBRARY);
    let reason = match modified(&library) {
        None => Some(format!("there is no {}", library.display())),
        Some(time) => sources
            .newer_than(time)
            .map(|newer| format!("{} is newer than {}", newer.display(), library.display())),
    };
    if let Some(reason) = reason {
        let began = SystemTime::now();
        let made = build(root, &reason);
        if let Err(error) = take(&made, &library, began) {
            fail(&format!(
                "`rt lib` ran, but {} cannot be put at {}: {error}.",
                made.display(),
                library.display()
            ));
        }
        if let Some(newer) = sources.newer_than(began) {
            fail(&format!("{} changed while the proved library was built: build again.", newer.display()));
        }
    }
    library
}

/// Copies what was built to where it is linked from, as of the time at which its building began: a source that changes
/// while the library is built is newer than the library.
fn take(made: &Path, library: &Path, began: SystemTime) -> io::Result<()> {
    fs::create_dir_all(library.parent().unwrap_or(Path::new("/")))?;
    // Under another name first, so that nothing links half a library.
    let new = library.with_extension("new");
    fs::copy(made, &new)?;
    File::options().append(true).open(&new)?.set_modified(began)?;
    fs::rename(new, library)
}

/// Proves the crates that the library is made of, builds it, and shows how far that is. Where it is then.
fn build(root: &Path, reason: &str) -> PathBuf {
    let Ok(list) = fs::read_to_string(root.join("crates.txt")) else {
        fail(&format!(
            "The proved library cannot be linked, for {reason}, nor built, for {} has no crates.txt: set REDSTONE_LIB \
             to a folder that has {LIBRARY}.",
            root.display()
        ));
    };
    let mut progress = Progress::new(needed(&list).len());
    progress.show(&format!(
        "redstone: proving and building the library, since {reason}. From nothing it takes long, with a line for each crate."
    ));
    let folder = root.join("crates").join(CRATE);
    match run(&folder, &mut progress) {
        Ok((status, _)) if status.success() => folder.join(MADE),
        Ok((_, text)) => {
            eprint!("{text}");
            fail(&format!("`rt lib` failed in {}; what it wrote stands above.", folder.display()));
        }
        // So it is, too, where the folder is not there.
        Err(error) if error.kind() == ErrorKind::NotFound && folder.is_dir() => fail(&format!(
            "The proved library has to be built, for {reason}, and there is no `rt` on the PATH to build it: \
             install the Rattle kit, or set REDSTONE_LIB to a folder that has {LIBRARY}."
        )),
        Err(error) => fail(&format!("`rt lib` could not be run in {}: {error}.", folder.display())),
    }
}

/// How `rt lib` ended, and all that it wrote.
fn run(folder: &Path, progress: &mut Progress) -> io::Result<(ExitStatus, String)> {
    let (reader, writer) = io::pipe()?;
    let mut rt = Command::new("rt");
    rt.arg("lib").current_dir(folder).stdout(writer.try_clone()?).stderr(writer);
    let mut running = rt.spawn()?;
    // The command holds the pipe's writing ends, and the text ends when they are closed.
    drop(rt);
    let mut text = String::new();
    for line in BufReader::new(reader).lines() {
        let line = line?;
        progress.tell(&line);
        text += &line;
        text.push('\n');
    }
    Ok((running.wait()?, text))
}

/// Cargo shows what a build script writes only with `-vv`, so it goes to the terminal, too, if there is one.
struct Progress {
    terminal: Option<File>,
    crates: usize,
    proved: BTreeSet<String>,
    /// The crate that rt named last, and when the one before it was proved.
    named: String,
    since: Instant,
}

impl Progress {
    fn new(crates: usize) -> Self {
        let terminal = OpenOptions::new().write(true).open("/dev/tty").ok();
        Self { terminal, crates, proved: BTreeSet::new(), named: String::new(), since: Instant::now() }
    }

    /// Shows of what rt writes its own words, and each crate that is proved, once, with how many are.
    fn tell(&mut self, line: &str) {
        if let Some(said) = line.strip_prefix("rt: ") {
            self.show(&format!("redstone: {said}"));
        } else if let Some((name, _)) = line.strip_prefix("crate ").and_then(|rest| rest.split_once(':')) {
            name.clone_into(&mut self.named);
        } else if line.starts_with("logic=proved ") && self.proved.insert(self.named.clone()) {
            let seconds = self.since.elapsed().as_secs();
            self.since = Instant::now();
            let (name, proved) = (&self.named, self.proved.len());
            self.show(&format!("redstone: {name} proved ({seconds} s), {proved} of {}", self.crates));
        }
    }

    fn show(&mut self, line: &str) {
        eprintln!("{line}");
        if let Some(terminal) = &mut self.terminal {
            // Over cargo's own line. What cannot be shown is no reason to fail.
            let _ = writeln!(terminal, "\r\x1b[K{line}");
        }
    }
}

/// What the library is made of: crates.txt and the folders of its crates; nothing outside the repository.
struct Sources {
    paths: Vec<PathBuf>,
}

impl Sources {
    fn of(root: &Path) -> Self {
        let list = root.join("crates.txt");
        let Ok(text) = fs::read_to_string(&list) else {
            return Self { paths: Vec::new() };
        };
        let parts = ["src", "specs", "proofs"];
        let folder = |name: &str| root.join("crates").join(name);
        let folders = needed(&text).into_iter().flat_map(|name| parts.map(|part| folder(name).join(part)));
        Self { paths: folders.filter(|folder| folder.is_dir()).chain([list]).collect() }
    }

    fn watch(&self) {
        for path in &self.paths {
            println!("cargo:rerun-if-changed={}", path.display());
        }
    }

    /// A file that was changed after a time.
    fn newer_than(&self, time: SystemTime) -> Option<PathBuf> {
        self.paths.iter().find_map(|path| newer_in(path, time))
    }
}

/// The crates that the library is made of.
fn needed(list: &str) -> BTreeSet<&str> {
    let mut needed = BTreeSet::new();
    let mut open = vec![CRATE];
    while let Some(name) = open.pop() {
        if needed.insert(name) {
            open.extend(needs(list, name));
        }
    }
    needed
}

/// What a crate needs, by its line `name: needs ..` of crates.txt, which has words of the crate after its name.
fn needs<'a>(list: &'a str, name: &str) -> impl Iterator<Item = &'a str> {
    let mut lines = list.lines().filter_map(|line| line.split_once(':'));
    let own = lines.find(|(head, _)| head.split_whitespace().next() == Some(name));
    own.into_iter().flat_map(|(_, needs)| needs.split_whitespace())
}

/// A folder changes when a file in it comes or goes.
fn newer_in(path: &Path, time: SystemTime) -> Option<PathBuf> {
    if modified(path)? > time {
        return Some(path.to_owned());
    }
    fs::read_dir(path).ok()?.flatten().find_map(|entry| newer_in(&entry.path(), time))
}

/// When a file or folder changed last; `None` where there is none.
fn modified(path: &Path) -> Option<SystemTime> {
    fs::metadata(path).ok()?.modified().ok()
}
