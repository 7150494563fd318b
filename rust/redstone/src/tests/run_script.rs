//! `make run`, `make month` and `bin/staticlib`, in small repositories.

use std::env;
use std::fs;
use std::os::unix::fs::symlink;
use std::path::{Path, PathBuf};
use std::process::{Command, Output};

use super::repository::{Repository, without_times};

/// A repository with the script, and `rt` if it does something.
fn repository(name: &str, does: Option<&str>) -> Repository {
    let repository = Repository::new(name);
    let root = Path::new(env!("CARGO_MANIFEST_DIR")).join("../..");
    for name in ["Makefile", "bin/run", "bin/staticlib"] {
        fs::copy(root.join(name), repository.path(name)).expect("a file of the repository");
    }
    repository.write("crates/settle/stdin", "the sample");
    repository.write("crates/month/stdin", "the sample stream");
    if let Some(does) = does {
        repository.rt(does);
    }
    repository
}

/// Where a program stands.
fn on_path(program: &str) -> PathBuf {
    let path = env::var_os("PATH").expect("a PATH");
    let mut found = env::split_paths(&path).map(|folder| folder.join(program));
    found.find(|path| path.is_file()).unwrap_or_else(|| panic!("{program} is on the PATH"))
}

/// What make writes: whether it ended well, and its two texts.
fn make(repository: &Repository, path: &str, words: &[&str]) -> (bool, String, String) {
    let mut make = Command::new("make");
    make.arg("--no-print-directory").args(words).current_dir(&repository.root).env("PATH", path);
    let Output { status, stdout, stderr } = make.output().expect("make can be run");
    let text = |bytes: Vec<u8>| String::from_utf8_lossy(&bytes).into_owned();
    (status.success(), text(stdout), text(stderr))
}

/// An `rt` that builds programs which write what they read.
const BUILDS: &str = "exec 3>&1 >&2; echo 'fn columns::larger: proved'; echo 'crate columns: modules loaded=0 checked=40'; \
     echo 'logic=proved functions=6'; program=${PWD##*/}; mkdir -p out; printf '#!/bin/sh\\ncat\\n' >out/$program; \
     chmod +x out/$program; echo \"rt: running out/$program; to give it other input, run that file yourself\"; \
     out/$program >&3";

#[test]
fn the_first_run_says_what_it_does_and_shows_how_far_it_is() {
    let repository = repository("run_first", Some(BUILDS));
    let (well, written, said) = make(&repository, &repository.search_path(), &["run"]);
    assert!(well, "{said}");
    assert_eq!(repository.called().as_deref(), Some("settle: run\n"));
    assert_eq!(written, "the sample");
    assert_eq!(
        without_times(&said),
        "make run: proving and building 'settle' with 'rt run' in crates/settle; the first time it takes long, with a line \
         for each crate\n\
         make run: columns proved (N s)\n"
    );
    repository.write("other", "another table");
    let (_, written, said) = make(&repository, &repository.search_path(), &["run", "TABLE=other"]);
    assert_eq!(written, "another table");
    assert_eq!(without_times(&said), "make run: columns proved (N s)\n");
}

#[test]
fn a_run_without_the_kit_says_what_to_install() {
    let repository = repository("run_without", None);
    // No more than make and the script want before `rt` is looked for.
    for program in ["make", "sh", "env", "bash"] {
        symlink(on_path(program), repository.path("bin").join(program)).expect("a link");
    }
    let path = repository.path("bin").display().to_string();
    let (well, written, said) = make(&repository, &path, &["run"]);
    assert!(!well && written.is_empty());
    assert!(said.starts_with("make run: there is no 'rt' on the PATH: install the Rattle kit"), "{said}");
}

#[test]
fn a_run_that_fails_says_why() {
    let repository = repository("run_failed", Some("echo 'it is not proved' >&2; exit 1"));
    let (well, _, said) = make(&repository, &repository.search_path(), &["run"]);
    assert!(!well && said.contains("it is not proved\nmake run: 'rt run' failed in crates/settle"), "{said}");
    let (well, _, said) = make(&repository, &repository.search_path(), &["run", "TABLE=nowhere"]);
    assert!(!well && said.starts_with("make run: there is no file nowhere"), "{said}");
}

#[test]
fn a_month_is_built_and_counted_so_too() {
    let repository = repository("month", Some(BUILDS));
    let (well, written, said) = make(&repository, &repository.search_path(), &["month"]);
    assert!(well, "{said}");
    assert_eq!(repository.called().as_deref(), Some("month: run\n"));
    assert_eq!(written, "the sample stream");
    assert!(
        said.starts_with("make month: proving and building 'month' with 'rt run' in crates/month"),
        "{said}"
    );
    repository.write("other", "another stream");
    let (_, written, _) = make(&repository, &repository.search_path(), &["month", "STREAM=other"]);
    assert_eq!(written, "another stream");
    let (well, _, said) = make(&repository, &repository.search_path(), &["month", "STREAM=nowhere"]);
    assert!(!well && said.starts_with("make month: there is no file nowhere; give one as STREAM="), "{said}");
}

/// What `bin/staticlib` writes of a library: whether it ended well, and its errors.
fn staticlib(repository: &Repository, words: &[&str]) -> (bool, String) {
    let mut script = Command::new(repository.path("bin/staticlib"));
    let output =
        script.args(words).env("PATH", repository.search_path()).output().expect("the script can be run");
    (output.status.success(), String::from_utf8_lossy(&output.stderr).into_owned())
}

#[test]
fn a_static_library_is_put_where_it_is_linked_from() {
    let repository = repository("staticlib", Some("mkdir -p out; echo built >out/libredstone_c.a"));
    let library = repository.path("target/staticlib/libredstone.a");
    let (well, said) = staticlib(&repository, &["redstone"]);
    assert!(well && said.is_empty(), "{said}");
    assert_eq!(repository.called().as_deref(), Some("redstone_c: lib\n"));
    assert_eq!(fs::read_to_string(&library).expect("a library"), "built\n");
    let beside = fs::read_dir(library.parent().expect("a folder")).expect("a folder").count();
    assert_eq!(beside, 1, "only the library is there");

    repository.rt("echo 'it is not proved'; exit 1");
    let (well, said) = staticlib(&repository, &["redstone"]);
    assert!(!well && said.starts_with("staticlib: 'rt lib' failed in crates/redstone_c"), "{said}");
    assert_eq!(fs::read_to_string(&library).expect("the library of before"), "built\n");

    let (well, said) = staticlib(&repository, &["other"]);
    assert!(!well && said.starts_with("staticlib: there is no crate crates/other_c"), "{said}");
}
