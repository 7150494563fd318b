//! The build script, run by itself on small repositories with an `rt` that writes what a test wants.

use std::fs;
use std::path::{Path, PathBuf};
use std::process::{Command, Output};
use std::sync::OnceLock;

use super::repository::{Repository, without_times};

/// The build script as a program.
fn script() -> &'static Path {
    static PROGRAM: OnceLock<PathBuf> = OnceLock::new();
    PROGRAM.get_or_init(|| {
        let program = Path::new(env!("OUT_DIR")).join("build_script");
        let source = Path::new(env!("CARGO_MANIFEST_DIR")).join("build.rs");
        let mut rustc = Command::new("rustc");
        rustc.args(["--edition=2024", "-o"]).arg(&program).arg(source);
        let output = rustc.output().expect("rustc can be run");
        assert!(output.status.success(), "{}", String::from_utf8_lossy(&output.stderr));
        program
    })
}

/// The script in a repository's package, with what cargo tells it.
fn command(repository: &Repository) -> Command {
    let mut command = Command::new(script());
    command.env_clear().current_dir(repository.path("rust/redstone"));
    command.env("PATH", repository.search_path());
    command.env("CARGO_MANIFEST_DIR", repository.path("rust/redstone"));
    command.env("TARGET", "x86_64-unknown-linux-gnu").env("CARGO_CFG_TARGET_POINTER_WIDTH", "64");
    command.env("CARGO_CFG_TARGET_ARCH", "x86_64").env("CARGO_CFG_TARGET_OS", "linux");
    command
}

const IN_TARGET: &str = "target/staticlib/libredstone.a";
const BUILDS: &str = "echo 'rt: chose --jobs 2 for world'; echo 'fn world::find: proved'; \
     echo 'crate world: modules loaded=0 checked=40'; echo 'logic=proved functions=1'; \
     mkdir -p out; echo built >out/libredstone_c.a";

fn run(command: &mut Command) -> Output {
    command.output().expect("the script can be run")
}

/// The folder that a script which ended well has cargo link from.
fn linked(output: &Output) -> PathBuf {
    let (text, errors) = texts(output);
    assert!(output.status.success(), "{text}{errors}");
    let folder = text.lines().find_map(|line| line.strip_prefix("cargo:rustc-link-search=native="));
    folder.expect("a folder").into()
}

fn texts(output: &Output) -> (String, String) {
    let text = |bytes| String::from_utf8_lossy(bytes).into_owned();
    (text(&output.stdout), text(&output.stderr))
}

/// The last line that a script which failed wrote.
fn sentence(output: &Output) -> String {
    let (text, errors) = texts(output);
    assert!(!output.status.success(), "{text}");
    errors.lines().last().expect("a sentence").into()
}

#[test]
fn a_library_newer_than_its_crates_is_linked_as_it_is() {
    let repository = Repository::new("newer");
    repository.rt(BUILDS);
    repository.write_at(IN_TARGET, 60);
    assert_eq!(linked(&run(&mut command(&repository))), repository.path("target/staticlib"));
    assert_eq!(repository.called(), None);
}

#[test]
fn a_missing_or_stale_library_is_built_and_the_progress_shown() {
    for (name, seconds) in [("missing", None), ("stale", Some(-60))] {
        let repository = Repository::new(name);
        repository.rt(BUILDS);
        if let Some(seconds) = seconds {
            repository.write_at(IN_TARGET, seconds);
        }
        let output = run(&mut command(&repository));
        assert_eq!(linked(&output), repository.path("target/staticlib"));
        assert_eq!(fs::read_to_string(repository.path(IN_TARGET)).ok().as_deref(), Some("built\n"));
        assert_eq!(repository.called().as_deref(), Some("redstone_c: lib\n"));
        let errors = without_times(&texts(&output).1);
        assert!(errors.contains("From nothing it takes long, with a line for each crate"), "{errors}");
        assert_eq!(errors.matches("redstone: world proved (N s), 1 of 3\n").count(), 1, "{errors}");
        assert_eq!(errors.matches("redstone: chose --jobs 2 for world\n").count(), 1, "{errors}");
    }
}

#[test]
fn a_crate_that_the_library_is_not_made_of_makes_it_not_stale() {
    let repository = Repository::new("other");
    repository.rt(BUILDS);
    repository.write_at(IN_TARGET, 60);
    repository.write_at("crates/book/src/lib.rt", 120);
    linked(&run(&mut command(&repository)));
    assert_eq!(repository.called(), None);
    repository.write_at("crates/world/src/lib.rt", 120);
    let output = run(&mut command(&repository));
    assert!(sentence(&output).contains("crates/world/src/lib.rt changed while"), "{output:?}");
    assert!(repository.called().is_some());
}

#[test]
fn a_library_that_cannot_be_built_is_not_linked() {
    let repository = Repository::new("no_rt");
    repository.write_at(IN_TARGET, -60);
    let output = run(command(&repository).env("PATH", repository.path("bin")));
    let text = sentence(&output);
    assert!(text.contains(" is newer than ") && text.contains("install the Rattle kit"), "{text}");

    repository.rt("echo 'it is not proved'; exit 1");
    let output = run(&mut command(&repository));
    assert!(sentence(&output).starts_with("`rt lib` failed in "));
    assert!(texts(&output).1.contains("it is not proved"));

    repository.rt("echo 'it is not built' >&2; exit 1");
    let output = run(&mut command(&repository));
    assert!(sentence(&output).starts_with("`rt lib` failed in "));
    assert!(texts(&output).1.contains("it is not built"));

    repository.rt("rm -rf out ../../target");
    let text = sentence(&run(&mut command(&repository)));
    assert!(
        text.contains("out/libredstone_c.a cannot be put at ") && text.contains("No such file"),
        "{text}"
    );

    fs::remove_dir_all(repository.path("crates/redstone_c")).expect("a folder");
    let text = sentence(&run(&mut command(&repository)));
    assert!(text.starts_with("`rt lib` could not be run in "), "{text}");

    fs::remove_file(repository.path("crates.txt")).expect("a file");
    let text = sentence(&run(&mut command(&repository)));
    assert!(text.contains("has no crates.txt: set REDSTONE_LIB"), "{text}");
}

/// The script stands in the package, and the caller here where this test was started.
#[test]
fn a_named_folder_is_found_from_where_the_caller_stands() {
    let repository = Repository::new("named");
    repository.rt(BUILDS);
    repository.write_at("given/libredstone.a", 60);
    let here = std::env::current_dir().expect("a folder");
    let above = here.ancestors().skip(1).map(|_| "..").collect::<PathBuf>();
    let below = repository.root.strip_prefix("/").expect("a path from the root");
    let relative = above.join(below).join("given");
    let output = run(command(&repository).env("REDSTONE_LIB", &relative));
    assert_eq!(fs::canonicalize(linked(&output)).ok(), fs::canonicalize(repository.path("given")).ok());
    assert!(!texts(&output).0.contains("cargo:warning="), "{output:?}");
    assert_eq!(repository.called(), None);

    repository.write_at("given/libredstone.a", -60);
    let output = run(command(&repository).env("REDSTONE_LIB", repository.path("given")));
    assert_eq!(linked(&output), repository.path("given"));
    let (text, _) = texts(&output);
    assert!(text.contains("cargo:warning=") && text.contains(" is newer than "), "{text}");

    let text = sentence(&run(command(&repository).env("REDSTONE_LIB", "nowhere")));
    let tried = here.join("nowhere/libredstone.a");
    assert!(text.contains(&format!("there is no {}", tried.display())), "{text}");
}

#[test]
fn other_targets_are_refused_in_a_sentence() {
    let repository = Repository::new("targets");
    repository.write_at(IN_TARGET, 60);
    for (variable, value) in [
        ("CARGO_CFG_TARGET_ARCH", "aarch64"),
        ("CARGO_CFG_TARGET_OS", "macos"),
        ("CARGO_CFG_TARGET_POINTER_WIDTH", "32"),
    ] {
        let output = run(command(&repository).env(variable, value).env("TARGET", "another-target"));
        assert_eq!(
            sentence(&output),
            "The proved library is for x86-64 Linux alone, and this build is for another-target: build for \
             x86_64-unknown-linux-gnu."
        );
    }
}
