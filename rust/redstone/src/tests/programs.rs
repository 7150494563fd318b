//! Programs in C and in Rust over the calls: the examples, and what a test wants of its own.

use std::path::{Path, PathBuf};
use std::process::Command;

/// Stack that is free when a call begins and is said to be enough for it.
const FREE_STACK: usize = 48 * 1024;

fn package(name: &str) -> PathBuf {
    Path::new(env!("CARGO_MANIFEST_DIR")).join(name)
}

/// What a command wrote that ended well. One that cannot be run fails the test.
fn written(command: &mut Command) -> String {
    let output = command.output().unwrap_or_else(|error| panic!("{command:?} cannot be run: {error}"));
    let errors = String::from_utf8_lossy(&output.stderr);
    assert!(output.status.success(), "{command:?}: {}\n{errors}", output.status);
    String::from_utf8_lossy(&output.stdout).into_owned()
}

/// What a C program of the package writes, compiled with the header and linked with the library.
fn c_program(source: &str) -> String {
    let source = package(source);
    let program = Path::new(env!("OUT_DIR")).join(source.file_stem().expect("a file"));
    let mut compiler = Command::new("cc");
    compiler.args(["-std=c11", "-Wall", "-Wextra", "-Wpedantic", "-Werror", "-pthread", "-I"]);
    compiler.arg(package("include")).arg(source).arg(env!("REDSTONE_ARCHIVE")).arg("-o").arg(&program);
    written(&mut compiler);
    written(&mut Command::new(program))
}

/// What an example of the package writes, built by cargo.
fn rust_example(name: &str) -> String {
    let mut cargo = Command::new(env!("CARGO"));
    cargo.args(["run", "--quiet", "--offline", "--example", name]);
    written(cargo.current_dir(package("")))
}

/// Test 3 of the book.
#[test]
fn a_c_program_settles_a_line() {
    let lines = "blocks=5\nrounds=4\nrow=0,1,0,15,0,0\nrow=1,0,0,0,15,0\nrow=1,1,0,15,0,0\n\
                 row=2,0,0,0,14,0\nrow=2,1,0,14,0,0\n";
    assert_eq!(c_program("src/tests/line.c"), lines);
}

/// What both examples of a lamp write, but for their refusals.
const LAMP: &str = "\
tick 0, fresh: block 0, repeater 0, lamp dark
tick 0, switched on: block 15, repeater 0, lamp dark
tick 1, ticked: block 15, repeater 0, lamp dark
tick 2, ticked: block 15, repeater 15, lamp lit
tick 2, switched off: block 0, repeater 15, lamp lit
tick 7, ticked: block 0, repeater 0, lamp dark
";

/// What both examples of a bulb write, but for their refusals.
const BULB: &str = "\
tick 0, fresh: bulb dark, had none
tick 0, pressed: bulb dark, had none
tick 1, ticked: bulb lit, had power
tick 1, released: bulb lit, had power
tick 2, ticked: bulb lit, had none
tick 2, pressed: bulb lit, had none
tick 3, ticked: bulb dark, had power
tick 3, released: bulb dark, had power
tick 4, ticked: bulb dark, had none
";

/// What both examples of rooms write, but for their refusals.
const ROOMS: &str = "\
3 rows and 3 are 5
tick 1: lamp 15
";

/// What both examples of a floor write, but for their refusals.
const FLOOR: &str = "\
pass 1: row 0
pass 2: row 1
pass 3: row 2
2 of 5 rows are kept
";

/// What both examples of feeders write, but for their refusals.
const FEEDERS: &str = "\
0,0,0 is fed by 1,0,0: Horizontal
1,0,0 is fed by 0,0,0: Horizontal
1,0,0 is fed by 2,1,0: FallThroughConductor
2,1,0 is fed by 1,0,0: Rise
with a slab
0,0,0 is fed by 1,0,0: Horizontal
1,0,0 is fed by 0,0,0: Horizontal
2,1,0 is fed by 1,0,0: Rise
";

#[test]
fn the_examples_in_c_run() {
    assert_eq!(c_program("examples/lamp.c"), format!("{LAMP}tick 7, refused: refusal 4, row 2\n"));
    let refusal = "tick 4, without the bulb's byte: refusal 4, row 0";
    assert_eq!(c_program("examples/bulb.c"), format!("{BULB}{refusal}\n"));
    assert_eq!(c_program("examples/rooms.c"), format!("{ROOMS}refusal 12, row 0\n"));
    assert_eq!(c_program("examples/floor.c"), format!("{FLOOR}refusal 7, row 0\n"));
    assert_eq!(c_program("examples/feeders.c"), format!("{FEEDERS}refusal 5, row 2\n"));
}

#[test]
fn the_examples_in_rust_run() {
    let refusal = "refusal 5, misplaced: rows 0 and 1 are both at 0,1,0; each position may be there once";
    assert_eq!(rust_example("lamp"), format!("{LAMP}{refusal}\n"));
    let refusal = "refusal 4, bad row: row 0 at 0,0,0: kind (byte 12) is 13; that is CopperBulb, and the profile has 13 \
                   bytes: give it a fourteenth, the bulb's, such as 7";
    assert_eq!(rust_example("bulb"), format!("{BULB}{refusal}\n"));
    let refusal = "refusal 12, clash: row 1 of the first table and row 1 of the second, once moved, are both at 1,0,0, and \
                   kind (byte 12) is 1 in the first and 5 in the second; at one position the 32 bytes must be the same";
    assert_eq!(rust_example("rooms"), format!("{ROOMS}{refusal}\n"));
    let refusal =
        "refusal 7, column: the room for the kept rows has length 64; for this table it must be 160";
    assert_eq!(rust_example("floor"), format!("{FLOOR}{refusal}\n"));
    let refusal = "refusal 5, misplaced: no block is at 2,2,0 for the new row 4 to replace; the table has 4 rows, numbered \
                   from 0";
    assert_eq!(rust_example("feeders"), format!("{FEEDERS}{refusal}\n"));
}

#[test]
fn the_calls_need_little_stack() {
    let used: usize = c_program("src/tests/stack.c").trim().parse().expect("a number");
    println!("the calls used {used} bytes of stack");
    assert!(
        used <= FREE_STACK,
        "the calls used {used} bytes of stack, and {FREE_STACK} are said to be enough"
    );
}
