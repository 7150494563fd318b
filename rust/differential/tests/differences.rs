//! docs/DIFFERENCES.md: its tables answer as is written under them, its entries have their risks, and the tests that it
//! names are there.

use std::fs;
use std::path::{Path, PathBuf};

use differential::differences::{
    Fault, by_library, check_each, check_risks, examples, named_tests, tests_in,
};
use differential::probe::probe_shape_of_name;
use differential::suite::print;
use redstone::BENCH_PROFILE_WITH_BULB;

const DOCUMENT: &str = "docs/DIFFERENCES.md";

fn in_repository(path: &str) -> PathBuf {
    Path::new(env!("CARGO_MANIFEST_DIR")).join("../..").join(path)
}

fn document() -> String {
    fs::read_to_string(in_repository(DOCUMENT)).unwrap_or_else(|error| panic!("{DOCUMENT}: {error}"))
}

fn check_proved(document: &str) -> Result<usize, Fault> {
    check_each(document, by_library)
}

fn assert_checked(bench: &str, checked: Result<usize, Fault>) {
    let tables = checked.unwrap_or_else(|fault| panic!("{DOCUMENT}, {bench}: {fault}"));
    print(&format!("{DOCUMENT}, {bench}: {tables} tables"));
}

#[test]
fn the_bench_answers_as_is_written() {
    assert_checked("bench", check_proved(&document()));
}

#[cfg(not(no_original))]
fn check_original(document: &str) -> Result<usize, Fault> {
    check_each(document, differential::differences::by_original)
}

#[cfg(not(no_original))]
#[test]
fn the_original_answers_as_is_written() {
    assert_checked("original", check_original(&document()));
}

#[cfg(no_original)]
#[test]
fn the_original_was_not_found() {
    differential::suite::say_original_not_found("differences");
}

/// Asserts that each line that is an answer, of the blocks that are the original's alone or of all others, is reported once
/// it is changed.
fn assert_each_answer_counts(of_the_original: bool, check: fn(&str) -> Result<usize, Fault>) {
    let document = document();
    let examples = examples(&document).unwrap_or_else(|fault| panic!("{fault}"));
    let blocks = examples.iter().flat_map(|example| &example.answers);
    let blocks = blocks.filter(|written| written.is_of_the_original() == of_the_original);
    let lines: Vec<_> = blocks.flat_map(|written| &written.lines).collect();
    assert!(!lines.is_empty(), "{DOCUMENT} has no such answer");
    for line in lines.into_iter().filter(|line| line.text.contains('=')) {
        let mut changed: Vec<_> = document.lines().collect();
        let text = format!("{}0", line.text);
        changed[line.number - 1] = &text;
        let fault = check(&changed.join("\n")).expect_err(&text);
        assert_eq!(fault.line, line.number, "{fault}");
    }
}

#[test]
fn every_written_answer_counts() {
    assert_each_answer_counts(false, check_proved);
}

#[cfg(not(no_original))]
#[test]
fn every_written_answer_of_the_original_counts() {
    assert_each_answer_counts(true, check_original);
}

/// By the bench profile each table with a profile of its own answers otherwise than is written.
#[test]
fn every_written_profile_counts() {
    let document = document();
    let mut examples = examples(&document).unwrap_or_else(|fault| panic!("{fault}"));
    examples.retain(|example| example.table.profile != BENCH_PROFILE_WITH_BULB);
    assert!(!examples.is_empty(), "{DOCUMENT} has no profile");
    for mut example in examples {
        example.table.profile = BENCH_PROFILE_WITH_BULB.to_vec();
        assert!(by_library(&example).is_err(), "{}", example.table);
    }
}

#[test]
fn every_entry_has_its_risk() {
    let entries = check_risks(&document()).unwrap_or_else(|fault| panic!("{DOCUMENT}: {fault}"));
    print(&format!("{DOCUMENT}: {entries} entries"));
}

/// The name of entry 29, which no table has.
#[test]
fn stained_glass_by_name_is_plain() {
    const PLAIN: u32 = 0;
    let name = b"minecraft:red_stained_glass";
    assert_eq!(probe_shape_of_name(name, b"", b""), PLAIN);
    #[cfg(not(no_original))]
    {
        use differential::compare::Answers;
        use differential::generate::{BENCH_PROFILE, Case};
        use differential::oracle::Oracle;
        use differential::world::{Name, WorldQuery};

        let case = Case { seed: 0, sort: "no rows", profile: BENCH_PROFILE.to_vec(), table: Vec::new() };
        let name = Name { name: name.to_vec(), slab_type: Vec::new(), half: Vec::new() };
        assert_eq!(Oracle::new(&case).answer(&WorldQuery::ShapeOfName(name)).number, PLAIN.into());
    }
}

const SETTLED: &str = "\
```table
0,0,0 Solid
```
```output
blocks=1
rounds=2
row=0,0,0,0,0,0
```
";

const PROFILED: &str = "\
```table
profile Solid=4 RedstoneTorch=32
0,0,0 RedstoneTorch
0,1,0 Solid
```
```output
blocks=2
rounds=2
row=0,0,0,15,0,0
row=0,1,0,0,0,15
```
";

const RUN: &str = "\
```table
0,0,0 Lever
```
```run
switch 0,0,0 on
tick 1
row=0,0,0,15,0,0
```
";

const CLEARED: &str = "\
```table
0,0,0 RedstoneWire shape=glass
0,1,0 RedstoneWire support=0,-1,0
2,0,0 Solid
```
```cleared
cleared=0,0,0,1
cleared=0,1,0,2
```
```table
2,0,0 Solid
```
```cleared
cleared=none
```
";

#[cfg(not(no_original))]
const OVERDRIVEN: &str = "\
```table
0,0,0 Comparator level=200
```
```output
refusal=10
place=0
```
```original
blocks=1
rounds=1
row=0,0,0,200,0,0
```
";

const ENTRIES: &str = "\
### 1. One block

```table
0,0,0 Solid
```
```unsupported
unsupported=none
```

### 3. Another

```table
0,0,0 Lever
```
```unsupported
unsupported=0,0,0
```
";

const RISKS: &str = "\
## Checklist

- [ ] A block (1).
- [ ] Another
  block (3).

## By risk

| risk | no. | direction | in the game |
|---|---:|---|---|
| high | 1 | + | One block |
| low | 3 | support, - | Another |

## High risk

### 1. One block

## Low risk

### 3. Another
";

/// A text, and what takes its place.
type Change = (&'static str, &'static str);

const FAULTS_WHEN_SETTLED: [Change; 26] = [
    (SETTLED, ""),
    ("```table\n0,0,0 Solid\n```\n", ""),
    ("```table", "```tables"),
    ("```table", " ```table"),
    ("```table", "```"),
    ("0,0,0 Solid", "0,0 Solid"),
    ("0,0,0 Solid", "0,0,0  Solid"),
    ("0,0,0 Solid", "0,0,0"),
    ("0,0,0 Solid", ""),
    ("0,0,0 Solid", "0,0,0 Stone"),
    ("0,0,0 Solid", "0,0,0 Solid facing"),
    ("0,0,0 Solid", "0,0,0 Solid facing=Left"),
    ("0,0,0 Solid", "0,0,0 Solid colour=red"),
    ("0,0,0 Solid", "0,0,0 Solid delay=1 delay=2"),
    ("0,0,0 Solid", "0,0,0 Solid level=256"),
    ("0,0,0 Solid", "0,0,0 Solid support=0,-1"),
    ("0,0,0 Solid", "0,0,0 Solid support=0,-2,0"),
    ("0,0,0 Solid", "0,0,0 Solid arms=Up:Side"),
    ("0,0,0 Solid", "0,0,0 Solid arms=East:Side,East:None"),
    ("0,0,0 Solid", "0,0,0 Solid mode=add"),
    ("```output", "```outputs"),
    ("```output\nblocks=1\nrounds=2\nrow=0,0,0,0,0,0\n```\n", ""),
    ("rounds=2", "rounds=3"),
    ("rounds=2\n", ""),
    ("row=0,0,0,0,0,0\n", "row=0,0,0,0,0,0\nrow=0,0,0,0,0,0\n"),
    ("row=0,0,0,0,0,0\n```", "row=0,0,0,0,0,0\n"),
];

const FAULTS_IN_A_PROFILE: [Change; 10] = [
    ("profile Solid=4 RedstoneTorch=32\n", ""),
    ("profile Solid=4 RedstoneTorch=32", "profile RedstoneTorch=32 Solid=4"),
    ("profile Solid=4 RedstoneTorch=32", "profile=0,4,0,0,32"),
    (
        "profile Solid=4 RedstoneTorch=32\n0,0,0 RedstoneTorch\n",
        "0,0,0 RedstoneTorch\nprofile Solid=4 RedstoneTorch=32\n",
    ),
    ("RedstoneTorch=32", "RedstoneTorch=31"),
    ("RedstoneTorch=32", "RedstoneTorch=64"),
    ("RedstoneTorch=32", "RedstoneTorch=32 CopperBulb=32"),
    ("RedstoneTorch=32", "Lever=32"),
    ("RedstoneTorch=32", "Torch=32"),
    ("Solid=4 ", ""),
];

const FAULTS_IN_A_RUN: [Change; 12] = [
    ("switch 0,0,0 on", "switch 0,0,0"),
    ("switch 0,0,0 on", "switch 0,0,0 up"),
    ("switch 0,0,0 on", "switch 0,1,0 on"),
    ("switch 0,0,0 on", "press 0,0,0"),
    ("tick 1", "tick"),
    ("tick 1", "tick one"),
    ("row=0,0,0,15,0,0", "row=0,0,0,15,0"),
    ("row=0,0,0,15,0,0", "row=0,1,0,15,0,0"),
    ("row=0,0,0,15,0,0", "row=0,0,0,14,0,0"),
    ("row=0,0,0,15,0,0", "light=0,0,0,1"),
    ("row=0,0,0,15,0,0", "device=0,0,0,1"),
    ("row=0,0,0,15,0,0\n", ""),
];

const FAULTS_WHEN_CLEARED: [Change; 6] = [
    ("```cleared", "```clear"),
    ("cleared=0,1,0,2", "cleared=0,1,0,1"),
    ("cleared=0,1,0,2\n", ""),
    ("cleared=0,1,0,2", "cleared=0,1,0,2\ncleared=2,0,0,0"),
    ("cleared=none", "cleared=2,0,0,1"),
    (" shape=glass", ""),
];

#[cfg(not(no_original))]
const FAULTS_WHEN_OVERDRIVEN: [Change; 6] = [
    ("level=200", "level=15"),
    ("level=200", "level=201"),
    ("refusal=10", "refusal=4"),
    ("```original", "```originals"),
    ("rounds=1", "rounds=2"),
    ("row=0,0,0,200,0,0\n", ""),
];

const FAULTS_IN_ENTRIES: [Change; 6] = [
    ("### 1. One block", "### One block"),
    ("### 1. One block", "### One. One block"),
    ("### 3. Another", "### 1. Another"),
    ("### 1. One block\n", "### 1. One block\n### 2. Nothing\n"),
    ("```table\n0,0,0 Lever\n```\n```unsupported\nunsupported=0,0,0\n```\n", ""),
    ("```table\n0,0,0 Lever\n```\n```unsupported\nunsupported=0,0,0\n", "```unsupported\nunsupported=none\n"),
];

const FAULTS_IN_RISKS: [Change; 16] = [
    ("(1)", "(3)"),
    ("(3)", "(2)"),
    (" (1)", ""),
    ("\n  block (3)", ""),
    ("(3)", "(three)"),
    ("| high | 1 | + | One block |\n", ""),
    ("| low | 3 | support, - | Another |\n", ""),
    ("| high | 1 | + | One block |\n", "| high | 1 | + | One block |\n| high | 1 | + | One block |\n"),
    ("| high | 1 | + | One block |\n", "| high | 1 | + | One block |\n| high | 2 | + | Nothing |\n"),
    ("| high |", "| middle |"),
    ("| low |", "| none |"),
    ("| + |", "| up |"),
    ("| + |", "| |"),
    ("| One block |", "| Another |"),
    ("## Low risk", "## Nowhere"),
    (
        "| high | 1 | + | One block |\n| low | 3 | support, - | Another |\n",
        "| low | 3 | support, - | Another |\n| high | 1 | + | One block |\n",
    ),
];

fn assert_each_is_reported<T>(document: &str, changes: &[Change], check: impl Fn(&str) -> Result<T, Fault>) {
    check(document).unwrap_or_else(|fault| panic!("{fault}"));
    for (text, other) in changes {
        assert!(document.contains(text), "{text:?}");
        let changed = document.replace(text, other);
        assert!(check(&changed).is_err(), "{other:?} in place of {text:?} was not reported");
    }
}

#[test]
fn faults_are_reported() {
    assert_each_is_reported(SETTLED, &FAULTS_WHEN_SETTLED, check_proved);
    assert_each_is_reported(PROFILED, &FAULTS_IN_A_PROFILE, check_proved);
    assert_each_is_reported(RUN, &FAULTS_IN_A_RUN, check_proved);
    assert_each_is_reported(CLEARED, &FAULTS_WHEN_CLEARED, check_proved);
    assert_each_is_reported(ENTRIES, &FAULTS_IN_ENTRIES, check_proved);
    #[cfg(not(no_original))]
    {
        assert_each_is_reported(CLEARED, &FAULTS_WHEN_CLEARED, check_original);
        assert_each_is_reported(OVERDRIVEN, &FAULTS_WHEN_OVERDRIVEN, check_original);
    }
    assert_each_is_reported(RISKS, &FAULTS_IN_RISKS, check_risks);
    assert!(named_tests("| what | no test |").is_err());
}

/// The document with the lines of one part alone, each where it stands.
fn only(part: &str, document: &str) -> String {
    let mut within = false;
    let line = |text| {
        within = str::strip_prefix(text, "## ").map_or(within, |heading| heading == part);
        if within { text } else { "" }
    };
    document.lines().map(line).collect::<Vec<_>>().join("\n")
}

#[test]
fn the_named_tests_are_there() {
    let document = only("From the original", &document());
    let named = named_tests(&document).unwrap_or_else(|fault| panic!("{DOCUMENT}: {fault}"));
    let tests = ["rust/differential", "rust/redstone"]
        .map(|folder| tests_in(&in_repository(folder)).unwrap_or_else(|error| panic!("{folder}: {error}")));
    assert!(!named.is_empty(), "{DOCUMENT} names no test");
    for (line, name) in named {
        assert!(tests.iter().any(|tests| tests.contains(name)), "{DOCUMENT}, line {line}: no test is {name}");
    }
}
