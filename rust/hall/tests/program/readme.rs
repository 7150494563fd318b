//! What README.md shows of the program.

use std::fs;
use std::process::Command;

use crate::support::{Done, folder, hall, hall_with, root, run};

fn readme() -> String {
    fs::read_to_string(root().join("README.md")).expect("README.md")
}

/// The section about the program.
fn section(readme: &str) -> &str {
    let from = readme.split_once("\n## hall\n").expect("a section").1;
    from.split_once("\n## ").map_or(from, |(section, _)| section)
}

/// The blocks of text that a section shows.
fn blocks(section: &str) -> Vec<&str> {
    section
        .split("```text\n")
        .skip(1)
        .map(|block| block.split("```").next().expect("the end of a block"))
        .collect()
}

/// The first hall of the section, made in a test's folder, where the program is run.
fn first_hall(test: &str, words: &str) -> Done {
    let folder = folder(test);
    let line = format!("cd {} && $hall new door >/dev/null && {words}", folder.display());
    run(Command::new("sh").args(["-c", &line]).env("hall", env!("CARGO_BIN_EXE_hall")), b"")
}

/// Lines that call the program, run in a test's folder that has the samples.
fn beside_halls(test: &str, lines: &str) -> Done {
    let lines: Vec<_> = lines.lines().map(|line| format!("${line}")).collect();
    let (folder, halls) = (folder(test), root().join("halls"));
    let line = format!("cd {} && ln -s {} . && {}", folder.display(), halls.display(), lines.join(" && "));
    run(Command::new("sh").args(["-c", &line]).env("hall", env!("CARGO_BIN_EXE_hall")), b"")
}

#[test]
fn the_chart_is_that_of_a_new_hall() {
    let readme = readme();
    let blocks = blocks(section(&readme));
    let chart = blocks.iter().find(|block| block.contains("\ntick ")).expect("a chart");
    let done = first_hall("readme_chart", "$hall run door.hall");
    assert!(done.text().contains(*chart), "{}", done.text());
}

#[test]
fn the_difference_is_that_of_another_delay() {
    let readme = readme();
    let blocks = blocks(section(&readme));
    let shown = blocks.iter().find(|block| block.contains("DIFFERS")).expect("a difference");
    let done = first_hall("readme_delay", "sed -i s/delay=2/delay=4/ door.hall && $hall check door.hall");
    assert_eq!((done.status, done.text()), (Some(1), *shown));
    let own = first_hall(
        "readme_own",
        "sed -i 's/delay=2/delay=4/; s/^expect tick 5.*/expect tick 7 lamp 4,1,0 lit/' door.hall && $hall check door.hall",
    );
    assert_eq!(own.status, Some(0), "{}", own.text());
}

/// The lines that merge two rooms, and the chart of both.
#[test]
fn the_chart_of_two_rooms_is_that_of_the_lines_before_it() {
    let readme = readme();
    let blocks = blocks(section(&readme));
    let at = blocks.iter().position(|block| block.starts_with("hall merge ")).expect("lines");
    let done = beside_halls("readme_rooms", blocks[at]);
    assert_eq!(done.status, Some(0), "{}", done.err);
    assert!(done.text().contains(blocks[at + 1]), "{}", done.text());
    assert!(done.text().starts_with("both.hall: 11 blocks, ") && readme.contains("8 blocks and 5 are 11."));
}

/// The lines that clear a room, what they list, of which some lines are left out, and what is said of the check.
#[test]
fn the_list_of_what_would_drop_is_that_of_the_lines_before_it() {
    let readme = readme();
    let blocks = blocks(section(&readme));
    let at = blocks.iter().position(|block| block.starts_with("hall clear ")).expect("lines");
    let done = beside_halls("readme_floor", blocks[at]);
    assert_eq!((done.status, done.err.as_str()), (Some(1), ""));
    let mut lines = done.text().lines();
    for shown in blocks[at + 1].lines().filter(|line| *line != "..") {
        assert!(lines.any(|line| line == shown), "{shown}\n{}", done.text());
    }
    assert!(lines.any(|line| line.contains(" lamp ") && line.ends_with(", given dark")), "{}", done.text());
}

/// The line that asks what feeds a dust, what it lists, and what is said of the dust below the slab.
#[test]
fn the_list_of_feeders_is_that_of_the_line_before_it() {
    let readme = readme();
    let blocks = blocks(section(&readme));
    let at = blocks.iter().position(|block| block.starts_with("hall feeders ")).expect("a line");
    let done = beside_halls("readme_feeders", blocks[at]);
    assert_eq!((done.status, done.text()), (Some(0), blocks[at + 1]), "{}", done.err);
    assert!(readme.contains("the dust at 3,1,2 of this hall"));
    let below = hall(&["feeders", "halls/slab-rise.hall", "3,1,2"]);
    assert!(below.text().contains(": no dust feeds dust 3,1,2 ("), "{}", below.text());
}

#[test]
fn each_command_and_each_figure_is_named() {
    let readme = readme();
    let section = section(&readme);
    let help = hall(&["--help"]);
    let commands = help.text().lines().filter_map(|line| line.strip_prefix("    hall ")?.split(' ').next());
    for command in commands {
        assert!(section.contains(&format!("`hall {command} ")), "README.md lacks {command}");
    }
    // The words that can be expected, as the error of another one lists them.
    let error = hall_with(&["check", "-"], b"0,0,0 Solid\nexpect colour 0,0,0 red\n");
    let (_, listed) = error.text().split_once("expected a figure: ").expect("a list");
    let listed = listed.lines().next().expect("a line").replace(" or ", ", ");
    let help = hall(&["check", "--help"]);
    for figure in listed.split(", ") {
        assert!(help.text().contains(figure) && grammar(section).contains(figure), "{figure}");
    }
}

/// The block of the section that has the forms of expectations.
fn grammar(section: &str) -> &str {
    blocks(section).into_iter().find(|block| block.starts_with("expect [tick N]")).expect("the forms")
}

/// Each form, with and without `tick N` and with each of its words, is read.
#[test]
fn the_forms_of_expectations_are_read() {
    const ROWS: &str = "0,0,0 RedstoneWire\n1,0,0 Comparator\n2,0,0 Repeater\n3,0,0 RedstoneTorch\n4,0,0 RedstoneLamp\n\
         5,0,0 CopperBulb\n";
    let readme = readme();
    let mut lines = String::new();
    for form in grammar(section(&readme)).lines() {
        let form = form.split("  ").next().expect("a form").trim();
        let form = form.replace("LEVEL", "1").replace("NUMBER", "1");
        let place = match form.split(' ').nth(3) {
            Some("comparator") => "1,0,0",
            Some("repeater") => "2,0,0",
            Some("torch" | "candidate") => "3,0,0",
            Some("lamp") => "4,0,0",
            Some("bulb") => "5,0,0",
            _ => "0,0,0",
        };
        let (start, last) = form.rsplit_once(' ').expect("words");
        for word in last.split('|') {
            let line = format!("{start} {word}\n").replace("x,y,z", place);
            lines += &line.replace("[tick N] ", "");
            lines += &line.replace("[tick N]", "tick 3");
        }
    }
    let expected = lines.lines().count();
    assert!(expected >= 2 * 10, "{lines}");
    let done = hall_with(&["check", "-"], format!("{ROWS}{lines}").as_bytes());
    assert!(done.text().contains(&format!(" of {expected} expectations; ")), "{}", done.text());
}
