//! What would drop, and the hall without it.

use std::collections::BTreeMap;
use std::fs;

use differential::generate::{Case, leaning_case};
use redstone::{
    BENCH_PROFILE, BENCH_PROFILE_WITH_BULB, Kind, PROFILE_BYTES_WITH_BULB, ROW_BYTES, Row, cleared, find,
    rows,
};
use redstone_text::{position_text, row_text};

use crate::generated::cases;
use crate::support::{file, folder, hall, hall_with, root};

/// What `hall clear` lists of a text from standard input.
fn listed(text: &str) -> String {
    let done = hall_with(&["clear", "-"], text.as_bytes());
    assert_eq!((done.status, done.err.as_str()), (Some(0), ""));
    done.text().to_owned()
}

/// What is left of a text from standard input, and the list beside it.
fn left(text: &str) -> (String, String) {
    let done = hall_with(&["clear", "-", "-o", "-"], text.as_bytes());
    assert_eq!(done.status, Some(0), "{}", done.err);
    (done.text().to_owned(), done.err)
}

const PROFILE: &str = "profile Solid=31 Repeater=1 CopperBulb=7\n";

/// Each reason that there is; and blocks that need no support, or hold themselves or each other up.
#[test]
fn each_block_has_its_line_its_pass_and_the_reason() {
    let text = format!(
        "{PROFILE}0,0,0 Solid\n0,1,0 Lever support=0,-1,0\n\n# No floor.\n3,2,0 RedstoneTorch support=0,-1,0\n\
         3,1,0 Repeater support=0,-1,0\n3,2,1 Lever support=-1,0,0\n4,2,0 RedstoneWire support=-1,0,0\n\
         5,1,0 Comparator\n6,1,0 RedstoneWire support=0,0,0\n7,1,0 Repeater support=0,0,0\n8,1,0 Button\n\
         9,1,0 Repeater support=1,0,0\n10,1,0 Repeater support=-1,0,0\n10,2,0 Lever support=0,-1,0\n"
    );
    assert_eq!(
        listed(&text),
        "standard input: 13 blocks, 6 would drop, in 2 passes; 7 kept\n\
         pass 1\n    \
         standard input:7: repeater 3,1,0: nothing stands at its support, 3,0,0\n    \
         standard input:8: lever 3,2,1: nothing stands at its support, 2,2,1\n    \
         standard input:9: dust 4,2,0: its support, torch 3,2,0, does not support components by the profile\n    \
         standard input:10: comparator 5,1,0: it has no support field: write support=0,-1,0 if it rests on the block \
         below\n    \
         standard input:11: dust 6,1,0: its support, dust 6,1,0, does not support components by the profile\n\
         pass 2\n    \
         standard input:6: torch 3,2,0: its support, repeater 3,1,0, goes in pass 1\n"
    );
}

#[test]
fn one_block_goes_in_one_pass() {
    assert_eq!(
        listed("0,1,0 Lever\n"),
        format!(
            "standard input: 1 block, 1 would drop, in 1 pass; 0 kept\npass 1\n    standard input:1: lever 0,1,0{}\n",
            no_field(Kind::Lever)
        )
    );
    assert_eq!(left("0,1,0 Lever\nswitch 0,1,0 on\n").0, "blocks=0\n");
}

/// The reason of a block of a kind that has no support field.
fn no_field(kind: Kind) -> String {
    let to_write = match kind {
        Kind::RedstoneTorch | Kind::Lever => {
            "support= and the step to the block that it is fixed to, 0,-1,0 if that is the one below"
        }
        _ => "support=0,-1,0 if it rests on the block below",
    };
    format!(": it has no support field: write {to_write}")
}

const NEEDING: [Kind; 5] =
    [Kind::RedstoneWire, Kind::RedstoneTorch, Kind::Repeater, Kind::Comparator, Kind::Lever];

/// A block right below is not assumed to be the support. With what the list says to write it is.
#[test]
fn without_its_field_a_block_goes_from_the_floor_too() {
    for kind in NEEDING {
        let text = format!("0,0,0 Solid\n0,1,0 {kind}\n");
        let list = listed(&text);
        assert!(list.starts_with("standard input: 2 blocks, 1 would drop, in 1 pass; 1 kept\n"), "{list}");
        assert!(list.ends_with(&format!(" 0,1,0{}\n", no_field(kind))), "{list}");
        let mended = text.replace(&format!("{kind}\n"), &format!("{kind} support=0,-1,0\n"));
        assert_eq!(listed(&mended), "standard input: 2 blocks, nothing would drop\n");
    }
}

/// Where a support has a shape, that alone decides; else the profile does.
#[test]
fn a_support_that_fails_does_so_by_its_shape_or_by_the_profile() {
    let list = |profile: &str, support: &str| {
        listed(&format!("profile {profile}\n0,0,0 {support}\n0,1,0 RedstoneWire support=0,-1,0\n"))
    };
    for profile in ["Solid=31", "Piston=1"] {
        for shape in ["bottom_slab", "bottom_stairs"] {
            let list = list(profile, &format!("Solid shape={shape}"));
            let reason =
                format!("its support, solid block 0,0,0 in the shape {shape}, does not support components\n");
            assert!(list.ends_with(&format!(" dust 0,1,0: {reason}")), "{list}");
        }
        for shape in ["top_slab", "double_slab", "top_stairs", "glass"] {
            let list = list(profile, &format!("Solid shape={shape}"));
            assert_eq!(list, "standard input: 2 blocks, nothing would drop\n");
        }
    }
    let by_profile = list("Solid=30", "Solid shape=plain");
    let reason = "its support, solid block 0,0,0, does not support components by the profile\n";
    assert!(by_profile.ends_with(&format!(" dust 0,1,0: {reason}")), "{by_profile}");
    assert_eq!(list("Solid=1", "Solid"), "standard input: 2 blocks, nothing would drop\n");
}

/// A tower falls from the side that it is fixed to, a block in each pass.
#[test]
fn as_many_passes_as_blocks() {
    for (step, height) in [("0,-1,0", 0), ("0,1,0", 41)] {
        let tower: String = (1..=40).map(|y| format!("0,{y},0 Repeater support={step}\n")).collect();
        let list = listed(&format!("{PROFILE}{tower}"));
        assert!(
            list.starts_with("standard input: 40 blocks, 40 would drop, in 40 passes; 0 kept\n"),
            "{list}"
        );
        assert_eq!(list.lines().filter(|line| line.starts_with("pass ")).count(), 40);
        let last = if height == 0 { 41 } else { 2 };
        assert!(list.contains(&format!("pass 40\n    standard input:{last}: ")), "{list}");
        let held = listed(&format!("{PROFILE}0,{height},0 Solid\n{tower}"));
        assert_eq!(held, "standard input: 41 blocks, nothing would drop\n");
    }
}

/// The passes in a list, by the positions of the blocks.
fn passes(list: &str) -> Vec<(String, u16)> {
    let (mut pass, mut passes) = (0, Vec::new());
    for line in list.lines().skip(1) {
        match line.strip_prefix("pass ") {
            Some(number) => pass = number.parse().expect("a number"),
            None => {
                let block = line.split(": ").nth(1).expect("a block");
                passes.push((block.rsplit(' ').next().expect("a position").to_owned(), pass));
            }
        }
    }
    passes
}

/// How the reason of a row ends, by what goes of the row and its support alone.
fn end_of_reason(case: &Case, all: &[Row], passes: &[u16], row: &Row) -> String {
    let Some(step) = row.support() else {
        return no_field(row.kind());
    };
    let place = [0, 1, 2].map(|axis| row.position()[axis] + i32::from(step[axis]));
    let at = position_text(place);
    let Some(support) = find(&case.table, place) else {
        return format!(": nothing stands at its support, {at}");
    };
    let both: BTreeMap<_, _> = [row, &all[support]].map(|row| (row.position(), *row)).into();
    let table = redstone::table(both.into_values());
    let number = find(&table, row.position()).expect("the row");
    match cleared(&case.profile, &table).expect("an accepted table").passes[number] {
        1 => match row_text(&all[support]).split_once(" shape=") {
            Some((_, after)) => {
                let shape = after.split(' ').next().expect("a shape");
                format!(" {at} in the shape {shape}, does not support components")
            }
            None => format!(" {at}, does not support components by the profile"),
        },
        _ => format!(" {at}, goes in pass {}", passes[support]),
    }
}

/// In the packed form or as text.
#[test]
fn the_rows_and_the_passes_are_those_of_the_call() {
    let (mut gone, mut later, mut kept) = (0, 0, 0);
    let leaning = (0..200).map(leaning_case);
    for case in cases(300).chain(leaning).filter(|case| case.rows() <= 200) {
        let packed = [&case.profile[..], &case.table].concat();
        let by_call = cleared(&case.profile, &case.table).expect("an accepted table");
        let all = rows(&case.table).expect("rows");
        let list = hall_with(&["clear", "-"], &packed);
        let expected: Vec<_> = by_call
            .gone()
            .into_iter()
            .map(|(row, pass)| (position_text(all[row].position()), pass))
            .collect();
        assert_eq!((list.status, passes(list.text())), (Some(0), expected), "{case}");

        let written = hall_with(&["clear", "-", "-o", "-"], &packed);
        assert_eq!((written.status, written.err.as_str()), (Some(0), list.text()), "{case}");
        let again = hall_with(&["pack", "-"], &written.out);
        assert_eq!(again.out, [&case.profile[..], &by_call.kept].concat(), "{case}");
        let text = hall_with(&["unpack", "-"], &packed);
        assert_eq!(hall_with(&["clear", "-", "-o", "-"], &text.out).out, written.out, "{case}");

        let lines = list.text().lines().filter(|line| line.starts_with("    "));
        for (line, (row, _)) in lines.zip(by_call.gone()) {
            let end = end_of_reason(&case, &all, &by_call.passes, &all[row]);
            assert!(line.ends_with(&end), "{line}, and not{end}\n{case}");
        }
        gone += by_call.gone().len();
        later += by_call.gone().iter().filter(|(_, pass)| *pass > 1).count();
        kept += by_call.kept.len() / ROW_BYTES;
    }
    assert!(gone > 1000 && kept > 1000 && later > 500, "{gone} gone, {later} of them later, {kept} kept");
}

#[test]
fn lines_about_blocks_that_go_are_left_out_and_listed() {
    let text = "0,0,0 Solid\n0,1,0 Lever support=0,-1,0\n1,1,0 RedstoneWire\n2,1,0 Lever  # by mistake\n\
                expect rounds = 2\nexpect dust 1,1,0 = 0\nswitch tick 3 2,1,0 on\nswitch tick 2 0,1,0 on\n\
                expect tick 4 weak 0,0,0 = 15\nexpect tick 4 signal 2,1,0 = 15\nexpect tick 1 blocks = 4\n\
                expect tick 2 signal 0,1,0 = 15\n";
    let (rest, list) = left(text);
    assert_eq!(
        rest,
        "blocks=2\n0,0,0 Solid\n0,1,0 Lever support=0,-1,0\n\n# standard input\nswitch tick 2 0,1,0 on\n\
         expect tick 4 weak 0,0,0 = 15\nexpect tick 2 signal 0,1,0 = 15\n"
    );
    assert_eq!(list, listed(text));
    let (_, lines) = list.split_once("lines that go with them\n").expect("lines");
    assert_eq!(
        lines,
        "    standard input:5: expect rounds = 2\n    standard input:6: expect dust 1,1,0 = 0\n    \
         standard input:7: switch tick 3 2,1,0 on\n    standard input:10: expect tick 4 signal 2,1,0 = 15\n    \
         standard input:11: expect tick 1 blocks = 4\n"
    );
    // What is left is a hall, of which nothing goes, and no line.
    assert_eq!(left(&rest), (rest, "standard input: 2 blocks, nothing would drop\n".to_owned()));
}

#[test]
fn where_nothing_goes_every_line_stays() {
    let lines =
        "switch tick 2 0,1,0 on\nexpect blocks = 2\nexpect tick 1 rounds = 2\nexpect signal 0,1,0 = 0\n";
    let rows = "blocks=2\n0,0,0 Solid\n0,1,0 Lever support=0,-1,0\n";
    assert_eq!(left(&format!("{rows}{lines}")).0, format!("{rows}\n# standard input\n{lines}"));
    assert_eq!(
        left("blocks=0\n"),
        ("blocks=0\n".into(), "standard input: 0 blocks, nothing would drop\n".into())
    );
}

const ROOM: &str = "halls/imported/missing-floor.hall";

/// What the sample's comment says of the lamp without its dust.
#[test]
fn what_is_left_of_the_sample_is_checked() {
    let rest = hall(&["clear", ROOM, "-o", "-"]);
    let checked = hall_with(&["check", "-"], &rest.out);
    assert_eq!(checked.status, Some(1), "{}", checked.text());
    assert!(checked.text().contains("DIFFERS, 1 of 4 expectations"), "{}", checked.text());
    assert!(checked.text().contains(": expected lamp 3,1,2 lit, given dark\n"), "{}", checked.text());
    // Every line goes or stays, and none is lost.
    let whole = fs::read_to_string(root().join(ROOM)).expect("the sample");
    let is_beside = |line: &&str| line.starts_with("switch ") || line.starts_with("expect ");
    let (kept, gone) =
        (rest.text().lines().filter(is_beside), rest.err.split_once("lines that go").expect("lines"));
    assert_eq!(kept.count() + gone.1.lines().skip(1).count(), whole.lines().filter(is_beside).count());
}

#[test]
fn another_profile_holds_other_blocks_up() {
    let text = "0,0,0 Solid\n0,1,0 Lever support=0,-1,0\n";
    let bare = file("clear_profile", "bare.txt", "profile Piston=1\n");
    let done = hall_with(&["clear", "-", "--profile", &bare, "-o", "-"], text.as_bytes());
    assert_eq!((done.status, done.text()), (Some(0), "profile Piston=1\nblocks=1\n0,0,0 Solid\n"));
    assert!(
        done.err.contains(": its support, solid block 0,0,0, does not support components by the profile\n"),
        "{}",
        done.err
    );
    assert_eq!(listed(text), "standard input: 2 blocks, nothing would drop\n");
}

/// A packed file has no lines to tell.
#[test]
fn blocks_of_a_packed_hall_are_told_without_lines() {
    let table = redstone::table([Row::new(Kind::Solid, [0, 0, 0]), Row::new(Kind::Lever, [0, 1, 0])]);
    let name = file("clear_packed", "room.bin", [&BENCH_PROFILE[..], &table].concat());
    let done = hall(&["clear", &name]);
    assert_eq!(
        (done.status, done.text()),
        (
            Some(0),
            &*format!(
                "{name}: 2 blocks, 1 would drop, in 1 pass; 1 kept\npass 1\n    {name}: lever 0,1,0{}\n",
                no_field(Kind::Lever)
            )
        )
    );
    // 13 bytes stay 13.
    let written = hall(&["clear", &name, "-o", "-"]);
    let packed = hall_with(&["pack", "-"], &written.out);
    assert_eq!(packed.out, [&BENCH_PROFILE[..], &table[..ROW_BYTES]].concat());
    let with_bulb = hall_with(&["clear", "-", "-o", "-"], &[&BENCH_PROFILE_WITH_BULB[..], &table].concat());
    assert_eq!(with_bulb.text(), "blocks=1\n0,0,0 Solid\n");
    assert_eq!(packed.out.len() + 1, PROFILE_BYTES_WITH_BULB + ROW_BYTES);
}

/// To a file the hall alone, and the list to standard output; to standard output the hall alone, and the list beside it.
#[test]
fn the_hall_and_the_list_do_not_mix() {
    let out = folder("clear_out").join("cleared.hall");
    let name = out.to_str().expect("UTF-8");
    let list = hall(&["clear", ROOM]);
    assert_eq!(list.status, Some(0));
    for _ in 0..2 {
        let to_file = hall(&["clear", ROOM, "-o", name]);
        assert_eq!((to_file.status, to_file.text(), to_file.err.as_str()), (Some(0), list.text(), ""));
    }
    let to_output = hall(&["clear", ROOM, "-o", "-"]);
    assert_eq!((to_output.status, to_output.err.as_str()), (Some(0), list.text()));
    assert_eq!(fs::read(&out).expect("a file"), to_output.out);
}

#[test]
fn nothing_is_written_where_it_is_refused() {
    let out = folder("clear_refused").join("cleared.hall");
    fs::write(&out, "an older hall").expect("a file");
    let name = out.to_str().expect("UTF-8");
    for (text, said) in [
        (
            "0,0,0 Solid\n0,0,0 Levr\n",
            "hall: standard input:2:7: found \"Levr\", expected a kind: did you mean Lever?\n",
        ),
        (
            "0,0,0 Solid\n0,1,0 Comparator level=16\n",
            "hall: standard input:2: refusal 10, overdriven: row 1 at 0,1,0: power level (byte 16) is 16; a comparator's \
             may be at most 15 (write level=15 or less).\n",
        ),
        (
            "0,0,0 Solid\nswitch 0,0,0 on\n",
            "hall: standard input:2:8: found \"0,0,0\", expected the position of a lever, button or plate: a solid block \
             stands there.\n",
        ),
    ] {
        let done = hall_with(&["clear", "-", "-o", name], text.as_bytes());
        assert_eq!((done.status, done.text(), done.err.as_str()), (Some(2), "", said));
        assert_eq!(fs::read_to_string(&out).expect("a file"), "an older hall");
    }
}
