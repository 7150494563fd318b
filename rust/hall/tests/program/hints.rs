//! The hints, beside the tables of docs/DIFFERENCES.md.

use std::collections::{BTreeMap, BTreeSet};
use std::fs;

use hall::{Hall, Hint, Run, hints};
use redstone::{BENCH_PROFILE_WITH_BULB, Kind, TORCH_CHARGES_ABOVE};

use crate::support::{hall, root, samples};

/// The tables of an entry, each with the steps of its run as `switch` lines.
fn tables(entry: &str) -> Vec<String> {
    let mut tables: Vec<String> = Vec::new();
    for (number, block) in entry.split("```").enumerate().filter(|(number, _)| number % 2 == 1) {
        let (word, lines) = block.split_once('\n').unwrap_or_else(|| panic!("block {number} has no lines"));
        match (word, tables.last_mut()) {
            ("run", Some(table)) => *table += &switches(lines),
            ("table", _) => tables.push(lines.to_owned()),
            _ => {}
        }
    }
    tables
}

fn switches(run: &str) -> String {
    let (mut tick, mut text) = (0, String::new());
    for line in run.lines() {
        if let Some(ticks) = line.strip_prefix("tick ") {
            tick += ticks.parse::<u32>().expect("ticks");
        } else if let Some(switch) = line.strip_prefix("switch ") {
            text += &format!("switch tick {tick} {switch}\n");
        }
    }
    text
}

/// The hints of a text.
fn hints_of(text: &str) -> Vec<Hint> {
    let hall = Hall::from_text("a.hall", text, None).unwrap_or_else(|refused| panic!("{refused}\n{text}"));
    let run = Run::new(&hall, 40).expect("an accepted table");
    hints(&hall, &run).expect("an accepted table")
}

/// The numbers of the hints of a text.
fn numbers(text: &str) -> BTreeSet<u8> {
    hints_of(text).iter().map(|hint| hint.number).collect()
}

/// Whether a table says its profile. In an entry it is one that takes the entry's difference away.
fn has_profile(table: &str) -> bool {
    table.starts_with("profile ")
}

fn document() -> String {
    fs::read_to_string(root().join("docs/DIFFERENCES.md")).expect("docs/DIFFERENCES.md")
}

/// The entries by number.
fn entries(document: &str) -> BTreeMap<u8, &str> {
    let parts = document.split("\n### ").skip(1);
    parts
        .filter_map(|part| part.split("\n## ").next())
        .map(|part| (part.split('.').next().and_then(|number| number.parse().ok()).expect("a number"), part))
        .collect()
}

/// Those that no hint is given of: what it takes is not in the table, or is rare.
const WITHOUT: [u8; 24] =
    [14, 26, 27, 28, 29, 30, 31, 32, 33, 37, 38, 39, 42, 43, 44, 48, 49, 51, 52, 53, 54, 55, 61, 62];

#[test]
fn the_tables_of_an_entry_give_its_hint() {
    let document = document();
    let entries = entries(&document);
    assert!(WITHOUT.iter().all(|number| entries.contains_key(number)), "an entry that is not there");
    let (mut with, mut by_profile) = (BTreeSet::new(), BTreeSet::new());
    for (number, entry) in &entries {
        if WITHOUT.contains(number) {
            continue;
        }
        let tables = tables(entry);
        assert!(!tables.is_empty(), "entry {number} has no table");
        for table in tables {
            let found = numbers(&table);
            let is_given = found.contains(number);
            if has_profile(&table) {
                assert!(!is_given, "a table of entry {number}, by its profile, gives {found:?}:\n{table}");
                by_profile.insert(*number);
            } else if is_given {
                with.insert(*number);
            } else {
                // The second table of 17 is a cross that is stored, which the bench takes for one.
                assert_eq!(*number, 17, "a table of entry {number} gives {found:?}:\n{table}");
            }
        }
    }
    let all: BTreeSet<_> = entries.keys().copied().filter(|number| !WITHOUT.contains(number)).collect();
    assert_eq!(with, all);
    assert_eq!(by_profile, BTreeSet::from([22, 23]));
}

/// Where the bench agrees with the game, the only hints are of fields that the tables leave out, and of devices that are
/// not at rest. Four tables have something of which nothing is said there: a line that ends at a solid block, dust alone
/// beside a bulb, a switch that powers a bulb, and a torch that is marked.
#[test]
fn tables_that_agree_give_no_hint_of_their_circuit() {
    let document = document();
    let part =
        document.split("\n## ").find(|part| part.starts_with("Where the bench agrees")).expect("the part");
    let tables = tables(part);
    assert!(tables.len() > 10);
    let of_circuits = |table: &String| {
        numbers(table)
            .into_iter()
            .filter(|number| ![1, 5, 15, 21, 45, 60].contains(number))
            .collect::<Vec<_>>()
    };
    let found: Vec<_> = tables.iter().map(of_circuits).filter(|found| !found.is_empty()).collect();
    assert_eq!(found, [[16], [17], [59], [12]]);
}

/// `hall check` counts what `hall run` lists.
#[test]
fn a_check_says_how_many_hints_a_run_has() {
    let mut with = 0;
    for sample in samples() {
        let listed = hall(&["run", &sample]).text().lines().filter(|line| line.starts_with("hint ")).count();
        let done = hall(&["check", &sample]);
        let head = done.text().lines().next().unwrap_or_default();
        let counted = match listed {
            0 => "expectations".to_owned(),
            1 => "1 hint, see `hall run`".to_owned(),
            _ => format!("{listed} hints, see `hall run`"),
        };
        assert!(head.ends_with(&counted), "{head}");
        with += usize::from(listed > 0);
    }
    assert!(with > 0);
}

/// Each table is near to one that a hint is given of, and the game does as the bench does, or otherwise for another reason.
#[test]
fn what_the_game_does_too_gets_no_hint() {
    for (table, none, instead) in [
        // A lever's block powers the next one here alone, and nothing reads that: the repeater runs past it.
        (
            "0,0,0 Solid\n0,1,0 Lever support=0,-1,0 powered=true\n1,0,0 Solid\n1,0,1 Repeater facing=East\n",
            &[4][..],
            None,
        ),
        // Dust beside a block that only a redstone block powers, here alone.
        ("0,0,0 RedstoneBlock\n1,0,0 Solid\n2,0,0 RedstoneWire\n", &[18], Some(2)),
        // A lamp beside a block that only a strongly powered one powers, here alone.
        (
            "0,0,0 Solid\n0,1,0 Lever support=0,-1,0 powered=true\n1,0,0 Solid\n2,0,0 RedstoneLamp\n",
            &[19],
            None,
        ),
        // The same with dust on that block, which lights the lamp in the game.
        (
            "0,0,0 Solid\n0,1,0 Lever support=0,-1,0 powered=true\n1,0,0 Solid\n1,1,0 RedstoneWire\n\
             2,0,0 RedstoneLamp\n",
            &[],
            Some(19),
        ),
        // Dust with no field and no block below, and with a slab there that holds nothing, drops.
        ("0,0,0 RedstoneWire\n", &[45], Some(15)),
        ("0,0,0 Solid shape=bottom_slab\n0,1,0 RedstoneWire\n", &[45, 46], Some(15)),
        // What hangs at a slab or stairs, or lies on a piston, does not.
        ("0,0,0 Lever support=0,1,0\n0,1,0 Solid shape=bottom_slab\n", &[15], Some(46)),
        ("0,0,0 Solid shape=bottom_stairs\n1,0,0 RedstoneTorch support=-1,0,0\n", &[15], Some(46)),
        ("0,0,0 Piston\n0,1,0 RedstoneWire\n", &[15, 45], Some(47)),
        // A torch hangs from no ceiling, and no bottom slab has a full side.
        ("0,0,0 RedstoneTorch support=0,1,0\n0,1,0 Solid shape=bottom_slab\n", &[46], Some(15)),
        ("0,0,0 Solid shape=bottom_slab\n1,0,0 Lever support=-1,0,0\n", &[46], Some(15)),
        // Repeaters that point at what reads them, and one that is never on.
        ("0,0,0 Repeater facing=East powered=true\n1,0,0 Repeater facing=East\n", &[7], None),
        ("0,0,0 Repeater facing=East powered=true\n1,0,0 Comparator facing=East\n", &[8], None),
        ("1,0,0 Comparator facing=East\n1,0,1 Repeater facing=North powered=true\n", &[8], None),
        ("0,0,0 Repeater facing=North\n1,0,0 Repeater facing=East\n", &[7], None),
        // One that points elsewhere has its number by what reads it.
        ("0,0,0 Repeater facing=North powered=true\n1,0,0 Repeater facing=East\n", &[8], Some(7)),
        ("0,0,0 Repeater facing=North powered=true\n1,0,0 Comparator facing=East\n", &[7], Some(8)),
        // A lamp that a redstone block lights, with nothing beside it.
        ("0,0,0 RedstoneBlock\n1,0,0 RedstoneLamp\n", &[2, 3], None),
        // Nobody has pressed them, or stands on them.
        ("0,0,0 Button support=0,-1,0\n2,0,0 PressurePlate support=0,-1,0\n", &[10, 11], None),
        // Dust without power, at a line's end and alone.
        ("0,0,0 Lever\n1,0,0 RedstoneWire\n2,0,0 RedstoneLamp\n", &[16], None),
        ("0,0,0 RedstoneWire\n1,0,0 RedstoneLamp\n", &[17], None),
        // Levers that are off, beside a lamp and at a comparator's side, with an unpowered block at the other.
        ("0,0,0 Lever support=0,-1,0\n1,0,0 RedstoneLamp\n", &[20], None),
        ("0,0,-1 Lever\n0,0,0 Comparator facing=East\n0,0,1 Solid\n", &[24, 25], None),
        // A torch that is out under a block, and torches on a lamp, which they do not light.
        (
            "0,0,0 Solid\n0,1,0 Lever support=0,-1,0 powered=true\n1,0,0 RedstoneTorch support=-1,0,0 powered=false\n\
             1,1,0 Solid\n",
            &[22],
            None,
        ),
        (
            "0,0,0 RedstoneLamp\n0,1,0 RedstoneTorch support=0,-1,0\n1,0,0 RedstoneTorch support=-1,0,0\n",
            &[23],
            None,
        ),
        // A block and a lamp over a torch that charges them, and one whose profile has all but the value for that.
        (&charging("0,0,0 RedstoneTorch\n0,1,0 Solid\n0,2,0 RedstoneWire\n"), &[22], None),
        (&charging("0,0,0 RedstoneTorch\n0,1,0 RedstoneLamp\n"), &[22, 23], None),
        ("profile Solid=31 RedstoneTorch=31\n0,0,0 RedstoneTorch\n0,1,0 Solid\n", &[], Some(22)),
        // The value is for the block above alone: a lamp beside such a torch, or under it, is dark.
        (&charging("0,0,0 RedstoneTorch\n1,0,0 RedstoneLamp\n"), &[22], Some(23)),
        (&charging("0,0,0 RedstoneLamp\n0,1,0 RedstoneTorch support=1,0,0\n"), &[22], Some(23)),
        // What a charged block does here and not in the game, or in the game and not here.
        (&charging("0,0,0 RedstoneTorch\n0,1,0 Solid\n1,1,0 RedstoneWire\n"), &[22], Some(18)),
        (&charging("0,0,0 RedstoneTorch\n0,1,0 Solid\n1,1,0 Comparator facing=North\n"), &[22], Some(24)),
        (
            &charging("0,0,0 RedstoneTorch\n0,1,0 Solid\n1,1,0 Solid\n2,1,0 Repeater facing=East\n"),
            &[22],
            Some(4),
        ),
        // Of a pulse that the run's first or last tick cuts off it is not known how long it is.
        ("0,0,0 Repeater facing=East powered=true delay=2\n", &[34, 35], None),
        ("0,0,0 Lever\n1,0,0 Repeater facing=East delay=2\nswitch tick 38 0,0,0 on\n", &[34, 35], None),
        // A lamp that a repeater powers keeps the game's time.
        (
            "0,0,0 Lever\n1,0,0 Repeater facing=East\n2,0,0 RedstoneLamp\nswitch tick 3 0,0,0 on\n\
             switch tick 9 0,0,0 off\n",
            &[40, 41],
            None,
        ),
        // A redstone block powers a bulb, too, and a bulb is no block that gives power on or cuts dust.
        ("0,0,0 RedstoneBlock\n1,0,0 CopperBulb\n2,0,0 RedstoneWire\n", &[2, 3, 18], None),
        ("0,0,0 CopperBulb\n0,1,0 Lever support=0,-1,0 powered=true\n1,0,0 RedstoneWire\n", &[18], None),
        (
            "-1,0,0 RedstoneLamp\n0,0,0 CopperBulb\n0,1,0 RedstoneWire\n1,1,0 Lever powered=true\n",
            &[19],
            None,
        ),
        ("0,0,0 RedstoneWire\n0,1,0 CopperBulb\n1,0,0 Solid\n1,1,0 RedstoneWire\n", &[9], None),
        // A strongly powered block beside it powers a bulb as a device, and a block beside a strongly powered bulb not.
        (
            "0,0,0 Solid\n0,1,0 Lever support=0,-1,0 powered=true\n1,0,0 CopperBulb\n2,0,0 Comparator facing=East\n",
            &[4],
            None,
        ),
        (
            "0,0,0 CopperBulb\n0,1,0 Lever support=0,-1,0 powered=true\n1,0,0 Solid\n2,0,0 Repeater facing=East\n",
            &[4],
            Some(58),
        ),
        // A bulb takes what a lamp takes.
        ("0,0,0 Lever powered=true\n1,0,0 RedstoneWire\n2,0,0 CopperBulb\n", &[], Some(16)),
        ("0,0,0 RedstoneBlock\n0,1,0 RedstoneWire\n1,1,0 CopperBulb\n", &[], Some(17)),
        ("-1,0,0 CopperBulb\n0,0,0 Solid\n0,1,0 RedstoneWire\n1,1,0 Lever powered=true\n", &[], Some(19)),
        ("0,0,0 Lever support=0,-1,0 powered=true\n1,0,0 CopperBulb\n", &[], Some(20)),
        ("0,0,0 RedstoneTorch\n0,1,0 CopperBulb\n", &[], Some(22)),
        ("0,0,0 RedstoneTorch\n1,0,0 CopperBulb\n", &[22], Some(23)),
        (
            "0,0,0 Comparator facing=East\n0,0,1 CopperBulb\n0,1,1 Lever support=0,-1,0 powered=true\n",
            &[57],
            Some(24),
        ),
        // A comparator with a bulb at its front; a torch on a bulb without power; and a bulb that dust alone powers, or
        // that stands beside a lamp with strong power of its own, or with a strongly powered block at its other side.
        ("0,0,0 Comparator facing=East\n1,0,0 CopperBulb\n", &[57], None),
        ("0,0,0 CopperBulb\n0,1,0 RedstoneTorch support=0,-1,0\n", &[58], None),
        ("0,0,0 CopperBulb\n0,1,0 RedstoneWire\n1,0,0 RedstoneLamp\n0,1,1 Lever powered=true\n", &[58], None),
        (
            "0,0,0 CopperBulb\n0,1,0 Lever support=0,-1,0 powered=true\n1,0,0 RedstoneLamp\n\
             1,1,0 Lever support=0,-1,0 powered=true\n",
            &[58],
            None,
        ),
        (
            "0,0,0 CopperBulb\n0,1,0 Lever support=0,-1,0 powered=true\n1,0,0 RedstoneLamp\n2,0,0 Solid\n\
             2,1,0 Lever support=0,-1,0 powered=true\n",
            &[58],
            None,
        ),
        ("0,0,0 CopperBulb\n0,1,0 Lever support=0,-1,0 powered=true\n1,0,0 Solid\n", &[58], None),
        // A bulb that a repeater powers keeps the game's time, and so does one that loses its power.
        (
            "0,0,0 Lever\n1,0,0 Repeater facing=East\n2,0,0 CopperBulb\nswitch tick 3 0,0,0 on\n\
             switch tick 9 0,0,0 off\n",
            &[59, 60],
            None,
        ),
        (
            "0,0,0 CopperBulb powered=false\n0,1,0 Lever support=0,-1,0 powered=true\nswitch tick 3 0,1,0 off\n",
            &[59, 60],
            None,
        ),
        // A lamp that a redstone block lights gives a bulb power here alone, which is no power that it is set beside.
        ("0,0,0 RedstoneBlock\n1,0,0 RedstoneLamp\n2,0,0 CopperBulb\n", &[60], Some(3)),
        ("0,0,0 RedstoneBlock\n1,0,0 Solid\n2,0,0 CopperBulb\n", &[3, 60], Some(2)),
        (
            "0,0,0 CopperBulb powered=false\n0,1,0 Lever support=0,-1,0 powered=true\n1,0,0 CopperBulb\n",
            &[60],
            Some(58),
        ),
        // The same with a lever that is on at the block or at the bulb, and with no redstone block.
        (
            "0,0,0 RedstoneBlock\n1,0,0 Solid\n1,1,0 Lever support=0,-1,0 powered=true\n2,0,0 CopperBulb\n",
            &[],
            Some(60),
        ),
        (
            "0,0,0 RedstoneBlock\n1,0,0 Solid\n2,0,0 CopperBulb\n2,1,0 Lever support=1,0,0 powered=true\n",
            &[],
            Some(60),
        ),
        ("0,0,0 Solid\n0,1,0 Lever support=0,-1,0 powered=true\n1,0,0 CopperBulb\n", &[2, 3], Some(60)),
        // It has power before the switches of tick 0.
        (
            "0,0,0 CopperBulb\n0,1,0 Lever support=0,-1,0 powered=true\nswitch tick 0 0,1,0 off\n",
            &[59],
            Some(60),
        ),
        // A comparator reads through a block that conducts and has less than 15, if only at times.
        ("0,0,0 CopperBulb\n1,0,0 RedstoneLamp\n2,0,0 Comparator facing=East\n", &[], Some(57)),
        (
            "0,0,0 CopperBulb\n1,0,0 Solid\n1,1,0 Lever support=0,-1,0\n2,0,0 Comparator facing=East\n\
             switch tick 3 1,1,0 on\n",
            &[],
            Some(57),
        ),
        (
            "0,0,0 CopperBulb\n1,0,0 Solid\n1,1,0 Lever support=0,-1,0 powered=true\n\
             2,0,0 Comparator facing=East\n",
            &[57],
            None,
        ),
        ("0,0,0 CopperBulb\n1,0,0 Transparent\n2,0,0 Comparator facing=East\n", &[57], None),
        ("0,0,0 CopperBulb\n1,0,0 Solid\n2,0,0 Solid\n3,0,0 Comparator facing=East\n", &[57], None),
        ("0,0,0 CopperBulb\n1,0,0 Solid\n2,0,0 Comparator facing=West\n", &[57], None),
        ("0,0,0 CopperBulb\n1,0,0 Solid\n2,0,0 Repeater facing=East\n", &[57], None),
        // By value 8 a repeater reads a bulb, and by 16 dust over it, under it or with an arm to it takes its strong power.
        (&fed_bulb(15, "1,0,0 Repeater facing=East\n"), &[], Some(58)),
        (&fed_bulb(23, "1,0,0 Repeater facing=East\n"), &[58], None),
        (&fed_bulb(15, "1,0,0 Repeater facing=West\n"), &[58], None),
        (&fed_bulb(23, "0,-1,0 RedstoneWire\n"), &[], Some(58)),
        (&fed_bulb(15, "0,-1,0 RedstoneWire\n"), &[58], None),
        (&fed_bulb(23, "1,0,0 RedstoneWire arms=West:Side\n"), &[], Some(58)),
        (&fed_bulb(23, "1,0,0 RedstoneWire arms=East:Side\n"), &[58], None),
        (
            "profile CopperBulb=23\n0,-1,0 RedstoneWire\n0,0,0 CopperBulb\n0,1,0 RedstoneWire\n\
             1,1,0 Lever powered=true\n",
            &[58],
            None,
        ),
        // A pulse between two ticks is missed, though nothing shows of it.
        (
            "0,0,0 CopperBulb\n0,1,0 Lever support=0,-1,0\nswitch tick 3 0,1,0 on\nswitch tick 3 0,1,0 off\n",
            &[60],
            Some(59),
        ),
    ] {
        let found = numbers(table);
        assert!(none.iter().all(|number| !found.contains(number)), "{found:?}:\n{table}");
        assert!(instead.is_none_or(|number| found.contains(&number)), "{found:?}:\n{table}");
    }
}

/// A bulb of this byte with a lever that is on, and a row more.
fn fed_bulb(byte: u8, row: &str) -> String {
    format!("profile CopperBulb={byte}\n0,0,0 CopperBulb\n0,1,0 Lever support=0,-1,0 powered=true\n{row}")
}

/// Of two bulbs the one that a lever reaches between two ticks: with a pulse, or with a gap.
#[test]
fn a_bulb_that_no_switch_powers_is_not_named() {
    const BULBS: &str = "0,0,0 CopperBulb powered=false\n0,1,0 Lever support=0,-1,0 powered=true\n\
                         9,0,0 CopperBulb\n";
    for (switches, named) in [
        (&[(3, "off"), (4, "on"), (4, "off")][..], true),
        (&[(3, "off"), (3, "on")], true),
        (&[(0, "off"), (0, "on")], true),
        (&[(3, "off"), (5, "on")], true),
        (&[(3, "off"), (3, "off")], false),
        (&[(3, "on"), (3, "off")], false),
        (&[(3, "on"), (3, "on")], false),
    ] {
        let lines = switches.iter().map(|(tick, set)| format!("switch tick {tick} 0,1,0 {set}\n"));
        let text = BULBS.to_owned() + &lines.collect::<String>();
        let hints = hints_of(&text);
        let blocks = hints.iter().find(|hint| hint.number == 59).map(|hint| &hint.blocks[..]);
        assert_eq!(blocks, named.then_some(&["bulb 0,0,0".to_owned()][..]), "{text}");
    }
}

/// A table under the profile that the hint of a block over a torch gives.
fn charging(table: &str) -> String {
    format!("{}\n{table}", line_of_hint())
}

/// The line that the hint of a block over a torch gives.
fn line_of_hint() -> &'static str {
    let hints = hints_of("0,0,0 RedstoneTorch\n0,1,0 Solid\n");
    let hint = hints.iter().find(|hint| hint.number == 22).expect("a hint of the torch");
    hint.sentence.split('`').nth(1).expect("a line")
}

/// It is the profile of a hall without that line, with the value for the torch. README.md has it, too, and no other.
#[test]
fn who_writes_the_line_of_the_hint_has_torches_that_charge_the_block_above() {
    let text = charging("0,0,0 RedstoneTorch\n0,1,0 Solid\n0,2,0 RedstoneWire\n");
    let hall = Hall::from_text("a.hall", &text, None).expect("a hall");
    let mut profile = BENCH_PROFILE_WITH_BULB;
    profile[usize::from(Kind::RedstoneTorch.code())] |= TORCH_CHARGES_ABOVE;
    assert_eq!(hall.fresh.profile(), profile);
    assert_eq!(hall.fresh.settled().strong(), [0, 15, 0]);
    assert_eq!(hall.fresh.settled().signal(), [15, 0, 15]);

    let readme = fs::read_to_string(root().join("README.md")).expect("README.md");
    let of_torch = |line: &&str| line.starts_with("profile ") && line.contains("RedstoneTorch=");
    let lines: Vec<_> = readme.lines().filter(of_torch).collect();
    assert_eq!(lines, [line_of_hint()]);
}

/// With the value it would put itself out, and in the game there is no such torch.
#[test]
fn a_torch_that_hangs_from_the_block_over_it_is_not_to_charge_it() {
    assert!(numbers("0,0,0 RedstoneTorch support=0,-1,0\n0,1,0 Solid\n").contains(&22));
    assert!(!numbers("0,0,0 RedstoneTorch support=0,1,0\n0,1,0 Solid\n").contains(&22));
}

/// In the game no torch burns out in the clock of entry 44, so that the hint does not say that it does.
#[test]
fn a_marked_torch_need_not_burn_out() {
    let document = document();
    let table = &tables(entries(&document)[&44])[0];
    let hall = Hall::from_text("a.hall", table, None).expect("a hall");
    for ticks in [20, 40] {
        let run = Run::new(&hall, ticks).expect("an accepted table");
        let hints = hints(&hall, &run).expect("an accepted table");
        let hint = hints.iter().find(|hint| hint.number == 12).expect("a hint of the torch");
        assert_eq!(
            hint.to_string(),
            "torch 1,0,0: it changes so often that it is marked, and goes on here; in the game it burns out where it \
             goes out eight times within 30 ticks, coming on not counted (44)"
        );
    }
}

#[test]
fn hints_stand_after_the_figures_and_apart() {
    let done = hall(&["run", "halls/torch-clock.hall"]);
    let (figures, hints) = done.text().split_once("\nHints: ").expect("hints");
    assert!(!figures.contains("hint "), "{figures}");
    assert!(hints.contains("\nhint 12: torch 1,1,0: "), "{hints}");
    for sample in samples() {
        assert!(!hall(&["csv", &sample]).text().contains("hint"));
        assert!(!hall(&["check", &sample]).text().contains("hint "));
    }
}
