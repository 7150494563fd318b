//! What feeds a dust.

use redstone::{BENCH_PROFILE, Circuit, DustTransfer, Feeder, Kind, Row, table};
use redstone_text::position_text;

use crate::generated::cases;
use crate::support::{file, hall, hall_with};

/// What `hall feeders` lists of a text from standard input.
fn listed(text: &str, position: &str) -> String {
    let done = hall_with(&["feeders", "-", position], text.as_bytes());
    assert_eq!((done.status, done.err.as_str()), (Some(0), ""));
    done.text().to_owned()
}

/// What is said of a position of a text from standard input, of which nothing can be listed.
fn refused(text: &str, position: &str) -> String {
    let done = hall_with(&["feeders", "-", position], text.as_bytes());
    assert_eq!((done.status, done.text()), (Some(2), ""));
    done.err
}

/// Dust at -1,1,-1 with dust at each side: at its height, a step down on two, and a step up.
const CROSSING: &str = "\
-1,1,-1 RedstoneWire
-1,1,-2 RedstoneWire  # to the North
-1,0,-1 RedstoneLamp

# To the East and to the South one lower, against the lamp.
0,0,-1 RedstoneWire
-1,0,0 RedstoneWire

# To the West one higher, on a block.
-2,1,-1 Solid
-2,2,-1 RedstoneWire
";

#[test]
fn each_feeder_has_its_line_its_side_and_its_rule() {
    assert_eq!(
        listed(CROSSING, "-1,1,-1"),
        "standard input: dust -1,1,-1 is fed by 4 dust\n    \
         standard input:11: dust -2,2,-1, to the West and one higher: FallThroughConductor, through solid block -2,1,-1 \
         below it, to which dust -1,1,-1 has an arm\n    \
         standard input:7: dust -1,0,0, to the South and one lower: Rise, by its arm to lamp -1,0,-1, on which dust -1,1,-1 \
         lies\n    \
         standard input:2: dust -1,1,-2, to the North: Horizontal, by the arms that both have to each other\n    \
         standard input:6: dust 0,0,-1, to the East and one lower: Rise, by its arm to lamp -1,0,-1, on which dust -1,1,-1 \
         lies\n"
    );
    assert_eq!(
        listed(CROSSING, "-2,2,-1"),
        "standard input: dust -2,2,-1 is fed by 1 dust\n    \
         standard input:1: dust -1,1,-1, to the East and one lower: Rise, by its arm to solid block -2,1,-1, on which dust \
         -2,2,-1 lies\n"
    );
}

/// By a lever, which is no dust.
#[test]
fn where_no_dust_feeds_it_what_else_may_is_said_not_to_be_listed() {
    let text = "0,0,0 Lever powered=true\n1,0,0 RedstoneWire\n3,0,0 RedstoneWire\n";
    for position in ["1,0,0", "3,0,0"] {
        assert_eq!(
            listed(text, position),
            format!(
                "standard input: no dust feeds dust {position} (levers, torches and other blocks that may power it are \
                 not listed)\n"
            )
        );
    }
}

#[test]
fn where_no_dust_is_the_nearest_is_named() {
    for (position, said) in [
        ("-2,1,-1", "solid block -2,1,-1 is no dust: the nearest is dust -2,2,-1"),
        ("-1,0,-1", "lamp -1,0,-1 is no dust: the nearest is dust -1,0,0"),
        ("-1,2,-1", "nothing stands at -1,2,-1: the nearest is dust -2,2,-1"),
        ("5,0,-1", "nothing stands at 5,0,-1: the nearest is dust 0,0,-1"),
        (
            "-1000000,1000000,1000000",
            "nothing stands at -1000000,1000000,1000000: the nearest is dust -2,2,-1",
        ),
    ] {
        assert_eq!(refused(CROSSING, position), format!("hall: standard input: {said}.\n"));
    }
    let without = "0,0,0 Lever\n";
    assert_eq!(
        refused(without, "0,0,0"),
        "hall: standard input: lever 0,0,0 is no dust, and there is no dust in the hall.\n"
    );
    assert_eq!(
        refused("blocks=0\n", "0,0,0"),
        "hall: standard input: nothing stands at 0,0,0, and there is no dust in the hall.\n"
    );
}

/// What `--profile` says of the block decides whether dust comes down it, and up it.
#[test]
fn another_profile_has_other_feeders() {
    let text = "0,1,0 RedstoneWire\n1,1,0 Solid\n1,2,0 RedstoneWire\n";
    let lists = |profile: Option<&str>| {
        ["0,1,0", "1,2,0"].map(|position| {
            let file = file("feeders_profile", "profile.txt", profile.unwrap_or_default());
            let given = ["--profile", &file];
            let words =
                [&["feeders", "-", position][..], if profile.is_some() { &given } else { &[] }].concat();
            let done = hall_with(&words, text.as_bytes());
            assert_eq!(done.status, Some(0), "{}", done.err);
            done.text().lines().count() - 1
        })
    };
    assert_eq!(lists(None), [1, 1]);
    assert_eq!(lists(Some("profile Solid=17\n")), [1, 1]);
    assert_eq!(lists(Some("profile Solid=1\n")), [0, 1]);
    assert_eq!(lists(Some("profile Solid=30\n")), [0, 0]);
}

/// A packed file has no lines to tell.
#[test]
fn feeders_in_a_packed_hall_are_told_without_lines() {
    let line = table([0, 1].map(|x| Row::new(Kind::RedstoneWire, [x, 0, 0])));
    let name = file("feeders_packed", "line.bin", [&BENCH_PROFILE[..], &line].concat());
    let done = hall(&["feeders", &name, "0,0,0"]);
    assert_eq!(
        (done.status, done.text()),
        (
            Some(0),
            &*format!(
                "{name}: dust 0,0,0 is fed by 1 dust\n    {name}: dust 1,0,0, to the East: Horizontal, by the arms that \
                 both have to each other\n"
            )
        )
    );
}

/// What a line says of where a feeder lies and of the rule, by its position alone.
fn side_and_rule(sink: [i32; 3], feeder: &Feeder) -> (String, &'static str) {
    let [dx, dy, dz] = [0, 1, 2].map(|axis| feeder.position[axis] - sink[axis]);
    let side = match (dx, dz) {
        (0, -1) => "North",
        (1, 0) => "East",
        (0, 1) => "South",
        _ => "West",
    };
    let (height, rule) = match dy {
        -1 => (" and one lower", "Rise, by its arm to "),
        0 => ("", "Horizontal, by the arms "),
        _ => (" and one higher", "FallThroughConductor, through "),
    };
    (format!(", to the {side}{height}: "), rule)
}

/// Of each table the dust that most feeds from another height, in the packed form and as text.
#[test]
fn the_feeders_are_those_of_the_call() {
    let (mut shown, mut rules) = (0, [0; 3]);
    for case in cases(300).filter(|case| case.rows() <= 200) {
        let circuit = Circuit::from_table(&case.profile, &case.table[..]).expect("an accepted table");
        let fed = circuit.blocks().filter_map(|block| {
            let position = block.row.position();
            Some((position, circuit.feeders_of(position).expect("accepted")?))
        });
        let from_other_heights = |feeders: &[Feeder]| {
            feeders.iter().filter(|feeder| feeder.transfer != DustTransfer::Horizontal).count()
        };
        let most = fed.max_by_key(|(_, feeders)| (from_other_heights(feeders), feeders.len()));
        let Some((position, feeders)) = most else { continue };
        let (packed, at) = ([&case.profile[..], &case.table].concat(), position_text(position));
        let list = hall_with(&["feeders", "-", &at], &packed);
        assert_eq!(list.status, Some(0), "{}\n{case}", list.err);
        let lines: Vec<_> = list.text().lines().skip(1).collect();
        assert_eq!(lines.len(), feeders.len(), "{case}");
        for (line, feeder) in lines.iter().zip(&feeders) {
            let (side, rule) = side_and_rule(position, feeder);
            let start = format!("    standard input: dust {}{side}{rule}", position_text(feeder.position));
            assert!(line.starts_with(&start), "{line}, and not {start}\n{case}");
            assert!(!line.contains("nothing at"), "{line}\n{case}");
            rules[feeder.transfer as usize] += 1;
        }
        let text = hall_with(&["unpack", "-"], &packed);
        let of_text = hall_with(&["feeders", "-", &at], &text.out);
        assert_eq!(of_text.text().lines().count(), list.text().lines().count(), "{case}");
        shown += 1;
    }
    assert!(shown > 150 && rules.iter().all(|number| *number > 10), "{shown} shown, {rules:?}");
}
