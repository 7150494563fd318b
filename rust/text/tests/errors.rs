//! Each error has its place, what was found, and what was expected.

use redstone_text::{Error, Step, Table, TableReader, lines};

fn assert_error(read: Result<(), Error>, text: &str, place: (usize, usize), message: &str) {
    let error = read.expect_err(text);
    assert_eq!(
        (error.line(), error.column(), error.message().as_str()),
        (place.0, place.1, message),
        "{text:?}"
    );
    assert_eq!(error.to_string(), format!("line {}, column {}: {message}", place.0, place.1));
}

fn assert_table_errors(errors: &[(&str, (usize, usize), &str)]) {
    for (text, place, message) in errors {
        assert_error(text.parse::<Table>().map(drop), text, *place, message);
    }
}

const I32: &str = "a whole number from -2147483648 to 2147483647";

#[test]
fn errors_in_a_rows_position_and_kind() {
    let number = |found: &str| format!("found {found:?}, expected {I32}");
    assert_table_errors(&[
        ("0,0 Solid", (1, 1), r#"found "0,0", expected a position x,y,z"#),
        ("0,0,0,0 Solid", (1, 1), r#"found "0,0,0,0", expected a position x,y,z"#),
        ("\n 0,x,0 Solid", (2, 4), &number("x")),
        ("0,0,2147483648 Solid", (1, 5), &number("2147483648")),
        ("0,,0 Solid", (1, 3), &format!("found nothing, expected {I32}")),
        ("0,0,0", (1, 6), "found nothing, expected a kind"),
        ("0,0,0  # Solid", (1, 6), "found nothing, expected a kind"),
        ("0,0,0 Levr", (1, 7), r#"found "Levr", expected a kind: did you mean Lever?"#),
        (
            "0,0,0 redstonewire",
            (1, 7),
            r#"found "redstonewire", expected a kind: did you mean RedstoneWire?"#,
        ),
        (
            "0,0,0 Stone",
            (1, 7),
            "found \"Stone\", expected a kind: Solid, Transparent, RedstoneWire, RedstoneTorch, Repeater, \
             Comparator, Lever, Button, PressurePlate, RedstoneLamp, RedstoneBlock, Piston or CopperBulb",
        ),
    ]);
}

#[test]
fn errors_in_a_rows_fields() {
    assert_table_errors(&[
        ("0,0,0 Solid facing", (1, 13), r#"found "facing", expected a field name=value"#),
        ("0,0,0 Solid powerd=true", (1, 13), r#"found "powerd", expected a field: did you mean powered?"#),
        (
            "0,0,0 Solid colour=red",
            (1, 13),
            "found \"colour\", expected a field: facing, support, powered, level, delay, arms, shape or mode",
        ),
        (
            "0,0,0 Solid delay=1 level=2 delay=1",
            (1, 29),
            r#"found "delay" again, expected a field that is not given yet"#,
        ),
        ("0,0,0 Solid facing=nort", (1, 20), r#"found "nort", expected a facing: did you mean North?"#),
        (
            "0,0,0 Solid facing=Left",
            (1, 20),
            r#"found "Left", expected a facing: North, East, South, West, Up or Down"#,
        ),
        ("0,0,0 Solid powered=yes", (1, 21), r#"found "yes", expected a truth value: true or false"#),
        ("0,0,0 Solid level=256", (1, 19), r#"found "256", expected a whole number from 0 to 255"#),
        ("0,0,0 Comparator level=256", (1, 24), r#"found "256", expected a whole number from 0 to 15"#),
        ("0,0,0 Comparator level=low", (1, 24), r#"found "low", expected a whole number from 0 to 15"#),
        ("0,0,0 Solid delay=", (1, 19), "found nothing, expected a whole number from 0 to 255"),
        ("0,0,0 Solid delay=-1", (1, 19), r#"found "-1", expected a whole number from 0 to 255"#),
        ("0,0,0 Solid support=0,-1", (1, 21), r#"found "0,-1", expected a step dx,dy,dz"#),
        ("0,0,0 Solid support=0,-2,0", (1, 23), r#"found "-2", expected a whole number from -1 to 1"#),
        ("0,0,0 Solid arms=", (1, 18), "found nothing, expected an arm Side:Arm, or none"),
        ("0,0,0 Solid arms=East", (1, 18), r#"found "East", expected an arm Side:Arm, or none"#),
        ("0,0,0 Solid arms=Up:Side", (1, 18), r#"found "Up", expected a side: North, East, South or West"#),
        ("0,0,0 Solid arms=East:Side,West:up", (1, 33), r#"found "up", expected an arm: did you mean Up?"#),
        (
            "0,0,0 Solid arms=East:Side,East:Up",
            (1, 28),
            r#"found "East" again, expected a side that is not given yet"#,
        ),
        (
            "0,0,0 Solid shape=TopSlab",
            (1, 19),
            r#"found "TopSlab", expected a shape: did you mean top_slab?"#,
        ),
        ("0,0,0 Solid mode=add", (1, 18), r#"found "add", expected a mode: compare or subtract"#),
    ]);
}

#[test]
fn errors_in_other_lines_of_a_table() {
    assert_table_errors(&[
        (
            "0,0,0 Solid\n1,0,0 Solid\n+0,0,0 Lever",
            (3, 1),
            r#"found "+0,0,0" again, expected another position than line 1 has"#,
        ),
        ("blocks=two", (1, 8), &format!("found \"two\", expected a whole number from 0 to {}", usize::MAX)),
        ("blocks=1 2\n", (1, 10), r#"found "2", expected the end of the line"#),
        ("blocks=0\nblocks=0\n", (2, 1), r#"found "blocks=0" again, expected a row"#),
        (
            "0,0,0 Solid\nblocks=1\n",
            (2, 1),
            r#"found "blocks=1", expected a row, as this stands before the rows"#,
        ),
        (
            "0,0,0 Solid\nprofile\n",
            (2, 1),
            r#"found "profile", expected a row, as this stands before the rows"#,
        ),
        ("profile Solid=1\nprofile", (2, 1), r#"found "profile" again, expected a row"#),
        ("profile Solid", (1, 9), r#"found "Solid", expected a field name=value"#),
        ("profile Sold=1", (1, 9), r#"found "Sold", expected a kind: did you mean Solid?"#),
        ("profile Solid=256", (1, 15), r#"found "256", expected a whole number from 0 to 255"#),
        ("profile torch=32", (1, 9), r#"found "torch", expected a kind: did you mean RedstoneTorch?"#),
        ("profile Solid=31 Bulb=7", (1, 18), r#"found "Bulb", expected a kind: did you mean CopperBulb?"#),
        ("profile CopperBulb=256", (1, 20), r#"found "256", expected a whole number from 0 to 255"#),
        (
            "profile CopperBulb=7 CopperBulb=7",
            (1, 22),
            r#"found "CopperBulb" again, expected a kind that is not given yet"#,
        ),
        (
            "profile RedstoneTorch=32 RedstoneTorch=1",
            (1, 26),
            r#"found "RedstoneTorch" again, expected a kind that is not given yet"#,
        ),
        ("profile Solid=1 Solid=1", (1, 17), r#"found "Solid" again, expected a kind that is not given yet"#),
        (
            "profile=0,31,1",
            (1, 1),
            r#"found "profile=", expected a position or another first word: did you mean profile?"#,
        ),
        (
            "blocks 3",
            (1, 1),
            r#"found "blocks", expected a position or another first word: did you mean blocks=?"#,
        ),
        (
            "block=1\n0,0,0 Solid\n",
            (1, 1),
            r#"found "block=", expected a position or another first word: did you mean blocks=?"#,
        ),
        (
            "# Tür\n\ttick 3",
            (2, 2),
            r#"found "tick", expected a position or another first word: profile or blocks="#,
        ),
    ]);
}

/// A word is misspelt where few of its letters are wrong, or its beginning is left out, and then the nearest is named.
#[test]
fn a_misspelt_word_has_its_nearest() {
    let nearest = |kind: &str| {
        let error = format!("0,0,0 {kind}").parse::<Table>().expect_err(kind);
        error.nearest()
    };
    for (kind, meant) in [
        ("lever", "Lever"),
        ("Lveer", "Lever"),
        ("Levers", "Lever"),
        ("redstone_lamp", "RedstoneLamp"),
        ("RedstneTrch", "RedstoneTorch"),
        ("Compartor", "Comparator"),
        ("Lamp", "RedstoneLamp"),
        ("torch", "RedstoneTorch"),
        ("bulb", "CopperBulb"),
        ("copper_bulb", "CopperBulb"),
        ("CoperBulb", "CopperBulb"),
    ] {
        assert_eq!(nearest(kind), Some(meant), "{kind}");
    }
    for kind in ["Le", "Stone", "Redstone", "Comprtr", "Copper", "Tür"] {
        assert_eq!(nearest(kind), None, "{kind}");
    }
}

/// Columns count characters, of however many bytes.
#[test]
fn words_have_their_places() {
    let line = lines("one\n\tTür é=ü,Ü  3 # four").nth(1).expect("a line");
    let words: Vec<_> = line.words().map(|word| (word.line, word.column, word.text)).collect();
    assert_eq!(words, [(2, 2, "Tür"), (2, 6, "é=ü,Ü"), (2, 13, "3")]);
    let field = line.words().nth(1).expect("a word");
    let (name, value) = field.split_once('=').expect("a field");
    let parts: Vec<_> =
        [name].into_iter().chain(value.split(',')).map(|part| (part.column, part.text)).collect();
    assert_eq!(parts, [(6, "é"), (8, "ü"), (10, "Ü")]);
    assert_table_errors(&[(
        "blocks=0\n# Tür",
        (2, 6),
        "found the end of the text, expected the end of the line",
    )]);
}

#[test]
fn a_cut_text_is_told_by_its_count() {
    assert_table_errors(&[
        ("", (1, 1), "found the end of the text, expected a row, or blocks=0"),
        ("# nothing\n", (1, 10), "found the end of the text, expected a row, or blocks=0"),
        ("profile\n", (1, 8), "found the end of the text, expected a row, or blocks=0"),
        ("blocks=2\n0,0,0 Solid\n", (1, 8), r#"found "2", expected 1, the number of rows that there are"#),
        (
            "blocks=1\n0,0,0 Solid\n1,0,0 Solid\n",
            (1, 8),
            r#"found "1", expected 2, the number of rows that there are"#,
        ),
        ("blocks=1\n0,0,0 Solid delay=1", (2, 20), "found the end of the text, expected the end of the line"),
    ]);
}

#[test]
fn errors_in_steps() {
    let errors: [(&str, usize, &str); 9] = [
        ("tick", 5, "found nothing, expected a number of ticks"),
        ("tick one", 6, r#"found "one", expected a whole number from 0 to 4294967295"#),
        ("tick 4294967296", 6, r#"found "4294967296", expected a whole number from 0 to 4294967295"#),
        ("tick 3 4", 8, r#"found "4", expected the end of the line"#),
        ("switch", 7, "found nothing, expected a position x,y,z"),
        ("switch 0,1 on", 8, r#"found "0,1", expected a position x,y,z"#),
        ("switch 0,1,0", 13, "found nothing, expected on or off"),
        ("switch 0,1,0 onn", 14, r#"found "onn", expected a setting: did you mean on?"#),
        ("switch 0,1,0 on off", 17, r#"found "off", expected the end of the line"#),
    ];
    for (text, column, message) in errors {
        let line = lines(text).next().expect("a line");
        assert_error(Step::read(line).map(drop), text, (1, column), message);
    }
}

#[test]
fn a_reader_tells_its_own_lines_and_where_each_row_stands() {
    let text = "blocks=2\n1,0,0 Solid\nexpect lit\n\n0,0,0 Lever # a lever\n";
    let mut reader = TableReader::new();
    let own: Vec<_> = lines(text).map(|line| reader.read(line).expect("a line")).collect();
    assert_eq!(own, [true, true, false, true, true]);
    assert_eq!([[0, 0, 0], [1, 0, 0], [2, 0, 0]].map(|at| reader.line_of(at)), [Some(5), Some(2), None]);
    assert_eq!(reader.table().expect("a table").rows.len(), 2);
    let expect = lines(text).nth(2).expect("a line");
    let error = expect.unknown(&[TableReader::WORDS, Step::WORDS].concat());
    assert_eq!(
        (error.found(), error.known(), error.nearest()),
        ("expect", &["profile", "blocks=", "tick", "switch"][..], None)
    );
}
