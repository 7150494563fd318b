//! Rows, tables and steps are equal after they are written and read, and what is written is short.

use redstone::{
    Arm, BENCH_PROFILE, BENCH_PROFILE_WITH_BULB, FARTHEST, Facing, Kind, MOST_ROWS, PROFILE_BYTES,
    PROFILE_BYTES_WITH_BULB, Row, Shape, TORCH_CHARGES_ABOVE,
};
use redstone_text::{Step, Table, lines, read_row, row_text};

/// Missing, or one of these.
fn optional<T: Copy>(values: &[T]) -> Vec<Option<T>> {
    [None].into_iter().chain(values.iter().copied().map(Some)).collect()
}

/// Each row with each value of a field.
fn each<T: Copy>(rows: Vec<Row>, values: &[T], set: fn(Row, T) -> Row) -> Vec<Row> {
    rows.into_iter().flat_map(|row| values.iter().map(move |value| set(row, *value))).collect()
}

/// Rows with every combination of these values, no two at one position and in the table's order.
fn rows() -> Vec<Row> {
    let arms = [[None; 4], [None, Some(Arm::Side), Some(Arm::None), Some(Arm::Up)]];
    let mut rows = Kind::ALL.iter().map(|kind| Row::new(*kind, [0; 3])).collect();
    rows = each(rows, &optional(Facing::ALL), Row::with_facing);
    rows = each(rows, &optional(&[false, true]), Row::with_powered);
    rows = each(rows, &optional(&[0, 255]), Row::with_power_level);
    rows = each(rows, &optional(&[1]), Row::with_delay);
    rows = each(rows, &optional(&[[0, -1, 0], [1, 1, -1]]), Row::with_support);
    rows = each(rows, &optional(&arms), Row::with_arms);
    rows = each(rows, Shape::ALL, Row::with_shape);
    rows = each(rows, &[false, true], Row::with_subtract);
    (-FARTHEST..).zip(rows).map(|(x, row)| row.with_position([x, 7 - x, -1])).collect()
}

/// Every value of a field, on rows without others. A level is read, even one that no call accepts of a comparator.
fn single_fields() -> Vec<Row> {
    let bare = Row::new(Kind::RedstoneWire, [0; 3]);
    let bytes: Vec<_> = (0..=u8::MAX).collect();
    let steps: Vec<_> = (0..27).map(|step| [step / 9, step / 3 % 3, step % 3].map(|part| part - 1)).collect();
    let arms = optional(Arm::ALL);
    let arms: Vec<_> = (0..256).map(|code| [0, 2, 4, 6].map(|bits| arms[code >> bits & 3])).collect();
    let places = [i32::MIN, -FARTHEST - 1, -FARTHEST, -1, 0, 1, FARTHEST, FARTHEST + 1, i32::MAX];
    [
        each(vec![bare, bare.with_kind(Kind::Comparator)], &bytes, Row::with_power_level),
        each(vec![bare], &bytes, Row::with_delay),
        each(vec![bare], &steps, Row::with_support),
        each(vec![bare], &arms, Row::with_arms),
        each(vec![bare], &places, |row, place| row.with_position([place, 0, 0])),
        each(vec![bare], &places, |row, place| row.with_position([0, place, 0])),
        each(vec![bare], &places, |row, place| row.with_position([0, 0, place])),
    ]
    .concat()
}

fn read(text: &str) -> Option<Row> {
    let line = lines(text).next()?;
    read_row(line).ok()
}

#[test]
fn every_row_is_equal_after_it_is_written_and_read() {
    for row in rows().into_iter().chain(single_fields()) {
        let text = row_text(&row);
        assert_eq!(read(&text), Some(row), "{text}");
    }
}

/// What is left without any one letter, or any one word, is another row or none.
#[test]
fn no_letter_and_no_word_of_a_row_is_too_many() {
    for row in rows().into_iter().step_by(97).chain(single_fields()) {
        let text = row_text(&row);
        for at in 0..text.len() {
            let shorter = [&text[..at], &text[at + 1..]].concat();
            assert_ne!(read(&shorter), Some(row), "{text} and {shorter}");
        }
        let words: Vec<_> = text.split(' ').collect();
        for at in 0..words.len() {
            let fewer = [&words[..at], &words[at + 1..]].concat();
            assert_ne!(read(&fewer.join(" ")), Some(row), "{text} without {}", words[at]);
        }
    }
}

#[test]
fn a_row_with_every_field_is_written_in_this_order() {
    let row = Row::new(Kind::Comparator, [-1, 2, 30])
        .with_facing(Facing::West)
        .with_powered(false)
        .with_power_level(7)
        .with_delay(3)
        .with_support([0, -1, 1])
        .with_arms([Some(Arm::Side), None, None, Some(Arm::None)])
        .with_shape(Shape::TopSlab)
        .with_subtract(true);
    let text = "-1,2,30 Comparator facing=West support=0,-1,1 powered=false level=7 delay=3 \
                arms=North:Side,West:None shape=top_slab mode=subtract";
    assert_eq!(row_text(&row), text);
    let (place, fields) = text.split_at("-1,2,30 Comparator".len());
    let reversed: Vec<_> = fields.split(' ').rev().collect();
    assert_eq!(read(&format!("{place} {}", reversed.join(" "))), Some(row));
}

/// Tables of up to the most rows, under the bench's profiles and others.
fn tables() -> impl Iterator<Item = Table> {
    let rows = rows();
    let profile = |number: usize| {
        let length = [PROFILE_BYTES, PROFILE_BYTES_WITH_BULB][number % 2];
        match number % 5 {
            0 => BENCH_PROFILE_WITH_BULB[..length].to_vec(),
            1 => vec![0; length],
            _ => (0..length).map(|kind| if kind == 0 { 0 } else { (31 * kind + 7 * number) as u8 }).collect(),
        }
    };
    (0..40).chain((40..=MOST_ROWS).step_by(41)).map(move |size| {
        let rows: Vec<_> = rows.iter().skip(37 * size).step_by(131).take(size).copied().collect();
        assert_eq!(rows.len(), size);
        Table { profile: profile(size), rows }
    })
}

#[test]
fn every_table_is_equal_after_it_is_written_and_read() {
    for table in tables() {
        assert_eq!(table.to_string().parse(), Ok(table));
    }
}

#[test]
fn rows_may_stand_in_any_order() {
    let table = tables().nth(60).expect("a table of hundreds of rows");
    let text = table.to_string();
    let (heads, rows): (Vec<_>, Vec<_>) = text.lines().partition(|line| line.starts_with(['p', 'b']));
    let turned: Vec<_> = heads.into_iter().chain(rows.into_iter().rev()).collect();
    assert_eq!((turned.join("\n") + "\n").parse(), Ok(table));
}

/// However much is left of a written table, it is not taken for a whole one.
#[test]
fn a_table_that_is_cut_anywhere_is_refused() {
    for table in tables().take(12) {
        let text = table.to_string();
        for end in 0..text.len() {
            assert!(text[..end].parse::<Table>().is_err(), "cut to {:?}", &text[..end]);
        }
    }
}

#[test]
fn blanks_comments_and_line_ends_say_nothing() {
    let text =
        "# A lamp.\r\n\r\n  blocks=2\t# two\r\n\t0,1,0\t Lever   powered=true#on\r\n0,0,0 RedstoneLamp\r\n";
    let table: Table = text.parse().expect("a table");
    assert_eq!(table.to_string(), "blocks=2\n0,0,0 RedstoneLamp\n0,1,0 Lever powered=true\n");
    assert_eq!("0,0,0 Solid".parse::<Table>().map(|table| table.rows.len()), Ok(1));
}

#[test]
fn what_is_missing_may_be_said() {
    let plain = read("0,0,0 Solid shape=plain mode=compare");
    assert_eq!(plain, Some(Row::new(Kind::Solid, [0; 3])));
    let profile = |text: &str| text.parse::<Table>().map(|table| table.profile);
    assert_eq!(profile("profile\nblocks=0\n"), Ok(vec![0; PROFILE_BYTES]));
    assert_eq!(profile("blocks=0\n"), Ok(BENCH_PROFILE_WITH_BULB.to_vec()));
}

/// The bulb's byte is there where it is written, whatever it is and wherever it stands.
#[test]
fn a_profile_has_the_byte_of_the_bulb_where_it_is_written() {
    let bench = "Solid=31 Transparent=1 RedstoneLamp=31 RedstoneBlock=1";
    let written = |profile: &[u8]| Table { profile: profile.to_vec(), rows: Vec::new() }.to_string();
    assert_eq!(written(&BENCH_PROFILE_WITH_BULB), "blocks=0\n");
    assert_eq!(written(&BENCH_PROFILE), format!("profile {bench}\nblocks=0\n"));
    for (line, bulb) in [("CopperBulb=0 ", 0), ("CopperBulb=6 ", 6)] {
        let text = format!("profile {line}{bench}\nblocks=0\n");
        let table: Table = text.parse().expect(&text);
        assert_eq!(table.profile, [&BENCH_PROFILE[..], &[bulb]].concat());
        assert_eq!(table.to_string(), format!("profile {bench} {}\nblocks=0\n", line.trim()));
    }
}

/// Kinds stand in any order in the line, and are written by their codes.
#[test]
fn the_value_of_the_torch_is_read_and_written() {
    let mut charging = BENCH_PROFILE;
    charging[usize::from(Kind::RedstoneTorch.code())] |= TORCH_CHARGES_ABOVE;
    for (line, profile, written) in [
        (
            "profile Solid=31 Transparent=1 RedstoneLamp=31 RedstoneBlock=1 RedstoneTorch=32",
            charging,
            "profile Solid=31 Transparent=1 RedstoneTorch=32 RedstoneLamp=31 RedstoneBlock=1",
        ),
        (
            "profile RedstoneTorch=32 Solid=31",
            [0, 31, 0, 0, 32, 0, 0, 0, 0, 0, 0, 0, 0],
            "profile Solid=31 RedstoneTorch=32",
        ),
        ("profile RedstoneTorch=63", [0, 0, 0, 0, 63, 0, 0, 0, 0, 0, 0, 0, 0], "profile RedstoneTorch=63"),
    ] {
        let table: Table = format!("{line}\nblocks=0\n").parse().expect(line);
        assert_eq!(table.profile, profile, "{line}");
        assert_eq!(table.to_string(), format!("{written}\nblocks=0\n"));
    }
}

/// What no call accepts is read all the same, for a call to refuse.
#[test]
fn every_byte_of_a_profile_is_equal_after_it_is_written_and_read() {
    for kind in Kind::ALL {
        for byte in 0..=u8::MAX {
            let mut profile = BENCH_PROFILE_WITH_BULB;
            profile[usize::from(kind.code())] = byte;
            for length in [PROFILE_BYTES, PROFILE_BYTES_WITH_BULB] {
                let table = Table { profile: profile[..length].to_vec(), rows: Vec::new() };
                assert_eq!(table.to_string().parse(), Ok(table), "{kind}={byte}");
            }
        }
    }
}

#[test]
fn a_table_finds_its_rows() {
    let table: Table = "1,0,0 Solid\n-1,0,0 Lever\n".parse().expect("a table");
    assert_eq!([[-1, 0, 0], [0, 0, 0], [1, 0, 0]].map(|at| table.find(at)), [Some(0), None, Some(1)]);
}

#[test]
fn steps_are_equal_after_they_are_written_and_read() {
    let switches = [[0; 3], [-1, 20, i32::MAX]]
        .into_iter()
        .flat_map(|position| [false, true].map(|powered| Step::Switch { position, powered }));
    for step in switches.chain([0, 1, u32::MAX].map(Step::Tick)) {
        let text = step.to_string();
        let line = lines(&text).next().expect("a line");
        assert_eq!(Step::read(line), Ok(Some(step)), "{text}");
    }
    let others = ["", "0,0,0 Solid", "ticks 3", "row=0,0,0,0,0,0"];
    for line in others.iter().flat_map(|text| lines(text)) {
        assert_eq!(Step::read(line), Ok(None));
    }
}
