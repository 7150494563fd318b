//! Halls one after the other, for the program `month`.

use std::process::Command;

use differential::program::find;
use redstone::{BENCH_PROFILE, Kind, PROFILE_BYTES, PROFILE_BYTES_WITH_BULB, ROW_BYTES, Row};

use hall::read;

use crate::support::{bench_samples, charging_samples, file, folder, hall, hall_with, root, run};

/// `hall stream` of these files.
fn stream(files: &[String]) -> Vec<u8> {
    let words: Vec<_> = ["stream"].into_iter().chain(files.iter().map(String::as_str)).collect();
    let done = hall(&words);
    assert_eq!(done.status, Some(0), "{}", done.err);
    done.out
}

#[test]
fn the_tables_stand_after_one_profile_each_led_by_its_row_count() {
    let mut expected = BENCH_PROFILE.to_vec();
    for sample in bench_samples() {
        let packed = hall(&["pack", &sample]).out;
        let table = &packed[PROFILE_BYTES_WITH_BULB..];
        expected.extend(((table.len() / ROW_BYTES) as u32).to_le_bytes());
        expected.extend(table);
    }
    assert_eq!(stream(&bench_samples()), expected);
}

#[test]
fn a_row_count_of_two_bytes_and_one_of_none() {
    let rows = |number| -> String { (0..number).map(|x| format!("{x},0,0 Solid\n")).collect() };
    let many = file("stream_many", "many.hall", rows(1024));
    let none = file("stream_none", "none.hall", "blocks=0\n");
    let bytes = stream(&[none, many.clone(), many]);
    let table = redstone::table((0..1024).map(|x| Row::new(Kind::Solid, [x, 0, 0])));
    let led = [&[0, 4, 0, 0], &table[..]].concat();
    assert_eq!(bytes[PROFILE_BYTES..], [&[0; 4], &led[..], &led].concat());
}

#[test]
fn the_month_has_the_rounds_of_each_hall() {
    assert_month(&bench_samples());
    assert_month(&charging_samples());
}

/// The month of a stream of these halls counts each by its rounds.
fn assert_month(samples: &[String]) {
    let program = find("month").unwrap_or_else(|sentence| panic!("{sentence}"));
    let done = run(&mut Command::new(program), &stream(samples));
    let text = done.text();
    assert!(text.starts_with(&format!("tables={}\nrefused=0\n", samples.len())), "{text}");
    assert!(text.ends_with("\nended=whole\n"), "{text}");
    let rounds_of = |sample: &String| {
        let hall = read(root().join(sample).as_os_str(), None).expect("a hall");
        hall.fresh.rounds().get()
    };
    let all: Vec<_> = samples.iter().map(rounds_of).collect();
    for rounds in 1..=17 {
        let line = format!("\nrounds_{rounds}={}\n", all.iter().filter(|other| **other == rounds).count());
        assert!(text.contains(&line), "{line}{text}");
    }
}

#[test]
fn halls_of_another_profile_are_refused() {
    let text = "profile Solid=1\n0,0,0 Solid\n";
    let other = file("stream_other", "other.hall", text);
    let out = folder("stream_out").join("month.bin");
    let out = out.to_str().expect("UTF-8");
    let first = "halls/slab-rise.hall";
    let sentence = |name: &str, first: &str| {
        format!(
            "hall: {name}: its profile is not that of {first}, and a stream has one: leave it out, or give a profile \
             for all with --profile.\n"
        )
    };
    let done = hall(&["stream", first, "halls/vault-door.hall", &other, "-o", out]);
    assert_eq!((done.status, done.out, done.err), (Some(2), vec![], sentence(&other, first)));
    assert!(!std::path::Path::new(out).exists());
    let done = hall_with(&["stream", "-", first], text.as_bytes());
    assert_eq!((done.status, done.out, done.err), (Some(2), vec![], sentence(first, "standard input")));
    // With one for all they are taken.
    let profile = file("stream_profile", "one.txt", "profile Solid=31\n");
    let done = hall(&["stream", &other, &other, "--profile", &profile]);
    assert_eq!(done.status, Some(0), "{}", done.err);
    assert_eq!(done.out[..PROFILE_BYTES], [0, 31, 0, 0, 0, 0, 0, 0, 0, 0, 0, 0, 0]);
    assert_eq!(done.out.len(), PROFILE_BYTES + 2 * (4 + ROW_BYTES));
}

/// The bulb's byte is none of a stream's, whatever it is: halls that have it, and one that has not, are of one profile.
#[test]
fn a_stream_leaves_out_the_byte_of_the_bulb() {
    let rows = "0,0,0 Solid\n";
    let hall = |name: &str, field: &str| file(name, "a.hall", format!("profile Solid=31{field}\n{rows}"));
    let [none, zero, seven] = [
        hall("stream_no_bulb", ""),
        hall("stream_bulb_0", " CopperBulb=0"),
        hall("stream_bulb_7", " CopperBulb=7"),
    ];
    let bytes = stream(&[seven, none.clone(), zero]);
    assert_eq!(bytes[..PROFILE_BYTES], [0, 31, 0, 0, 0, 0, 0, 0, 0, 0, 0, 0, 0]);
    assert_eq!(bytes, stream(&[none.clone(), none.clone(), none]));
}

#[test]
fn halls_with_bulbs_are_refused() {
    const TOGGLE: &str = "halls/bulbs/bulb-toggle.hall";
    let done = hall(&["stream", "halls/slab-rise.hall", TOGGLE]);
    let sentence = "bulb 1,0,0 is in it, and `month` takes no bulbs: leave this hall out";
    assert_eq!(
        (done.status, done.out, done.err),
        (Some(2), vec![], format!("hall: {TOGGLE}: {sentence}.\n"))
    );
}

#[test]
fn halls_with_a_comparator_above_15_are_refused() {
    let over = file("stream_over", "over.hall", "0,0,0 Solid\n0,1,0 Comparator level=16\n");
    let done = hall(&["stream", "halls/slab-rise.hall", &over]);
    assert_eq!((done.status, done.out), (Some(2), vec![]));
    assert!(done.err.starts_with(&format!("hall: {over}:2: refusal 10, overdriven: ")), "{}", done.err);
}

#[test]
fn what_is_left_out_is_told_of_all_halls_together() {
    let two = file("stream_two", "two.hall", "0,0,0 Solid\nexpect rounds = 2\nexpect blocks = 1\n");
    let one = file("stream_one", "one.hall", "0,0,0 Solid\nexpect rounds = 2\n");
    let done = hall(&["stream", &two, &one]);
    assert_eq!(
        (done.status, done.err.as_str()),
        (Some(0), "hall: 3 lines with switches and expectations left out: a stream has no place for them.\n")
    );
}
