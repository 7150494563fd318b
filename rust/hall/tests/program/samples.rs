//! The sample halls.

use redstone::BENCH_PROFILE;

use crate::support::{file, hall, samples};

#[test]
fn there_are_eleven_halls_and_nothing_else() {
    let names = [
        "comparator-subtract",
        "fading-line",
        "repeater-lock",
        "slab-rise",
        "torch-clock",
        "vault-door",
        "charging/torch-tower",
        "bulbs/bulb-toggle",
        "rooms/lamp-room",
        "rooms/lever-room",
        "imported/missing-floor",
    ];
    assert_eq!(samples(), names.map(|name| format!("halls/{name}.hall")));
}

/// Without the value of its profile the tower is not as it expects, and the hints say what is missing.
#[test]
fn the_torch_tower_needs_its_profile() {
    const TOWER: &str = "halls/charging/torch-tower.hall";
    let bench = file("tower_bench", "bench.bin", BENCH_PROFILE);
    let hints = |words: &[&str]| {
        let text = hall(words).text().to_owned();
        text.lines().filter_map(|line| line.strip_prefix("hint ")?.split(':').next()?.parse().ok()).collect()
    };
    let (with, without): (Vec<u8>, Vec<u8>) =
        (hints(&["run", TOWER]), hints(&["run", TOWER, "--profile", &bench]));
    assert_eq!((with, without), (vec![], vec![1, 22, 23]));
    let done = hall(&["check", TOWER, "--profile", &bench]);
    assert_eq!(done.status, Some(1));
    assert!(done.text().contains(": expected strong 0,2,0 = 15, given 0\n"), "{}", done.text());
}

/// Under a profile without their byte its bulbs are refused, and with none for power they flip never.
#[test]
fn the_bulb_toggle_needs_the_byte_of_the_bulb() {
    const TOGGLE: &str = "halls/bulbs/bulb-toggle.hall";
    let bench = file("toggle_bench", "bench.bin", BENCH_PROFILE);
    let done = hall(&["check", TOGGLE, "--profile", &bench]);
    assert_eq!(done.status, Some(2));
    assert!(
        done.text().contains(&format!("    {TOGGLE}:11: refusal 4, bad row: row 2 at 1,0,0: ")),
        "{}",
        done.text()
    );
    let powerless = file("toggle_powerless", "powerless.bin", [&BENCH_PROFILE[..], &[1]].concat());
    let done = hall(&["run", TOGGLE, "--profile", &powerless]);
    assert!(done.text().contains("\nbulb 1,0,0              ---------------------\n"), "{}", done.text());
    assert!(done.text().contains("\nbulb 4,1,0              .....................\n"), "{}", done.text());
}

#[test]
fn every_sample_gives_what_it_expects() {
    let samples = samples();
    let words: Vec<_> = ["check"].into_iter().chain(samples.iter().map(String::as_str)).collect();
    let done = hall(&words);
    assert_eq!((done.status, done.err.as_str()), (Some(0), ""), "{}", done.text());
    for name in &samples {
        let line = done.text().lines().find(|line| line.starts_with(name.as_str()));
        assert!(
            line.is_some_and(|line| line.contains(": ok, ") && line.contains(" expectations")),
            "{line:?}"
        );
    }
}
