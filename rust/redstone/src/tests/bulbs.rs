//! What the documentation says of copper bulbs.

use crate::{
    BENCH_PROFILE, BENCH_PROFILE_WITH_BULB, Circuit, Device, Facing, Kind, PROFILE_BYTES,
    PROFILE_BYTES_WITH_BULB, Row, Shape,
};

const BULB: [i32; 3] = [0, 0, 0];
const LEVER: [i32; 3] = [0, 1, 0];

/// A bulb with a lever on it.
fn rows(bulb: Row, on: bool) -> [Row; 2] {
    let lever = Row::new(Kind::Lever, LEVER).with_support([0, -1, 0]).with_powered(on);
    [bulb.with_position(BULB), lever]
}

const DARK: Row = Row::new(Kind::CopperBulb, BULB);

fn circuit(rows: impl IntoIterator<Item = Row>) -> Circuit {
    Circuit::new(&BENCH_PROFILE_WITH_BULB, rows).expect("an accepted table")
}

/// Whether the bulb is lit, and whether it had power.
fn bulb(circuit: &Circuit) -> (bool, bool) {
    match circuit.at(BULB).expect("a bulb").device {
        Device::Bulb { lit, had_power } => (lit, had_power),
        other => panic!("{other:?}"),
    }
}

fn switch(circuit: &mut Circuit, on: bool) {
    circuit.switch(LEVER, on).expect("accepted");
}

fn tick(circuit: &mut Circuit, ticks: u32) {
    circuit.tick(ticks).expect("accepted");
}

/// The light after each tick, before which the lever is thrown as said.
fn lights<const TICKS: usize>(circuit: &mut Circuit, thrown: [bool; TICKS]) -> [bool; TICKS] {
    thrown.map(|on| {
        switch(circuit, on);
        tick(circuit, 1);
        bulb(circuit).0
    })
}

#[test]
fn a_bulb_flips_each_time_that_power_arrives() {
    let pulses = [true, false, true, false, true, false, true, false];
    let lit = [true, true, false, false, true, true, false, false];
    assert_eq!(lights(&mut circuit(rows(DARK, false)), pulses), lit);
    assert_eq!(lights(&mut circuit(rows(DARK.with_powered(true), false)), pulses), lit.map(|lit| !lit));
}

#[test]
fn power_that_stays_and_power_that_goes_flip_nothing() {
    let mut circuit = circuit(rows(DARK, false));
    assert_eq!(lights(&mut circuit, [true; 9]), [true; 9]);
    assert_eq!(lights(&mut circuit, [false; 9]), [true; 9]);
    assert_eq!(lights(&mut circuit, [true; 9]), [false; 9]);
}

#[test]
fn a_bulb_starts_as_its_row_says_and_with_the_power_that_it_has() {
    for (powered, lit) in [(None, false), (Some(false), false), (Some(true), true)] {
        for on in [false, true] {
            let mut circuit = circuit(rows(DARK.with_powered(powered), on));
            assert_eq!(bulb(&circuit), (lit, on));
            tick(&mut circuit, 3);
            assert_eq!(bulb(&circuit), (lit, on));
        }
    }
}

/// A switch that goes on and off between two ticks is not seen by the bulb.
#[test]
fn a_switch_changes_no_bulb_before_the_tick() {
    let mut circuit = circuit(rows(DARK, false));
    switch(&mut circuit, true);
    assert_eq!((bulb(&circuit), circuit.settled().strong()[0]), ((false, false), 15));
    tick(&mut circuit, 0);
    assert_eq!(bulb(&circuit), (false, false));
    switch(&mut circuit, false);
    tick(&mut circuit, 1);
    assert_eq!(bulb(&circuit), (false, false));
    switch(&mut circuit, true);
    tick(&mut circuit, 1);
    assert_eq!(bulb(&circuit), (true, true));
    for on in [false, true] {
        switch(&mut circuit, on);
        assert_eq!(bulb(&circuit), (true, true));
    }
    tick(&mut circuit, 1);
    assert_eq!(bulb(&circuit), (true, true));
}

/// What `powered` a bulb's own row has matters to the fresh state alone.
#[test]
fn a_bulb_that_is_switched_itself_stays_as_it_is() {
    let mut circuit = circuit(rows(DARK, false));
    circuit.switch(BULB, true).expect("accepted");
    tick(&mut circuit, 2);
    assert_eq!(bulb(&circuit), (false, false));
    circuit.fresh().expect("accepted");
    assert_eq!(bulb(&circuit), (true, false));
}

/// Under the dust of a torch clock, to which power comes again and again.
#[test]
fn many_ticks_are_as_many_single_ones() {
    let solid = [[-1, 1, -1], [-1, 1, 0]].map(|position| Row::new(Kind::Solid, position));
    let dust = [[0, 1, 0], [-1, 2, -1], [-1, 2, 0]].map(|position| Row::new(Kind::RedstoneWire, position));
    let torch = Row::new(Kind::RedstoneTorch, [0, 1, -1]).with_support([-1, 0, 0]);
    let clock = [DARK, torch].into_iter().chain(solid).chain(dust);
    let mut single = circuit(clock.clone());
    let mut flips = 0;
    for ticks in 0..40 {
        let mut many = circuit(clock.clone());
        tick(&mut many, ticks);
        assert_eq!(many.state(), single.state(), "{ticks} ticks");
        let before = bulb(&single).0;
        tick(&mut single, 1);
        flips += u32::from(bulb(&single).0 != before);
    }
    assert!(flips > 5, "{flips} flips");
}

#[test]
fn a_bulb_with_power_gives_none_to_a_repeater_and_to_dust() {
    let behind = |block: Kind| {
        let circuit = &mut circuit(rows(Row::new(block, BULB), true).into_iter().chain([
            Row::new(Kind::Repeater, [1, 0, 0]).with_facing(Facing::East),
            Row::new(Kind::RedstoneWire, [0, -1, 0]),
        ]));
        tick(circuit, 1);
        let signal = |position| circuit.at(position).expect("a block").figures.signal;
        (circuit.at(BULB).expect("a block").figures.strong, signal([1, 0, 0]), signal([0, -1, 0]))
    };
    assert_eq!(behind(Kind::RedstoneLamp), (15, 15, 15));
    assert_eq!(behind(Kind::CopperBulb), (15, 0, 0));
}

#[test]
fn components_stand_on_a_bulb() {
    let rows = rows(DARK, false);
    assert_eq!(circuit(rows).unsupported(), Ok(Vec::new()));
    let mut profile = BENCH_PROFILE_WITH_BULB;
    profile[13] = 0;
    let without = Circuit::new(&profile, rows).expect("an accepted table");
    assert_eq!(without.unsupported(), Ok(vec![1]));
}

/// By its byte of the profile a bulb has power or has none, unless its shape says otherwise.
#[test]
fn a_bulb_flips_by_its_byte_of_the_profile() {
    for byte in 0..=31 {
        let mut profile = BENCH_PROFILE_WITH_BULB;
        profile[13] = byte;
        for &shape in Shape::ALL {
            let takes_strong = match shape {
                Shape::Plain => byte & 4 != 0,
                shape => shape == Shape::DoubleSlab,
            };
            let mut circuit = Circuit::new(&profile, rows(DARK.with_shape(shape), false)).expect("accepted");
            assert_eq!(lights(&mut circuit, [true]), [takes_strong], "{byte}, {shape}");
        }
    }
}

/// Weak power counts as strong power does.
#[test]
fn weak_power_flips_a_bulb() {
    let dust = Row::new(Kind::RedstoneWire, [0, 1, 0]);
    let lever = Row::new(Kind::Lever, [1, 1, 0]);
    let mut circuit = circuit([DARK, dust, lever]);
    circuit.switch([1, 1, 0], true).expect("accepted");
    tick(&mut circuit, 1);
    let figures = circuit.at(BULB).expect("a bulb").figures;
    assert_eq!(((figures.weak, figures.strong), bulb(&circuit)), ((15, 0), (true, true)));
}

/// The bench profile with the bulb is the bench profile, and one byte more.
#[test]
fn the_bench_profile_with_the_bulb_begins_as_the_bench_profile() {
    assert_eq!(BENCH_PROFILE_WITH_BULB[..PROFILE_BYTES], BENCH_PROFILE);
    assert_eq!(PROFILE_BYTES_WITH_BULB, Kind::ALL.len() + 1);
    let line = [
        Row::new(Kind::RedstoneBlock, [0, 1, 0]),
        Row::new(Kind::RedstoneWire, [1, 1, 0]),
        Row::new(Kind::RedstoneLamp, [1, 0, 0]),
    ];
    let settled = |profile| Circuit::new(profile, line).map(|circuit| circuit.settled().clone());
    assert_eq!(settled(&BENCH_PROFILE[..]), settled(&BENCH_PROFILE_WITH_BULB));
}
