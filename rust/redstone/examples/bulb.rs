//! A button on a copper bulb, pressed twice; and a refusal for want of the bulb's byte of the profile.
//!
//! `cargo run --example bulb`

use redstone::{BENCH_PROFILE, BENCH_PROFILE_WITH_BULB, Circuit, Device, Kind, Refusal, Row};

const BULB: [i32; 3] = [0, 0, 0];
const BUTTON: [i32; 3] = [0, 1, 0];

fn main() -> Result<(), Refusal> {
    let button = Row::new(Kind::Button, BUTTON).with_support([0, -1, 0]);
    let rows = [Row::new(Kind::CopperBulb, BULB), button];
    let mut circuit = Circuit::new(&BENCH_PROFILE_WITH_BULB, rows)?;
    show("fresh", &circuit);
    for is_pressed in [true, false, true, false] {
        circuit.switch(BUTTON, is_pressed)?;
        show(if is_pressed { "pressed" } else { "released" }, &circuit);
        circuit.tick(1)?;
        show("ticked", &circuit);
    }

    match Circuit::new(&BENCH_PROFILE, rows) {
        Ok(_) => println!("accepted"),
        Err(refusal) => println!("{refusal}"),
    }
    Ok(())
}

/// Writes the bulb's light, and whether it had power after the last tick.
fn show(what: &str, circuit: &Circuit) {
    if let Some(Device::Bulb { lit, had_power }) = circuit.at(BULB).map(|block| block.device) {
        let light = if lit { "lit" } else { "dark" };
        let power = if had_power { "power" } else { "none" };
        println!("tick {}, {what}: bulb {light}, had {power}", circuit.tick_number());
    }
}
