//! A lever on a block, a repeater that reads the block, and a lamp behind it: fresh, a switch, ticks, and a refusal.
//!
//! `cargo run --example lamp`

use redstone::{BENCH_PROFILE, Circuit, Device, Facing, Kind, Refusal, Row};

const BLOCK: [i32; 3] = [0, 0, 0];
const LEVER: [i32; 3] = [0, 1, 0];
const REPEATER: [i32; 3] = [1, 0, 0];
const LAMP: [i32; 3] = [2, 0, 0];

fn main() -> Result<(), Refusal> {
    let lever = Row::new(Kind::Lever, LEVER).with_support([0, -1, 0]);
    let mut circuit = Circuit::new(
        &BENCH_PROFILE,
        [
            Row::new(Kind::Solid, BLOCK),
            lever,
            Row::new(Kind::Repeater, REPEATER).with_facing(Facing::East).with_delay(2),
            Row::new(Kind::RedstoneLamp, LAMP),
        ],
    )?;
    show("fresh", &circuit);

    circuit.switch(LEVER, true)?;
    show("switched on", &circuit);
    for _ in 0..2 {
        circuit.tick(1)?;
        show("ticked", &circuit);
    }

    circuit.switch(LEVER, false)?;
    show("switched off", &circuit);
    circuit.tick(5)?;
    show("ticked", &circuit);

    // A second lever at the same place.
    match Circuit::new(&BENCH_PROFILE, [lever, lever]) {
        Ok(_) => println!("accepted"),
        Err(refusal) => println!("{refusal}"),
    }
    Ok(())
}

/// Writes what the blocks do at the tick that the circuit stands at.
fn show(what: &str, circuit: &Circuit) {
    let block = circuit.at(BLOCK).map_or(0, |block| block.figures.strong);
    let repeater = circuit.at(REPEATER).map_or(0, |block| block.figures.signal);
    let lamp = match circuit.at(LAMP).map(|block| block.device) {
        Some(Device::Lamp { lit: true, .. }) => "lit",
        _ => "dark",
    };
    println!("tick {}, {what}: block {block}, repeater {repeater}, lamp {lamp}", circuit.tick_number());
}
