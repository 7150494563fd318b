//! A room with a lever and a room with a lamp, drawn apart, in one table; and a refusal where they clash.
//!
//! `cargo run --example rooms`

use redstone::{BENCH_PROFILE, Circuit, Facing, Kind, ROW_BYTES, Refusal, Row, merged, table};

/// The block that both rooms have, as each of them sees it.
const SEAM: [[i32; 3]; 2] = [[1, 0, 0], [0, 0, 0]];
/// The lamp, as its room sees it.
const LAMP: [i32; 3] = [2, 0, 0];

fn main() -> Result<(), Refusal> {
    let lever = Row::new(Kind::Lever, [1, 1, 0]).with_support([0, -1, 0]).with_powered(true);
    let first = table([Row::new(Kind::Solid, [0, 0, 0]), Row::new(Kind::Solid, SEAM[0]), lever]);
    let second = table([
        Row::new(Kind::Solid, SEAM[1]),
        Row::new(Kind::Repeater, [1, 0, 0]).with_facing(Facing::East),
        Row::new(Kind::RedstoneLamp, LAMP),
    ]);

    // The second room is moved until its seam is at the first one's.
    let both = merged(&first, &second, [1, 0, 0])?;
    println!(
        "{} rows and {} are {}",
        first.len() / ROW_BYTES,
        second.len() / ROW_BYTES,
        both.len() / ROW_BYTES
    );
    let mut circuit = Circuit::from_table(&BENCH_PROFILE, both)?;
    circuit.tick(1)?;
    let lamp = circuit.at([LAMP[0] + 1, LAMP[1], LAMP[2]]).map_or(0, |block| block.figures.strong);
    println!("tick {}: lamp {lamp}", circuit.tick_number());

    // Not moved, the repeater is where the first room has its seam.
    match merged(&first, &second, [0, 0, 0]) {
        Ok(_) => println!("accepted"),
        Err(refusal) => println!("{refusal}"),
    }
    Ok(())
}
