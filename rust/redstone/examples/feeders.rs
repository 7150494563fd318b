//! A line of dust that climbs a block: what feeds each dust, and by which rule; the same with a slab in the place of the
//! block; and a refusal of a row at another position.
//!
//! `cargo run --example feeders`

use redstone::{BENCH_PROFILE, Feeders, Kind, Refusal, Row, Shape};

const DUST: [[i32; 3]; 3] = [[0, 0, 0], [1, 0, 0], [2, 1, 0]];

fn show(feeders: &Feeders) {
    for sink in DUST {
        for feeder in feeders.of(sink).into_iter().flatten() {
            let ([x, y, z], [from_x, from_y, from_z]) = (sink, feeder.position);
            println!("{x},{y},{z} is fed by {from_x},{from_y},{from_z}: {}", feeder.transfer);
        }
    }
}

fn main() -> Result<(), Refusal> {
    let block = Row::new(Kind::Solid, [2, 0, 0]);
    let dust = DUST.map(|position| Row::new(Kind::RedstoneWire, position));
    let mut feeders = Feeders::new(&BENCH_PROFILE, dust.into_iter().chain([block]))?;
    show(&feeders);

    // A top slab lets power up, and not down.
    let slab = block.with_shape(Shape::TopSlab);
    feeders.replace(slab)?;
    println!("with a slab");
    show(&feeders);

    // A row is replaced at its position.
    match feeders.replace(slab.with_position([2, 2, 0])) {
        Ok(()) => println!("accepted"),
        Err(refusal) => println!("{refusal}"),
    }
    Ok(())
}
