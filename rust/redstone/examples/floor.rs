//! A room that misses a part of its floor: what drops in which pass, and what is kept; and a refusal of too few bytes.
//!
//! `cargo run --example floor`

use redstone::{BENCH_PROFILE, Kind, ROW_BYTES, Refusal, Row, clear, cleared, table};

fn main() -> Result<(), Refusal> {
    // By this profile components may stand on a repeater, too.
    let mut profile = BENCH_PROFILE;
    profile[usize::from(Kind::Repeater.code())] = 1;
    let standing = |kind, position| Row::new(kind, position).with_support([0, -1, 0]);
    let room = table([
        // There is no block at 0,0,0.
        standing(Kind::Repeater, [0, 1, 0]),
        standing(Kind::Repeater, [0, 2, 0]),
        standing(Kind::Lever, [0, 3, 0]),
        Row::new(Kind::Solid, [1, 0, 0]),
        standing(Kind::Lever, [1, 1, 0]),
    ]);

    let cleared = cleared(&profile, &room)?;
    for (row, pass) in cleared.gone() {
        println!("pass {pass}: row {row}");
    }
    println!("{} of {} rows are kept", cleared.kept.len() / ROW_BYTES, cleared.passes.len());

    // The buffers are those of the whole table, however few rows are kept.
    let (mut kept, mut passes) = (cleared.kept, cleared.passes);
    match clear(&profile, &room, &mut kept, &mut passes) {
        Ok(_) => println!("accepted"),
        Err(refusal) => println!("{refusal}"),
    }
    Ok(())
}
