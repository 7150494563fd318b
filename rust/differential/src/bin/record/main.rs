//! Writes the original's answers to standard output as crates/vectors/FORMAT.md lays them out: record [SEED].

#[cfg(not(no_original))]
mod recorder;

#[cfg(no_original)]
fn main() {
    eprintln!("The original was not found (see rust/original/build.rs), so there are no answers to record.");
    std::process::exit(1);
}

#[cfg(not(no_original))]
fn main() {
    let seed = std::env::args().nth(1).map_or(0, |seed| seed.parse().expect("the seed is a whole number"));
    recorder::write(seed).expect("standard output can be written");
}
