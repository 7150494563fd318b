//! Times the proved calls, and then the program `month`, beside the original on the same tables, settling beside the plain way
//! and, where there is one, beside a library of before, too, two tables in one beside an ordered map, the clearing of rows
//! beside the original's support list, the list of what feeds dust beside the original's transfers, and the list that is kept
//! up beside one that is built anew, and prints the medians as markdown tables.
//!
//!     cargo run --release -p bench
//!     BENCH_SECONDS=0.2 cargo run --release -p bench -- settling month
//!
//! REDSTONE_BEFORE names a shared library with the calls of before, and MONTH_BEFORE a program `month` of before:
//!
//!     cc -shared -o before.so -Wl,--whole-archive libredstone.a

#[cfg(not(no_original))]
mod calls;
#[cfg(not(no_original))]
mod clear;
#[cfg(not(no_original))]
mod feeders;
#[cfg(not(no_original))]
mod library;
#[cfg(not(no_original))]
mod merge;
#[cfg(not(no_original))]
mod month;
#[cfg(not(no_original))]
mod parts;
#[cfg(not(no_original))]
mod settling;
#[cfg(not(no_original))]
mod tables;
#[cfg(not(no_original))]
mod timing;

#[cfg(no_original)]
fn main() {
    eprintln!("The original was not found (see rust/original/build.rs), so there is nothing to time beside.");
    std::process::exit(1);
}

/// All parts, or those that are named.
#[cfg(not(no_original))]
fn main() {
    if cfg!(debug_assertions) {
        eprintln!("Both sides are to be built in release: run `cargo run --release -p bench`.");
        std::process::exit(1);
    }
    let named: Vec<_> = std::env::args().skip(1).collect();
    if let Some(other) = named.iter().find(|name| parts::PARTS.iter().all(|(part, _)| part != name)) {
        eprintln!("{other} is no part: there are {}.", parts::PARTS.map(|(part, _)| part).join(", "));
        std::process::exit(1);
    }
    for (part, print) in parts::PARTS {
        if named.is_empty() || named.iter().any(|name| name == part) {
            print();
        }
    }
}
