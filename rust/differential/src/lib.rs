//! Holds the proved functions of the static libraries `probe` and `redstone`, and the programs `settle` and `month`,
//! against the original Rust, and look-ups on rows in any order, what a torch charges, the light of bulbs, what is
//! overdriven, two tables in one, the rows that are cleared, the redraw and the switch in either order and the list of what
//! feeds dust against document 02; and the two ways to settle against each other.

pub mod bulb;
#[cfg(not(no_original))]
pub mod calls;
pub mod checks;
pub mod clear;
pub mod compare;
#[cfg(not(no_original))]
pub mod connectivity;
pub mod damage;
pub mod devices;
pub mod differences;
pub mod disorder;
pub mod dust;
pub mod either_order;
pub mod faults;
pub mod feeders;
pub mod generate;
pub mod lent;
pub mod look_up;
pub mod merge;
#[cfg(not(no_original))]
pub mod month;
#[cfg(not(no_original))]
pub mod oracle;
#[cfg(not(no_original))]
pub mod overdriven;
pub mod positions;
pub mod probe;
pub mod program;
pub mod random;
#[cfg(not(no_original))]
pub mod redstone;
pub mod refusals;
pub mod report;
#[cfg(not(no_original))]
pub mod settle;
pub mod settling;
pub mod shapes;
pub mod suite;
pub mod table;
pub mod torch;
pub mod two_ways;
#[cfg(not(no_original))]
pub mod wire;
#[cfg(not(no_original))]
pub mod world;
pub mod written;
