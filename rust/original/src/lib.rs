//! The original Rust, compiled from its own files; `build.rs` says where they come from and lists what is changed in them.
//! Empty where the files were not found.
#![cfg(not(no_original))]
// The original's text stays as it is.
#![allow(clippy::collapsible_if)]

// connectivity.rs names another crate of the original, `dustroute_physical`, for a result that nobody here asks for.
extern crate self as dustroute_physical;

mod physical;
mod profile;

include!(concat!(env!("OUT_DIR"), "/modules.rs"));

pub use physical::{ComponentId, ConnectionKind, PhysicalComponent, PhysicalConnection, VerifiedTopology};
pub use profile::{Profile, Profiled};
pub use world::{BlockKind, BlockProperties};

pub mod connectivity {
    include!(concat!(env!("OUT_DIR"), "/connectivity.rs"));
}

pub mod wire {
    include!(concat!(env!("OUT_DIR"), "/wire.rs"));

    /// The original's private `component_connects`.
    #[must_use]
    pub fn connects(world: &World, pos: Pos, direction: Facing) -> bool {
        component_connects(world, pos, direction)
    }
}

pub mod electrical {
    include!(concat!(env!("OUT_DIR"), "/electrical.rs"));
}

/// electrical.rs as it is supplied: no torch charges the block above it.
pub mod unpatched {
    include!(concat!(env!("OUT_DIR"), "/unpatched.rs"));
}

pub mod sim {
    include!(concat!(env!("OUT_DIR"), "/sim.rs"));

    mod parts;
    pub use parts::Parts;
}
