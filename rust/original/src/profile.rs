//! The profile in force, in place of the block files that are not supplied.

use std::cell::Cell;

use crate::blocks::{BlockBehaviorProfile, UpdateModel};
use crate::world::BlockProperties;

/// A byte for each kind, from Air on. Where there is none for the bulb it is 0.
pub type Profile = [u8; 14];

thread_local! {
    static IN_FORCE: Cell<Profile> = const { Cell::new([0; 14]) };
}

/// Something of the original's with the profile that it answers by, which is put in force on this thread whenever it is
/// reached for.
#[derive(Clone, Debug)]
pub struct Profiled<T> {
    profile: Profile,
    of: T,
}

impl<T> Profiled<T> {
    pub fn new(profile: Profile, of: T) -> Self {
        Self { profile, of }
    }

    pub fn get(&self) -> &T {
        IN_FORCE.set(self.profile);
        &self.of
    }

    pub fn get_mut(&mut self) -> &mut T {
        IN_FORCE.set(self.profile);
        &mut self.of
    }

    /// What is made of it, with the same profile.
    pub fn map<U>(&self, make: impl FnOnce(&T) -> U) -> Profiled<U> {
        Profiled { profile: self.profile, of: make(self.get()) }
    }
}

pub(crate) fn of_kind(kind: usize) -> BlockBehaviorProfile {
    let has = |bit: u8| IN_FORCE.get()[kind] & bit != 0;
    BlockBehaviorProfile {
        properties: BlockProperties {
            supports_components: has(1),
            receives_weak_power: has(2),
            receives_strong_power: has(4),
            repeater_reads_block_power: has(8),
            strong_power_drives_dust: has(16),
        },
        update_model: UpdateModel::Passive,
        order_sensitive: false,
    }
}

/// Document 02, Change 3: whether the torch's byte has the value 32.
pub(crate) fn torch_charges_above() -> bool {
    const TORCH: usize = 4;
    IN_FORCE.get()[TORCH] & 32 != 0
}
