//! The types of `dustroute_physical` that connectivity.rs names.

use crate::world::{Block, Pos};

#[derive(Clone, Copy)]
pub struct ComponentId(pub usize);

pub enum ConnectionKind {
    Dust,
    DustRise,
    DustFallThroughConductor,
    WeakPower,
    StrongPower,
    DirectionalInput,
    DirectionalOutput,
    DirectSource,
    Control,
}

pub struct PhysicalComponent {
    pub id: ComponentId,
    pub pos: Pos,
    pub block: Block,
}

pub struct PhysicalConnection {
    pub source: ComponentId,
    pub sink: ComponentId,
    pub kind: ConnectionKind,
}

pub struct VerifiedTopology {
    pub components: Vec<PhysicalComponent>,
    pub connections: Vec<PhysicalConnection>,
}

impl VerifiedTopology {
    pub fn from_parts(
        components: Vec<PhysicalComponent>,
        connections: impl Iterator<Item = PhysicalConnection>,
    ) -> Self {
        Self { components, connections: connections.collect() }
    }
}
