//! The original's side: its `update_wire_shapes` and its `set_powered`, each of the world that the one before left.

use original::Profiled;
use original::sim::RedstoneTickSimulator;
use original::wire::update_wire_shapes;
use original::world::World;
use redstone::Row;

use super::{CALLS, Switch};
use crate::generate::Case;
use crate::oracle::{Oracle, pos};
use crate::redstone::SETTLES;
use crate::wire::redrawn;

/// The tables that it leaves of an accepted case, in the order of `Ran::each`.
pub fn tables(case: &Case, switch: &Switch) -> [Vec<u8>; CALLS] {
    let oracle = Oracle::new(case);
    let world = oracle.made(|world| world);
    let once = redraw(&world);
    let switched = switch_world(&world, switch);
    let [again, redraw_after_switch] = [redraw(&once), redraw(&switched)];
    let switch_after_redraw = switch_world(&once, switch);
    [once, again, switched, redraw_after_switch, switch_after_redraw]
        .map(|world| packed(&oracle, world.get()))
}

fn redraw(world: &Profiled<World>) -> Profiled<World> {
    let mut world = world.clone();
    update_wire_shapes(world.get_mut());
    world
}

/// By a simulator at its start, for the state is no part of what is written.
fn switch_world(world: &Profiled<World>, switch: &Switch) -> Profiled<World> {
    world.map(|world| {
        let mut simulator = RedstoneTickSimulator::new(world.clone()).expect(SETTLES);
        simulator.set_powered(pos(switch.at), switch.powered != 0).expect(SETTLES);
        simulator.world().clone()
    })
}

/// The rows with the arms and with `powered` as the world has them.
fn packed(oracle: &Oracle, world: &World) -> Vec<u8> {
    let row = |row: &Row| {
        let block = world.get(pos(row.position())).expect("the row's own block");
        redrawn(world, row).with_powered(block.powered)
    };
    redstone::table(oracle.rows.iter().map(row))
}
