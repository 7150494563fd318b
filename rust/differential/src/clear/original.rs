//! The original's side: its `support_issues`, made again of the world without the blocks that it named, until it names none.

use original::world::{Pos, World};
use redstone::ROW_BYTES;

use super::Clear;
use crate::compare::{Answer, Answers};
use crate::oracle::Oracle;
use crate::refusals::{ORDER, refuse};

impl Answers<Clear> for Oracle<'_> {
    fn answer(&self, clear: &Clear) -> Answer {
        clear.called(self.case, |_, table, kept, passes| match refuse(&ORDER, &clear.asked(self.case)) {
            Ok(()) => self.clear(table, kept, passes),
            Err(refusal) => refusal.code(),
        })
    }
}

/// The blocks that it names, list by list. The world is left with those that it does not name.
pub fn lists(world: &mut World) -> Vec<Vec<Pos>> {
    let mut lists = Vec::new();
    loop {
        let named: Vec<_> = world.support_issues().into_iter().map(|(at, ..)| at).collect();
        if named.is_empty() {
            return lists;
        }
        for at in &named {
            world.remove(*at).expect("the list names what the world has");
        }
        lists.push(named);
    }
}

impl Oracle<'_> {
    /// The rows that are kept are those of the blocks that the world is left with, in its order.
    fn clear(&self, table: &[u8], kept: &mut [u8], passes: &mut [u16]) -> u32 {
        let mut world = self.made(|world| world);
        passes.fill(0);
        for (pass, named) in (1..).zip(lists(world.get_mut())) {
            named.into_iter().for_each(|at| passes[self.row_at(at)] = pass);
        }
        let (rows, _) = table.as_chunks::<ROW_BYTES>();
        let left: Vec<_> = world.get().positions().map(|at| rows[self.row_at(at)]).collect();
        kept[..ROW_BYTES * left.len()].copy_from_slice(left.as_flattened());
        left.len() as u32
    }
}
