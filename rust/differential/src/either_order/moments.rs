//! Redraws among switches, at any moment.

use super::generated::{any_place, any_power};
use super::{Calls, Switch, redrawn_case, switched_case};
use crate::generate::{self, Case, with_arms};
use crate::random::Random;
use crate::table;

#[derive(Clone, Debug)]
pub enum Edit {
    Redraw,
    Switch(Switch),
}

/// An accepted case, and switches of it with one redraw among them or more.
pub fn edits(seed: u64) -> (Case, Vec<Edit>) {
    let random = &mut Random::new(!seed);
    let case = with_arms(random, generate::case(seed));
    let rows = table::rows(&case.table);
    let count = random.below(8);
    let any_edit = |random: &mut Random| {
        let (at, powered) = (any_place(random, &case, &rows), any_power(random));
        if random.percent(35) { Edit::Redraw } else { Edit::Switch(Switch::of(&case, at, powered)) }
    };
    let mut edits: Vec<_> = (0..count).map(|_| any_edit(random)).collect();
    edits.insert(random.below(count + 1), Edit::Redraw);
    (case, edits)
}

/// The case with the table that these leave, one after the other.
fn edited<'a>(calls: &impl Calls, case: &Case, edits: impl IntoIterator<Item = &'a Edit>) -> Case {
    edits.into_iter().fold(case.clone(), |case, edit| match edit {
        Edit::Redraw => redrawn_case(calls, &case),
        Edit::Switch(switch) => switched_case(calls, &case, switch),
    })
}

/// The tables that these leave, and that their switches alone leave once they are redrawn.
pub fn tables_left(calls: &impl Calls, case: &Case, edits: &[Edit]) -> [Vec<u8>; 2] {
    let switches = edits.iter().filter(|edit| matches!(edit, Edit::Switch(_)));
    let last = [&Edit::Redraw];
    [edited(calls, case, edits).table, edited(calls, case, switches.chain(last)).table]
}
