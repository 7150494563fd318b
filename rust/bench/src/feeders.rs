//! The list of what feeds each dust: built, beside the original, and kept up where a row is replaced, beside the list built
//! anew.

use differential::compare::Answers;
use differential::dust::is_dust;
use differential::feeders::{Call, Entries, WIDTH, by_all_pairs, listed};
use differential::generate::Case;
use differential::oracle::{Oracle, pos};
use differential::probe::{Probe, redstone_feeders, redstone_replace};
use original::wire::{HORIZONTAL, dust_transmits};
use original::world::Pos;
use redstone::{Kind, ROW_BYTES, Row};

use crate::timing::{Medians, medians};

/// The positions from which dust may transmit to one at this position.
fn around(sink: Pos) -> impl Iterator<Item = Pos> {
    let steps = HORIZONTAL.into_iter().filter_map(|facing| facing.horizontal_offset());
    steps.flat_map(move |step| (-1..=1).map(move |height| sink.offset(step.x, height, step.z)))
}

/// The list by the original's `dust_transmits`, asked of the positions around each dust, as the original does where it
/// settles.
fn by_positions_around(oracle: &Oracle) -> Vec<Entries> {
    let world = oracle.world();
    let entries = |row: &Row| {
        let sink = pos(row.position());
        let mut feeders: Vec<_> =
            around(sink).filter(|source| dust_transmits(world, *source, sink)).collect();
        feeders.sort_unstable();
        listed(feeders.into_iter().map(|source| oracle.row_at(source)))
    };
    oracle.rows.iter().map(|row| if is_dust(row) { entries(row) } else { listed([]) }).collect()
}

/// A dust in the middle of a table, or else the row there, and what replaces it by turns: a solid block and dust.
struct Replaced {
    row: usize,
    by: [[u8; ROW_BYTES]; 2],
}

impl Replaced {
    /// Of a table that has rows.
    fn of(oracle: &Oracle) -> Self {
        let middle = oracle.rows.len() / 2;
        let later = oracle.rows.iter().skip(middle).position(is_dust);
        let row = middle + later.unwrap_or(0);
        let by =
            [Kind::Solid, Kind::RedstoneWire].map(|kind| Row::new(kind, oracle.rows[row].position()).bytes());
        Self { row, by }
    }
}

pub fn assert_sides_agree(case: &Case) {
    let oracle = Oracle::new(case);
    let build = Call::build(case);
    assert!(Probe(case).answer(&build) == oracle.answer(&build), "{}", case.sort);
    assert!(by_positions_around(&oracle) == by_all_pairs(&oracle), "{}", case.sort);
    if case.rows() > 0 {
        let Replaced { row, by } = Replaced::of(&oracle);
        for new_row in by {
            let new_row = Row::try_from(&new_row).expect("a good row");
            let replace = Call::replace(case, row, &new_row);
            assert!(Probe(case).answer(&replace) == oracle.answer(&replace), "{}", case.sort);
        }
    }
}

/// The ways in which the original makes the list, each beside the proved call.
pub fn medians_of_lists(case: &Case) -> [(&'static str, Medians); 2] {
    let oracle = Oracle::new(case);
    let of = |by: fn(&Oracle) -> Vec<Entries>| {
        let mut list = vec![0; WIDTH * case.rows()];
        medians(|| (), |()| by(&oracle), || redstone_feeders(&case.profile, &case.table, &mut list))
    };
    [
        ("of all pairs of rows", of(by_all_pairs)),
        ("of the twelve positions around dust", of(by_positions_around)),
    ]
}

/// The list of a table with rows, built anew where a row was replaced, and beside it kept up.
pub fn medians_of_replacements(case: &Case) -> Medians {
    let Replaced { row, by } = Replaced::of(&Oracle::new(case));
    let profile = &case.profile;
    let [mut anew, mut kept_up] = [(); 2].map(|()| (case.table.clone(), vec![0; WIDTH * case.rows()]));
    redstone_feeders(profile, &kept_up.0, &mut kept_up.1);
    let (mut anew_by, mut kept_up_by) = (by.iter().cycle(), by.iter().cycle());
    let medians = medians(
        || (),
        |()| {
            let (table, list) = &mut anew;
            table[ROW_BYTES * row..][..ROW_BYTES].copy_from_slice(anew_by.next().expect("by turns"));
            redstone_feeders(profile, table, list)
        },
        || {
            let (table, list) = &mut kept_up;
            redstone_replace(profile, table, row as u16, kept_up_by.next().expect("by turns"), list)
        },
    );
    assert!(anew == kept_up, "the tables or the lists differ");
    medians
}

#[cfg(test)]
mod tests {
    #[test]
    fn the_sides_agree_on_what_is_timed() {
        crate::calls::cases().for_each(|case| super::assert_sides_agree(&case));
    }
}
