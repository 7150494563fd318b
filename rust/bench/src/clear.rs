//! Rows that would drop, cleared, beside the original's support list, made again and again of what is left.

use differential::clear::{Clear, Foot, Trial, Way, lists, tower};
use differential::compare::Answers;
use differential::generate::Case;
use differential::oracle::Oracle;
use differential::probe::{Probe, redstone_clear};
use differential::table::rows;
use redstone::{Kind, MOST_ROWS, Row};

use crate::timing::{Medians, medians};

/// The tables that are timed.
pub fn cases() -> [Case; 5] {
    let named = |sort, Trial { case, .. }: Trial| Case { sort, ..case };
    [
        named("a tower that falls, 1,024 rows, 1,024 passes", tower(MOST_ROWS, Way::Ahead, Foot::Air)),
        named("the same, winding through a box", tower(MOST_ROWS, Way::Winding, Foot::Air)),
        named("a tower that stays, 1,024 rows, no pass", tower(MOST_ROWS - 1, Way::Ahead, Foot::Solid)),
        without_floor("511 dust in line, every third on nothing, 853 rows, 1 pass", 511),
        without_floor("15 dust in line, every third on nothing, 26 rows, 1 pass", 15),
    ]
}

/// A line of dust, of which every third has lost its block.
fn without_floor(sort: &'static str, dust: i32) -> Case {
    let line = Case::line(sort, dust);
    let on_the_floor = |row: Row| match row.kind() {
        Kind::RedstoneWire => row.with_support([0, -1, 0]),
        _ => row,
    };
    let is_left = |row: &Row| row.kind() != Kind::Solid || row.position()[0] % 3 != 0;
    Case::new(sort, line.profile, rows(&line.table).into_iter().filter(is_left).map(on_the_floor))
}

pub fn assert_sides_agree(case: &Case) {
    let clear = Clear::on(case);
    assert!(Probe(case).answer(&clear) == Oracle::new(case).answer(&clear), "{}", case.sort);
}

pub fn medians_of(case: &Case) -> Medians {
    let (oracle, Clear { mut kept, mut passes }) = (Oracle::new(case), Clear::on(case));
    medians(
        || oracle.world().clone(),
        |mut world| (lists(&mut world), world),
        || redstone_clear(&case.profile, &case.table, &mut kept, &mut passes),
    )
}

#[cfg(test)]
mod tests {
    #[test]
    fn the_sides_agree_on_what_is_timed() {
        super::cases().iter().for_each(super::assert_sides_agree);
    }
}
