//! Two tables in one, beside an ordered map.

use std::collections::BTreeMap;
use std::collections::btree_map::Entry;

use differential::compare::Answers;
use differential::merge::{Layout, Merge, OUT, OUT_BYTES, Proved, READING, of_counts};
use differential::probe::redstone_merge;
use differential::table::{Position, coordinates, moved};
use redstone::ROW_BYTES;

use crate::timing::{Medians, medians};

const OFFSET: Position = [5, -7, 11];

/// The calls that are timed.
pub fn calls() -> [(&'static str, Merge); 4] {
    let call = |counts, layout| of_counts(counts, layout, OFFSET);
    [
        ("16 and 16 rows, apart", call([16, 16, 0], Layout::After)),
        ("512 and 512 rows, apart", call([512, 512, 0], Layout::After)),
        ("511 and 512 rows, by turns", call([511, 512, 0], Layout::ByTurns)),
        ("1,024 and 1,024 rows, all shared", call([1024, 1024, 1024], Layout::After)),
    ]
}

type Packed = [u8; ROW_BYTES];

fn rows(table: &[u8]) -> &[Packed] {
    let (rows, _) = table.as_chunks();
    rows
}

/// The rows of the result, where nothing clashes.
fn by_a_map(merge: &Merge, out: &mut [u8]) -> Option<u32> {
    let mut map = BTreeMap::new();
    for row in rows(&merge.first) {
        map.insert(coordinates(row), *row);
    }
    for row in rows(&merge.second) {
        let (position, mut row) = (moved(coordinates(row), merge.offset), *row);
        row[..12].copy_from_slice(position.map(i32::to_le_bytes).as_flattened());
        match map.entry(position) {
            Entry::Occupied(other) if *other.get() != row => return None,
            entry => drop(entry.or_insert(row)),
        }
    }
    let (places, _) = out.as_chunks_mut::<ROW_BYTES>();
    for (place, row) in places.iter_mut().zip(map.values()) {
        *place = *row;
    }
    Some(map.len() as u32)
}

fn by_the_call(merge: &Merge, out: &mut [u8]) -> u32 {
    let [dx, dy, dz] = merge.offset;
    redstone_merge(&merge.first, &merge.second, dx, dy, dz, out)
}

pub fn assert_sides_agree(merge: &Merge) {
    let answer = Proved.answer(merge);
    assert!(answer == READING.answer(merge), "{merge}");
    let mut out = vec![merge.out.filling; merge.out.bytes];
    assert_eq!(by_a_map(merge, &mut out).map(i128::from), Some(answer.number), "{merge}");
    assert!(answer.bytes(OUT) == out, "{merge}");
}

pub fn medians_of(merge: &Merge) -> Medians {
    let [mut of_map, mut of_call] = [(); 2].map(|()| vec![0; OUT_BYTES]);
    medians(|| (), |()| by_a_map(merge, &mut of_map), || by_the_call(merge, &mut of_call))
}

#[cfg(test)]
mod tests {
    #[test]
    fn the_sides_agree_on_what_is_timed() {
        super::calls().iter().for_each(|(_, merge)| super::assert_sides_agree(merge));
    }
}
