//! A dust with every set of stored arms and each of three things at every side.

use redstone::{Kind, ROW_BYTES, Row};

use super::{Stored, Switch, Trial, powered_of, stored, stored_of};
use crate::generate::{BENCH_PROFILE_WITH_BULB, Case};
use crate::refusals::Refusal;
use crate::table::{ABOVE, HORIZONTAL, Position, coordinates, moved};

/// What is at a side.
#[derive(Clone, Copy)]
enum Beside {
    Nothing,
    Dust,
    Lever,
    /// A solid block with dust on it.
    Step,
}

/// What may be to the North and South, and to the East and West.
const BESIDE: [[Beside; 3]; 2] =
    [[Beside::Nothing, Beside::Dust, Beside::Lever], [Beside::Nothing, Beside::Dust, Beside::Step]];

impl Beside {
    /// The arm that leads there.
    fn arm(self) -> char {
        match self {
            Self::Nothing => '-',
            Self::Dust | Self::Lever => 'S',
            Self::Step => 'U',
        }
    }

    /// Its rows, of which the dust leads back and on.
    fn rows(self, side: usize) -> Vec<(Row, &'static str)> {
        let (at, through) = (HORIZONTAL[side], ["S-S-", "-S-S"][side % 2]);
        match self {
            Self::Nothing => Vec::new(),
            Self::Dust => vec![(Row::new(Kind::RedstoneWire, at), through)],
            Self::Lever => vec![(Row::new(Kind::Lever, at), "")],
            Self::Step => {
                let over = Row::new(Kind::RedstoneWire, moved(at, ABOVE));
                vec![(Row::new(Kind::Solid, at), ""), (over, through)]
            }
        }
    }
}

/// A dust and what is at its sides.
struct Cross {
    case: Case,
    /// The number of the dust's row.
    middle: usize,
    drawn: Vec<(usize, Stored)>,
}

/// Each of three things at every side.
fn all_crosses() -> impl Iterator<Item = Cross> {
    (0..3_usize.pow(4))
        .map(|number| cross([0, 1, 2, 3].map(|side| BESIDE[side % 2][number / 3_usize.pow(side as u32) % 3])))
}

fn cross(sides: [Beside; 4]) -> Cross {
    let mut arms = sides.map(Beside::arm);
    if let [one] = (0..4).filter(|side| arms[*side] != '-').collect::<Vec<_>>()[..] {
        arms[(one + 2) % 4] = 'S';
    }
    let arms: String = arms.iter().collect();
    let dust = (Row::new(Kind::RedstoneWire, [0; 3]), &arms[..]);
    let beside = sides.iter().enumerate().flat_map(|(side, beside)| beside.rows(side));
    let mut rows: Vec<_> = beside.chain([dust]).collect();
    rows.sort_by_key(|(row, _)| row.position());
    let drawn = rows.iter().enumerate().filter_map(|(row, (_, arms))| Some((row, stored(arms)?)));
    Cross {
        drawn: drawn.collect(),
        middle: rows.iter().position(|(row, _)| row.position() == [0; 3]).expect("the dust's row"),
        case: Case::new("cross", BENCH_PROFILE_WITH_BULB, rows.iter().map(|(row, _)| *row)),
    }
}

/// Every set of stored entries.
fn entries() -> impl Iterator<Item = [u8; 4]> {
    (0..=u8::MAX).map(|number| [6, 4, 2, 0].map(|bit| number >> bit & 3))
}

/// Every cross with every set of arms stored in the dust and with none, switched at the dust and at its four sides, where
/// byte 14 has every value before.
pub fn crosses() -> impl Iterator<Item = Trial> {
    let is_stored = entries().map(|[north, east, south, west]| [1, north, east, south, west]);
    let settings: Vec<_> = is_stored.chain([[0; 5]]).collect();
    all_crosses().flat_map(move |Cross { case, middle, drawn }| {
        let settings = settings.clone().into_iter();
        settings.flat_map(move |stored| {
            let mut case = case.clone();
            *stored_of(&mut case.table, middle) = stored;
            let drawn = drawn.clone();
            cells().flat_map(move |at| {
                let switched = case.table.chunks_exact(ROW_BYTES).position(|row| coordinates(row) == at);
                (0..=2)
                    .map(|before| trial(&case, at, before, switched, Ok(drawn.clone())))
                    .collect::<Vec<_>>()
            })
        })
    })
}

fn cells() -> impl Iterator<Item = Position> {
    [[0; 3]].into_iter().chain(HORIZONTAL)
}

/// It is switched off where byte 14 was 2, and else on.
fn trial(
    case: &Case,
    at: Position,
    before: u8,
    switched: Option<usize>,
    drawn: Result<Vec<(usize, Stored)>, Refusal>,
) -> Trial {
    let mut case = case.clone();
    switched.into_iter().for_each(|row| *powered_of(&mut case.table, row) = before);
    let switched = drawn.as_ref().map(|_| switched).map_err(|refusal| *refusal);
    Trial { switch: Switch::of(&case, at, u32::from(before != 2)), case, drawn, switched }
}

/// Every cross with every set of entries that are not stored: each but the empty one is a bad row.
pub fn refused_crosses() -> impl Iterator<Item = Trial> {
    all_crosses().flat_map(|Cross { case, middle, .. }| {
        entries().filter(|entries| *entries != [0; 4]).map(move |[north, east, south, west]| {
            let mut case = case.clone();
            *stored_of(&mut case.table, middle) = [0, north, east, south, west];
            trial(&case, [0; 3], north % 3, Some(middle), Err(Refusal { number: 4, row: middle }))
        })
    })
}
