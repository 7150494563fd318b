//! A row between four dust and under a fifth, which is replaced by every other.

use redstone::{Arm, Facing, Kind, Row, Shape};

use super::Trial;
use super::reading::{Entries, NO_ROW, listed};
use super::trials::replacing;
use crate::dust::{Arms, opposite};
use crate::generate::{BENCH_PROFILE_WITH_BULB, Case};
use crate::table::{ABOVE, HORIZONTAL};

/// The numbers of the rows: of the dust to the North, East, South and West, of the row between them and of the dust above.
const SIDES: [usize; 4] = [1, 5, 3, 0];
const MIDDLE: usize = 2;
const TOP: usize = 4;
const ROWS: usize = 6;

/// What the dust at each side stores towards the middle: nothing at all, or a set with this entry alone.
type Back = Option<Option<Arm>>;

fn case(middle: &Row, back: Back) -> Case {
    let beside = |side: usize| {
        let mut arms = [None; 4];
        arms[opposite(side)] = back.flatten();
        Row::new(Kind::RedstoneWire, HORIZONTAL[side]).with_arms(back.map(|_| arms))
    };
    let rows = [0, 1, 2, 3].map(beside).into_iter().chain([*middle, Row::new(Kind::RedstoneWire, ABOVE)]);
    Case::new("around a row", BENCH_PROFILE_WITH_BULB, rows)
}

/// The rise of a row by the bench profile.
fn rise(row: &Row) -> Option<Arm> {
    match (row.shape(), row.kind()) {
        (Shape::Plain, Kind::Solid | Kind::Transparent | Kind::RedstoneLamp) => Some(Arm::Up),
        (Shape::Plain, Kind::RedstoneBlock | Kind::CopperBulb) => Some(Arm::Up),
        (Shape::DoubleSlab | Shape::Glass, _) => Some(Arm::Up),
        (Shape::TopSlab | Shape::TopStairs, _) => Some(Arm::Side),
        _ => None,
    }
}

fn drives_dust(row: &Row) -> bool {
    match row.shape() {
        Shape::Plain => matches!(row.kind(), Kind::Solid | Kind::RedstoneLamp),
        shape => shape == Shape::DoubleSlab,
    }
}

/// Whether an arm from this side leads to the row itself.
fn leads_to(row: &Row, side: usize) -> bool {
    match row.kind() {
        Kind::RedstoneWire | Kind::Lever | Kind::Button | Kind::PressurePlate => true,
        Kind::RedstoneTorch | Kind::RedstoneBlock => true,
        Kind::Repeater | Kind::Comparator => match row.facing() {
            Some(Facing::North | Facing::South) => [0, 2].contains(&side),
            Some(Facing::East | Facing::West) => [1, 3].contains(&side),
            _ => false,
        },
        _ => false,
    }
}

/// How the dust at a side stands to the middle and to the top.
struct Side {
    /// It and the middle feed each other.
    is_across: bool,
    feeds_top: bool,
    is_fed_by_top: bool,
}

fn side(middle: &Row, side: usize, back: Back) -> Side {
    let rise = rise(middle);
    let arm = match back.flatten() {
        Some(stored) => Some(stored).filter(|arm| *arm != Arm::None),
        None if leads_to(middle, side) => Some(Arm::Side),
        None => rise,
    };
    let is_dust = middle.kind() == Kind::RedstoneWire;
    let has_arm = middle.arms().and_then(|arms| arms[side]) != Some(Arm::None);
    let feeds_top = rise.is_some() && arm == rise;
    Side {
        is_across: is_dust && has_arm && arm.is_some(),
        feeds_top,
        is_fed_by_top: feeds_top && drives_dust(middle),
    }
}

/// The list by hand.
fn list(middle: &Row, back: Back) -> [Entries; ROWS] {
    let sides = [0, 1, 2, 3].map(|at| side(middle, at, back));
    let those = |is: fn(&Side) -> bool| {
        let mut rows: Vec<_> =
            SIDES.into_iter().zip(&sides).filter(|(_, side)| is(side)).map(|(row, _)| row).collect();
        rows.sort_unstable();
        listed(rows)
    };
    let mut list = [[NO_ROW; _]; ROWS];
    list[MIDDLE] = those(|side| side.is_across);
    list[TOP] = those(|side| side.feeds_top);
    for (row, side) in SIDES.into_iter().zip(&sides) {
        list[row] = listed(
            [side.is_across.then_some(MIDDLE), side.is_fed_by_top.then_some(TOP)].into_iter().flatten(),
        );
    }
    list
}

/// All six rows are dust and near, or the one that is replaced. Of the wrong lists one is handed in after the other.
fn trials(pairs: impl Iterator<Item = (Row, Row, Back)>) -> impl Iterator<Item = Trial> {
    pairs.enumerate().flat_map(|(number, (old, new, back))| {
        let written = list(&new, back).map(Some).to_vec();
        let mut replacing = replacing(&case(&old, back), MIDDLE, &new, &list(&old, back), &written);
        let right = replacing.next();
        right.into_iter().chain(replacing.nth(number % WRONG_LISTS))
    })
}

const WRONG_LISTS: usize = 5;

fn middle(kind: Kind) -> Row {
    Row::new(kind, [0; 3])
}

/// Every kind in three shapes, by every kind in every shape and facing.
pub fn every_kind_by_every_kind() -> impl Iterator<Item = Trial> {
    let olds = || {
        Kind::ALL.iter().flat_map(|kind| {
            [Shape::Plain, Shape::TopSlab, Shape::DoubleSlab].map(|shape| middle(*kind).with_shape(shape))
        })
    };
    let news = Kind::ALL.iter().flat_map(|kind| {
        Shape::ALL.iter().flat_map(|shape| {
            (0..=6).map(|facing| middle(*kind).with_shape(*shape).with_facing(Facing::try_from(facing).ok()))
        })
    });
    trials(news.flat_map(move |new| olds().map(move |old| (old, new, None))))
}

/// Every set of stored arms, and none.
fn sets_of_arms() -> impl Iterator<Item = Option<Arms>> {
    let arm = |code| [None, Some(Arm::None), Some(Arm::Side), Some(Arm::Up)][code];
    (0..256).map(move |number| Some([64, 16, 4, 1].map(|digit| arm(number / digit % 4)))).chain([None])
}

/// Dust with every set of stored arms and solid blocks of every shape, in the place of dust and of a solid block, where the
/// dust around stores each arm towards them.
pub fn stored_arms() -> impl Iterator<Item = Trial> {
    let dust = middle(Kind::RedstoneWire);
    let olds = [dust, dust.with_arms([Some(Arm::None); 4]), middle(Kind::Solid)];
    let blocks = Shape::ALL.iter().map(|shape| middle(Kind::Solid).with_shape(*shape));
    let news = sets_of_arms().map(move |arms| dust.with_arms(arms)).chain(blocks);
    let backs = [None, Some(None), Some(Some(Arm::None)), Some(Some(Arm::Side)), Some(Some(Arm::Up))];
    trials(news.flat_map(move |new| olds.into_iter().flat_map(move |old| backs.map(|back| (old, new, back)))))
}
