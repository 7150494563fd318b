//! What both sides are asked about a case.

use redstone::{Kind, ROW_BYTES};

use super::LookUp;
use crate::generate::Case;
use crate::random::Random;
use crate::table::{Position, coordinates, positions};

/// Of a larger table this many rows are looked up, taken at random.
const MOST_ROWS_LOOKED_UP: usize = 16;
/// So many of them are asked for ports and arms.
const MOST_DEVICES: usize = 5;
/// So many pairs of dust are asked for a transfer.
const MOST_PAIRS: usize = 20;

const PORTS: u32 = 6;

/// Every position in and about the cube of the small tables.
pub fn small_queries(_: &Case) -> Vec<LookUp> {
    let about = -2..=2;
    let mut queries = Vec::new();
    for x in about.clone() {
        for y in about.clone() {
            queries.extend(about.clone().flat_map(|z| looked_up([x, y, z])));
        }
    }
    queries
}

/// Positions of every sort, and the functions over look-ups at rows, beside them and between dust.
pub fn queries(case: &Case) -> Vec<LookUp> {
    let random = &mut Random::new(case.seed);
    let rows: Vec<_> = positions(&case.table).collect();
    let mut queries: Vec<_> = asked(random, case, &rows).into_iter().flat_map(looked_up).collect();
    for at in some(random, &rows, MOST_DEVICES) {
        let step = [(); 3].map(|()| random.within(-1, 1));
        for at in [at, beside(at, step)] {
            device_queries(random, at, &mut queries);
        }
    }
    let pairs = pairs(random, &dust(case));
    queries.extend(pairs.into_iter().map(|(source, sink)| LookUp::Transfer(source, sink)));
    queries
}

fn looked_up(at: Position) -> [LookUp; 2] {
    [LookUp::Find(at), LookUp::KindAt(at)]
}

/// Positions of rows and the six beside each, among them those of the first, last, least and largest row; both ends of
/// all positions; some mixed from several rows' coordinates; some at random; and that of bytes left over.
fn asked(random: &mut Random, case: &Case, rows: &[Position]) -> Vec<Position> {
    let ends = [rows.first(), rows.last(), rows.iter().min(), rows.iter().max()];
    let own = some(random, rows, MOST_ROWS_LOOKED_UP).into_iter().chain(ends.into_iter().flatten().copied());
    let mut asked: Vec<_> = own.flat_map(|at| STEPS.map(|step| beside(at, step))).collect();
    asked.extend([[i32::MIN; 3], [i32::MAX; 3]]);
    asked.extend((0..rows.len().min(6)).map(|_| [0, 1, 2].map(|axis| random.pick(rows)[axis])));
    asked.extend((0..3).map(|_| [(); 3].map(|()| any_coordinate(random))));
    let left = case.table.chunks_exact(ROW_BYTES).remainder();
    asked.extend((left.len() >= 12).then(|| coordinates(left)));
    asked
}

/// The step to the position itself, and those to its neighbours.
const STEPS: [Position; 7] = [[0, 0, 0], [1, 0, 0], [-1, 0, 0], [0, 1, 0], [0, -1, 0], [0, 0, 1], [0, 0, -1]];

/// A position a step away. Past an end of 32 bits it goes on at the other end.
fn beside(at: Position, step: Position) -> Position {
    [0, 1, 2].map(|axis| at[axis].wrapping_add(step[axis]))
}

fn any_coordinate(random: &mut Random) -> i32 {
    let (near, any) = (random.within(-3, 3), random.bits() as i32);
    random.pick(&[near, near, any, i32::MIN, i32::MAX])
}

fn some(random: &mut Random, rows: &[Position], most: usize) -> Vec<Position> {
    let mut some = rows.to_vec();
    random.keep(&mut some, most);
    some
}

fn device_queries(random: &mut Random, at: Position, queries: &mut Vec<LookUp>) {
    for port in 0..PORTS {
        let axis = random.below(3) as u32;
        queries.extend([LookUp::Port(at, port), LookUp::PortCoordinate(at, port, axis)]);
    }
    for facing in 1..=4 {
        queries.push(LookUp::Connects(at, facing));
        queries.push(LookUp::Infer(at, facing));
        queries.push(LookUp::Resolved(at, facing));
    }
}

fn dust(case: &Case) -> Vec<Position> {
    let rows = case.table.chunks_exact(ROW_BYTES);
    rows.filter(|row| row[12] == Kind::RedstoneWire.code()).map(coordinates).collect()
}

/// Pairs of dust at most one cell apart on every axis.
fn pairs(random: &mut Random, dust: &[Position]) -> Vec<(Position, Position)> {
    let near = |a: Position, b: Position| (0..3).all(|axis| a[axis].abs_diff(b[axis]) <= 1);
    let mut pairs = Vec::new();
    for a in some(random, dust, MOST_ROWS_LOOKED_UP) {
        pairs.extend(dust.iter().filter(|b| near(a, **b)).map(|b| (a, *b)));
    }
    random.keep(&mut pairs, MOST_PAIRS);
    pairs
}
