//! What both sides are asked about a case.

use redstone::{Kind, Row};

use super::WireQuery;
use crate::generate::Case;
use crate::positions::{around, beside};
use crate::random::Random;
use crate::refusals;
use crate::table::{self, Position};

/// Of a larger table this many rows and pairs are asked for, taken at random.
const MOST_ROWS_AROUND: usize = 40;
const MOST_PAIRS: usize = 400;

/// A refused table is only redrawn.
pub fn queries(case: &Case) -> Vec<WireQuery> {
    let mut queries = vec![WireQuery::Redraw];
    if refusals::check(&case.profile, &case.table).is_ok() {
        let mut random = Random::new(case.seed);
        let rows = table::rows(&case.table);
        for at in around(&mut random, &rows, MOST_ROWS_AROUND) {
            for facing in 1..=4 {
                queries.push(WireQuery::Connects(at, facing));
                queries.push(WireQuery::Infer(at, facing));
                queries.push(WireQuery::Resolved(at, facing));
            }
        }
        let pairs = pairs(&mut random, &rows);
        queries.extend(pairs.into_iter().map(|(source, sink)| WireQuery::Transfer(source, sink)));
    }
    queries
}

/// All pairs of dust at most two cells apart, some pairs of any rows, and some with a position beside a row.
fn pairs(random: &mut Random, rows: &[Row]) -> Vec<(Position, Position)> {
    let dust: Vec<_> =
        rows.iter().filter(|row| row.kind() == Kind::RedstoneWire).map(Row::position).collect();
    let near = |a: Position, b: Position| (0..3).all(|axis| (a[axis] - b[axis]).abs() <= 2);
    let mut pairs = Vec::new();
    for a in &dust {
        pairs.extend(dust.iter().filter(|b| near(*a, **b)).map(|b| (*a, *b)));
    }
    random.keep(&mut pairs, MOST_PAIRS);
    for _ in 0..rows.len().min(8) {
        let (a, b) = (random.below(rows.len()), random.below(rows.len()));
        pairs.push((rows[a].position(), rows[b].position()));
        pairs.push((rows[a].position(), beside(random, rows[a].position())));
    }
    pairs
}
