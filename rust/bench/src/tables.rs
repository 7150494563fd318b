//! The tables that are settled.

use differential::dust::is_dust;
use differential::generate::{BENCH_PROFILE, Case};
use differential::oracle::Oracle;
use differential::shapes;
use redstone::Row;

/// One table, or several that are timed by turns.
pub struct Timed {
    pub name: &'static str,
    pub cases: Vec<Case>,
}

impl Timed {
    fn one(name: &'static str, rows: Vec<Row>) -> Self {
        Self { name, cases: vec![case(name, rows)] }
    }

    fn several(name: &'static str, tables: impl Iterator<Item = Vec<Row>>) -> Self {
        Self { name, cases: tables.map(|rows| case(name, rows)).collect() }
    }

    /// The rows, the dust and the rounds of the first.
    pub fn size(&self) -> [usize; 3] {
        let oracle = Oracle::new(&self.cases[0]);
        let dust = oracle.rows.iter().filter(|row| is_dust(row)).count();
        [oracle.rows.len(), dust, oracle.settle_fresh().iterations]
    }
}

fn case(name: &'static str, rows: Vec<Row>) -> Case {
    Case::new(name, BENCH_PROFILE, rows)
}

fn line(name: &'static str, dust: i32) -> Timed {
    Timed { name, cases: vec![Case::line(name, dust)] }
}

/// Test 4's line with as many dust as fit.
fn longest_line() -> Timed {
    line("511 dust in line", 511)
}

/// The extent of a box of 1,024 cells.
const FULL: [i32; 3] = [16, 4, 16];
/// The seeds of the first dense tables, and their dust in a thousand cells.
const FEW: (u64, usize) = (185, 86);
const MUCH: (u64, usize) = (16, 298);
const BY_TURNS: u64 = 64;

fn dense((seed, dusty): (u64, usize)) -> Vec<Row> {
    shapes::dense(seed, FULL, dusty)
}

fn dense_of_much_dust() -> Timed {
    Timed::one("dense, 305 dust", dense(MUCH))
}

fn dense_by_turns(name: &'static str, (first, dusty): (u64, usize)) -> Timed {
    Timed::several(name, (first..first + BY_TURNS).map(|seed| dense((seed, dusty))))
}

pub fn tables() -> Vec<Timed> {
    vec![
        line("15 dust in line", 15),
        longest_line(),
        Timed::one("line lit all along", shapes::lit_line(32)),
        Timed::one("stairs", shapes::stairs(33)),
        Timed::one("dense, 88 dust", dense(FEW)),
        dense_by_turns("dense, some 88 dust, 64 tables by turns", FEW),
        dense_of_much_dust(),
        dense_by_turns("dense, some 305 dust, 64 tables by turns", MUCH),
        Timed::one("plane of dust", shapes::plane([32, 32])),
        Timed::one("floating dust", shapes::floating([16, 8, 16])),
        Timed::one("levers on corners", shapes::levers([16, 32])),
        Timed::one("comparators of many levels", shapes::comparators(32)),
        Timed::one("no rows", Vec::new()),
    ]
}

/// Those that are also settled in single calls.
pub fn settled_singly() -> [Timed; 2] {
    [longest_line(), dense_of_much_dust()]
}

/// Tables of some 256, 512 and 1,024 rows of a kind.
pub fn sizes() -> Vec<Timed> {
    let boxes = [[16, 4, 4], [16, 4, 8], FULL];
    let lines = [127, 255, 511].map(|dust| line("line", dust));
    let planes = [[16, 16], [16, 32], [32, 32]].map(|extent| Timed::one("plane", shapes::plane(extent)));
    let dense = boxes.map(|extent| Timed::one("dense", shapes::dense(MUCH.0, extent, MUCH.1)));
    let floating =
        boxes.map(|[wide, high, long]| Timed::one("floating", shapes::floating([wide, 2 * high, long])));
    let levers = [[8, 16], [16, 16], [16, 32]].map(|extent| Timed::one("levers", shapes::levers(extent)));
    [lines, planes, dense, floating, levers].into_iter().flatten().collect()
}

#[cfg(test)]
mod tests {
    use super::{sizes, tables};

    /// Rows, dust and rounds.
    #[test]
    fn the_tables_are_of_their_sizes() {
        let dense = [[1024, 88, 3], [1024, 305, 5]].map(|size| [size; 2]);
        let expected = [
            &[[31, 15, 17], [1023, 511, 17], [1024, 480, 17], [1024, 495, 17]][..],
            dense.as_flattened(),
            &[[1024, 1023, 16], [1024, 1024, 1], [1024, 0, 2], [1024, 480, 17], [0, 0, 1]],
        ];
        assert_eq!(tables().iter().map(|timed| timed.size()).collect::<Vec<_>>(), expected.concat());
        let rows: Vec<_> = sizes().iter().map(|timed| timed.size()[0]).collect();
        assert_eq!(rows[..3], [255, 511, 1023]);
        assert_eq!(rows[3..], [256, 512, 1024].repeat(4));
    }
}
