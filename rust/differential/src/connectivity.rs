//! connectivity.rs: the five position functions.

use original::connectivity::{
    comparator_input_pos, comparator_output_pos, device_side_positions, repeater_input_pos,
    repeater_output_pos,
};
use original::world::{Pos, World};

use crate::compare::{Alteration, Answer, Answers, Compared, Query, Tally, compare};
use crate::generate::Case;
use crate::oracle::{Oracle, pos};
use crate::positions::around;
use crate::probe::{Probe, probe_port, probe_port_coordinate};
use crate::random::Random;
use crate::refusals;
use crate::table::{self, Position};

type Port = (&'static str, fn(&World, Pos) -> Option<Pos>);

/// The ports in the order of their numbers, each with the function that gives it.
const PORTS: [Port; 6] = [
    ("repeater_input_pos", repeater_input_pos),
    ("repeater_output_pos", repeater_output_pos),
    ("comparator_input_pos", comparator_input_pos),
    ("comparator_output_pos", comparator_output_pos),
    ("device_side_positions", |world, at| device_side_positions(world, at).map(|[first, _]| first)),
    ("device_side_positions", |world, at| device_side_positions(world, at).map(|[_, second]| second)),
];

#[derive(Debug)]
pub struct PortQuery {
    at: Position,
    port: usize,
    /// Which coordinate is asked for, or else whether there is a port at all.
    axis: Option<usize>,
}

impl Query for PortQuery {
    fn function(&self) -> &'static str {
        PORTS[self.port].0
    }
}

/// From the number of ports there and the port's coordinates. A coordinate of no port is left open, and is 0 here.
fn answer(found: u32, axis: Option<usize>, coordinate: impl Fn(usize) -> i32) -> Answer {
    match axis {
        None => found.into(),
        Some(axis) if found == 1 => coordinate(axis).into(),
        Some(_) => 0.into(),
    }
}

impl Answers<PortQuery> for Probe<'_> {
    fn answer(&self, query: &PortQuery) -> Answer {
        let ([x, y, z], port) = (query.at, query.port as u32);
        let table = &self.0.table;
        let found = probe_port(table, x, y, z, port);
        answer(found, query.axis, |axis| probe_port_coordinate(table, x, y, z, port, axis as u32))
    }
}

impl Answers<PortQuery> for Oracle<'_> {
    fn answer(&self, query: &PortQuery) -> Answer {
        let found = PORTS[query.port].1(self.world(), pos(query.at));
        answer(found.is_some().into(), query.axis, |axis| found.map_or(0, |at| [at.x, at.y, at.z][axis]))
    }
}

pub fn compare_case(case: &Case, actual: &dyn Answers<PortQuery>, tally: &mut Tally) -> Compared {
    compare(queries(case), &Oracle::new(case), actual, tally)
}

/// Of a larger table this many rows are asked for, taken at random.
const MOST_ROWS_AROUND: usize = 40;

/// Every port at each row of an accepted table and at a position beside it.
pub fn queries(case: &Case) -> Vec<PortQuery> {
    if refusals::check(&case.profile, &case.table).is_err() {
        return Vec::new();
    }
    let rows = table::rows(&case.table);
    let mut queries = Vec::new();
    for at in around(&mut Random::new(case.seed), &rows, MOST_ROWS_AROUND) {
        for port in 0..PORTS.len() {
            let axes = [None, Some(0), Some(1), Some(2)];
            queries.extend(axes.map(|axis| PortQuery { at, port, axis }));
        }
    }
    queries
}

pub const ALTERATIONS: [Alteration<PortQuery>; 5] = [
    Alteration {
        function: "repeater_input_pos",
        what: "no repeater has an input",
        alter: |_, _, answer| answer.number = 0,
    },
    Alteration {
        function: "repeater_output_pos",
        what: "every position has a repeater's output",
        alter: |_, query, answer| {
            if query.axis.is_none() {
                answer.number = 1;
            }
        },
    },
    Alteration {
        function: "comparator_input_pos",
        what: "a comparator's input is its output along x",
        alter: |_, query, answer| {
            if query.axis == Some(0) && answer.number != 0 {
                answer.number = 2 * i128::from(query.at[0]) - answer.number;
            }
        },
    },
    Alteration {
        function: "comparator_output_pos",
        what: "a comparator's output is one too far along z",
        alter: |_, query, answer| {
            if query.axis == Some(2) && answer.number != 0 {
                answer.number += 1;
            }
        },
    },
    Alteration {
        function: "device_side_positions",
        what: "the second side is the first along x",
        alter: |_, query, answer| {
            if query.port == 5 && query.axis == Some(0) && answer.number != 0 {
                answer.number = 2 * i128::from(query.at[0]) - answer.number;
            }
        },
    },
];
