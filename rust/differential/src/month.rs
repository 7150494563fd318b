//! What document 02 says of the program `month`, with each table settled by the original.

use std::collections::HashMap;
use std::fmt::{self, Display, Formatter};

use redstone::{Kind, MOST_ROWS, PROFILE_BYTES, ROW_BYTES};

use crate::generate::Case;
use crate::oracle::{Oracle, pos};
use crate::refusals::{self, Refusal};
use crate::report;

/// The most tables of a stream, refused ones among them.
pub const MOST_TABLES: usize = 1_000_000;

/// A profile, and then tables, each led by its row count.
pub fn stream<T: AsRef<[u8]>>(profile: &[u8], tables: impl IntoIterator<Item = T>) -> Vec<u8> {
    let mut stream = profile.to_vec();
    for table in tables {
        let table = table.as_ref();
        let rows = (table.len() / ROW_BYTES) as u32;
        stream.extend(rows.to_le_bytes());
        stream.extend(table);
    }
    stream
}

/// What the program is to write for a stream.
pub fn expected(stream: &[u8]) -> String {
    Month::of(stream).map_or_else(report::refused, |month| month.to_string())
}

/// The figures of a stream, and how reading it ended.
pub struct Month {
    pub figures: Figures,
    pub ended: Ended,
}

#[derive(Clone, Copy, Debug, Eq, PartialEq)]
pub enum Ended {
    Whole,
    Cut,
    Count,
}

/// Numbers of tables by what became of them, and of dust by its level.
#[derive(Clone, Debug, Default, Eq, PartialEq)]
pub struct Figures {
    pub tables: u64,
    pub refused: u64,
    /// From one round on.
    pub rounds: [u64; 17],
    pub levels: [u64; 16],
}

impl Month {
    /// Equal tables are settled once.
    pub fn of(stream: &[u8]) -> Result<Self, Refusal> {
        let (profile, tables) = stream.split_at(stream.len().min(PROFILE_BYTES));
        refusals::check(profile, &[])?;
        let (tables, ended) = read(tables);
        let mut times: HashMap<&[u8], u64> = HashMap::new();
        for table in tables {
            *times.entry(table).or_default() += 1;
        }
        let mut figures = Figures::default();
        for (table, times) in times {
            figures.add(&Figures::of(profile, table), times);
        }
        Ok(Self { figures, ended })
    }
}

/// The tables that are read whole, and how reading ended.
fn read(mut stream: &[u8]) -> (Vec<&[u8]>, Ended) {
    let mut tables = Vec::new();
    while !stream.is_empty() {
        if tables.len() == MOST_TABLES {
            return (tables, Ended::Count);
        }
        let Some((rows, rest)) = stream.split_first_chunk() else {
            return (tables, Ended::Cut);
        };
        let rows = u32::from_le_bytes(*rows) as usize;
        if rows > MOST_ROWS {
            return (tables, Ended::Count);
        }
        let Some((table, rest)) = rest.split_at_checked(ROW_BYTES * rows) else {
            return (tables, Ended::Cut);
        };
        tables.push(table);
        stream = rest;
    }
    (tables, Ended::Whole)
}

impl Figures {
    /// Those of one table.
    fn of(profile: &[u8], table: &[u8]) -> Self {
        let case = Case::of_bytes(profile, table);
        let oracle = Oracle::new(&case);
        match oracle.refusal {
            Ok(()) => Self::of_accepted(&oracle),
            Err(_) => Self { refused: 1, ..Self::default() },
        }
    }

    /// Those of a table that is settled.
    pub fn of_accepted(oracle: &Oracle) -> Self {
        let settled = oracle.settle_fresh();
        let mut figures = Self { tables: 1, ..Self::default() };
        figures.rounds[settled.iterations - 1] = 1;
        for dust in oracle.rows.iter().filter(|row| row.kind() == Kind::RedstoneWire) {
            figures.levels[usize::from(settled.signal(pos(dust.position())))] += 1;
        }
        figures
    }

    /// Adds others, so many times.
    pub fn add(&mut self, other: &Self, times: u64) {
        self.tables += times * other.tables;
        self.refused += times * other.refused;
        for (sum, more) in self.rounds.iter_mut().zip(other.rounds) {
            *sum += times * more;
        }
        for (sum, more) in self.levels.iter_mut().zip(other.levels) {
            *sum += times * more;
        }
    }
}

impl Display for Month {
    fn fmt(&self, f: &mut Formatter<'_>) -> fmt::Result {
        let Figures { tables, refused, rounds, levels } = &self.figures;
        writeln!(f, "tables={tables}\nrefused={refused}")?;
        for (number, tables) in (1..).zip(rounds) {
            writeln!(f, "rounds_{number}={tables}")?;
        }
        for (level, dust) in levels.iter().enumerate() {
            writeln!(f, "level_{level}={dust}")?;
        }
        let ended = match self.ended {
            Ended::Whole => "whole",
            Ended::Cut => "cut",
            Ended::Count => "count",
        };
        writeln!(f, "ended={ended}")
    }
}
