//! Settling by the keys of the dust, read from documents 01 and 02 apart from the proved code.
//!
//! A key is 16 times a level, less the hops by which the level came: each hop takes a level and 1 more. So of two keys the one
//! of the higher level is larger, and of two of one level the one that came earlier. The number of rounds is that of the last
//! dust to have its level, and one more; or that of the last weak power to have its own, and two more, if a row receives power
//! and this is more.

use super::network::{STRONG, Table, WEAK, around, emitted};
use crate::compare::{Answer, Answers};
use crate::dust::is_dust;
use crate::generate::Case;
use crate::lent::fill;
use crate::refusals::{ORDER, Refusal, check, refuse};
use crate::settling::{Buffers, Call, Input};
use crate::table::{Position, UNDER};

/// What is made of keys where it is read so.
#[derive(Clone, Copy)]
pub struct Reading {
    /// Where a row is taken to stand.
    pub place: fn(Position) -> Position,
    /// Where else a search is taken to find it.
    pub found: fn(Position) -> Option<Position>,
    /// Where the support of a switch is taken to be.
    pub support: fn([i8; 3]) -> Option<Position>,
    /// The key of a direct level.
    pub own: fn(u8) -> u8,
    /// The levels whose dust gives its key on, one after the other.
    pub levels: &'static [u8],
    /// What is left of a key that is given on.
    pub given: fn(u8) -> u8,
    /// Which of two keys dust keeps, of which it has the first.
    pub kept: fn(u8, u8) -> u8,
    /// Which of two keys counts for the weak power of a block.
    pub shown: fn(u8, u8) -> u8,
    /// The round in which the level of a key arrives, and 0 without a level.
    pub round: fn(u8) -> u8,
    /// Whether the round of a key counts at a block.
    pub counts: fn(&Block) -> bool,
    /// Whether a row that receives weak power, or strong power, or both, or neither, is in the map.
    pub is_mapped: fn(bool, bool) -> bool,
    pub rounds: fn(&Last) -> u32,
    pub is_enough: fn(u32, u32) -> bool,
}

pub const READING: Reading = Reading {
    place: |at| at,
    found: |_| None,
    support: |step| Some(step.map(i32::from)),
    own: |direct| 16 * direct.min(15),
    levels: &[15, 14, 13, 12, 11, 10, 9, 8, 7, 6, 5, 4, 3, 2],
    given: |key| key.saturating_sub(17),
    kept: u8::max,
    shown: u8::max,
    round: |key| if key == 0 { 0 } else { 16 * level(key) + 1 - key },
    counts: |block| level(block.key) > block.base,
    is_mapped: |weak, strong| weak || strong,
    rounds: |last| (1 + last.dust).max(if last.is_mapped { 2 + last.shown } else { 0 }),
    is_enough: |limit, rounds| limit >= rounds,
};

/// The level of a key.
pub fn level(key: u8) -> u8 {
    key.div_ceil(16)
}

/// What a block has: weak power without dust, strong power, and the key by which dust gives it weak power, or 0.
pub struct Block {
    pub base: u8,
    pub strong: u8,
    pub key: u8,
}

/// The last round in which a level of dust arrives, the last that counts at a block, and whether the map has a row.
pub struct Last {
    pub dust: u32,
    pub shown: u32,
    pub is_mapped: bool,
}

/// Settled columns, and the rounds.
struct Settled {
    columns: [Vec<u8>; 3],
    rounds: u32,
}

/// A case that is settled by keys.
pub struct Keys<'a> {
    case: &'a Case,
    reading: Reading,
    /// Of a case that is refused there is none.
    table: Option<Table<'a>>,
}

impl<'a> Keys<'a> {
    pub fn new(case: &'a Case) -> Self {
        Self::reading(case, READING)
    }

    /// Where it is read so.
    pub fn reading(case: &'a Case, reading: Reading) -> Self {
        let is_accepted = check(&case.profile, &case.table).is_ok();
        Self { case, reading, table: is_accepted.then(|| Table::new(case, &reading)) }
    }

    fn called(&self, call: &Call) -> Result<Settled, Refusal> {
        let Input::Settle { devices, limit } = &call.input else { panic!("{call:?} does not only settle") };
        refuse(&ORDER, &call.asked(self.case))?;
        let table = self.table.as_ref().expect("the table of a call that is not refused");
        let settled = self.settled(table, devices);
        let is_enough = (self.reading.is_enough)(*limit, settled.rounds);
        is_enough.then_some(settled).ok_or(Refusal { number: 8, row: 0 })
    }

    fn settled(&self, table: &Table, devices: &[u8]) -> Settled {
        let emitted: Vec<_> = table.rows.iter().zip(devices).map(|(row, byte)| emitted(row, *byte)).collect();
        let strong = table.arriving(&emitted, |row| table.along(row, table.charging(row), STRONG));
        let base = table.arriving(&strong, |row| table.along(row, around(), WEAK));
        let keys = self.keys(table, &emitted, &strong);
        let shown = self.shown(table, &keys);
        let block = |row: usize| Block { base: base[row], strong: strong[row], key: shown[row] };
        let weak = (0..keys.len()).map(|row| base[row].max(level(shown[row]))).collect();
        let signal = keys.iter().zip(&emitted).map(|(key, emitted)| level(*key).max(*emitted)).collect();
        let round = |key: u8| u32::from((self.reading.round)(key));
        let counted = (0..keys.len()).map(block).filter(|block| (self.reading.counts)(block));
        let last = Last {
            dust: keys.iter().map(|key| round(*key)).max().unwrap_or(0),
            shown: counted.map(|block| round(block.key)).max().unwrap_or(0),
            is_mapped: (0..keys.len())
                .any(|row| (self.reading.is_mapped)(table.has(WEAK, row), table.has(STRONG, row))),
        };
        Settled { columns: [signal, weak, strong], rounds: (self.reading.rounds)(&last) }
    }

    /// The key of each dust, and 0 for other rows.
    fn keys(&self, table: &Table, emitted: &[u8], strong: &[u8]) -> Vec<u8> {
        let own = |row: usize| match is_dust(&table.rows[row]) {
            true => (self.reading.own)(table.direct(row, emitted, strong)),
            false => 0,
        };
        let mut keys: Vec<_> = (0..table.rows.len()).map(own).collect();
        for passed in self.reading.levels {
            for row in 0..keys.len() {
                if level(keys[row]) == *passed {
                    let given = (self.reading.given)(keys[row]);
                    for sink in table.sinks(row) {
                        keys[sink] = (self.reading.kept)(keys[sink], given);
                    }
                }
            }
        }
        keys
    }

    /// Of each row the key that counts of the dust that gives it weak power, and 0 where none does.
    fn shown(&self, table: &Table, keys: &[u8]) -> Vec<u8> {
        let mut shown = vec![0; keys.len()];
        for (row, key) in keys.iter().enumerate().filter(|(_, key)| **key > 0) {
            for other in table.along(row, table.arms(row).chain([UNDER]), WEAK) {
                shown[other] =
                    if shown[other] == 0 { *key } else { (self.reading.shown)(shown[other], *key) };
            }
        }
        shown
    }
}

impl Answers<Call> for Keys<'_> {
    fn answer(&self, call: &Call) -> Answer {
        let mut buffers = Buffers::for_call(self.case, call);
        let [.., signal, weak, strong] = buffers.entries();
        let number = match self.called(call) {
            Ok(Settled { columns, rounds }) => {
                for (out, column) in [signal, weak, strong].into_iter().zip(columns) {
                    fill(out, column);
                }
                rounds
            }
            Err(refusal) => refusal.code(),
        };
        buffers.answer(number)
    }
}
