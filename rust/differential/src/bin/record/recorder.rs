mod calls;
mod inner;
mod record;
mod refused;
mod wire;

use std::collections::BTreeMap;
use std::io::{self, Write};

use differential::generate::{self, Case};
use differential::random::Random;
use record::Record;
use redstone::ROW_BYTES;

/// `vectors` lends columns for this many rows.
const MOST_ROWS: usize = 64;

pub fn write(seed: u64) -> io::Result<()> {
    let random = &mut Random::new(seed);
    let mut records = inner::records(seed, random);
    records.extend(wire::records(seed));
    records.extend(calls::records(seed, random));
    records.extend(refused::records());
    let mut counts = BTreeMap::<u8, usize>::new();
    let mut out = io::stdout().lock();
    for Record(bytes) in &records {
        *counts.entry(bytes[0]).or_default() += 1;
        out.write_all(&(bytes.len() as u32).to_le_bytes())?;
        out.write_all(bytes)?;
    }
    eprintln!("{} records, by operation {counts:?}", records.len());
    out.flush()
}

fn small_cases(seed: u64, most_rows: usize) -> impl Iterator<Item = Case> {
    (seed..).map(generate::case).filter(move |case| case.table.len() <= most_rows * ROW_BYTES)
}
