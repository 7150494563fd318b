//! Accepted tables and profiles from a seed.

mod bulbs;
mod comparators;
mod hard;
mod leaning;
mod rows;
mod sorts;
mod torches;

use std::fmt::{self, Display, Formatter};

use redstone::{Kind, PROFILE_BYTES, PROFILE_BYTES_WITH_BULB, ROW_BYTES, Row, TORCH_CHARGES_ABOVE};
use redstone_text::row_text;

use crate::dust::is_dust;
use crate::random::Random;
use crate::table::rows;

pub use leaning::{NEEDING, NOT_SUPPORTING, SUPPORTING, ring_places};
pub use redstone::{BENCH_PROFILE, BENCH_PROFILE_WITH_BULB};
pub use rows::{any_arms, any_row};

/// The places of the torch's byte in a profile, and of the bulb's where there is one.
pub const TORCH: usize = Kind::RedstoneTorch.code() as usize;
pub const BULB: usize = Kind::CopperBulb.code() as usize;

/// What both sides are asked about.
#[derive(Clone, Debug)]
pub struct Case {
    pub seed: u64,
    pub sort: &'static str,
    pub profile: Vec<u8>,
    pub table: Vec<u8>,
}

impl Case {
    /// A case that no seed gives, of rows in any order.
    pub fn new(sort: &'static str, profile: impl Into<Vec<u8>>, rows: impl IntoIterator<Item = Row>) -> Self {
        Self { seed: 0, sort, profile: profile.into(), table: redstone::table(rows) }
    }

    /// A case that no seed gives, of any bytes.
    pub fn of_bytes(profile: &[u8], table: &[u8]) -> Self {
        Self { seed: 0, sort: "", profile: profile.into(), table: table.into() }
    }

    /// Tests 3 and 4 of the book: a redstone block and so many dust in a line, each on a solid block.
    pub fn line(sort: &'static str, dust: i32) -> Self {
        let column = |x| [Row::new(Kind::Solid, [x, 0, 0]), Row::new(Kind::RedstoneWire, [x, 1, 0])];
        let source = Row::new(Kind::RedstoneBlock, [0, 1, 0]);
        Self::new(sort, BENCH_PROFILE, (1..=dust).flat_map(column).chain([source]))
    }

    /// The rows that the table has whole.
    pub fn rows(&self) -> usize {
        self.table.len() / ROW_BYTES
    }

    /// Whether the torch's byte of the profile, which need not be accepted, has the value 32.
    pub fn torch_charges_above(&self) -> bool {
        self.profile.get(TORCH).is_some_and(|byte| byte & TORCH_CHARGES_ABOVE != 0)
    }

    /// The same case with that value set or clear, where the profile has the byte.
    pub fn with_torch_charging(&self, charges: bool) -> Self {
        let mut case = self.clone();
        if let Some(byte) = case.profile.get_mut(TORCH) {
            *byte &= !TORCH_CHARGES_ABOVE;
            *byte |= if charges { TORCH_CHARGES_ABOVE } else { 0 };
        }
        case
    }

    /// The bytes of the rows of a kind.
    pub fn rows_of(&mut self, kind: Kind) -> impl Iterator<Item = &mut [u8]> {
        self.table.chunks_exact_mut(ROW_BYTES).filter(move |row| row[12] == kind.code())
    }

    /// The same case with other levels of its comparators.
    pub fn with_levels(&self, change: impl Fn(u8) -> u8) -> Self {
        let mut case = self.clone();
        case.rows_of(Kind::Comparator).for_each(|row| row[16] = change(row[16]));
        case
    }

    /// Whether the profile, which need not be accepted, has as many bytes as one with the bulb's.
    pub fn has_byte_of_the_bulb(&self) -> bool {
        self.profile.len() == PROFILE_BYTES_WITH_BULB
    }

    /// Whether a row is of the bulb's kind and the profile has a byte for it.
    pub fn has_bulbs(&self) -> bool {
        let mut rows = self.table.chunks_exact(ROW_BYTES);
        self.has_byte_of_the_bulb() && rows.any(|row| row[12] == Kind::CopperBulb.code())
    }
}

impl Display for Case {
    fn fmt(&self, f: &mut Formatter<'_>) -> fmt::Result {
        writeln!(f, "seed {} ({})", self.seed, self.sort)?;
        writeln!(f, "profile {}", hex(&self.profile))?;
        f.write_str(&row_lines(&self.table))
    }
}

/// A line for each row of a table, which need not be accepted.
pub fn row_lines(table: &[u8]) -> String {
    let line = |bytes: &[u8]| {
        let text = Row::try_from(bytes).map_or(String::new(), |row| row_text(&row));
        format!("row     {} {text}\n", hex(bytes))
    };
    table.chunks(ROW_BYTES).map(line).collect()
}

fn hex(bytes: &[u8]) -> String {
    bytes.iter().map(|byte| format!("{byte:02x}")).collect()
}

type Sort = (&'static str, fn(&mut Random) -> Vec<Row>);

/// The sorts of table, each with its share.
const SORTS: [(usize, Sort); 12] = [
    (5, ("no rows", |_| Vec::new())),
    (190, ("dense box", sorts::dense_box)),
    (130, ("dust line", sorts::dust_line)),
    (140, ("staircase", sorts::staircase)),
    (100, ("devices", sorts::devices)),
    (120, ("torches", torches::torches)),
    (200, ("bulbs", bulbs::bulbs)),
    (60, ("clock", sorts::clock)),
    (110, ("comparators", comparators::comparators)),
    (45, ("sparse", sorts::sparse)),
    (9, ("hundreds of rows", sorts::large_box)),
    (1, ("1,024 rows", sorts::full_box)),
];

/// The accepted case of a seed.
pub fn case(seed: u64) -> Case {
    of_sorts(&SORTS, seed)
}

/// The accepted case of a seed whose rows hold each other up, or would.
pub fn leaning_case(seed: u64) -> Case {
    of_sorts(&leaning::SORTS, seed)
}

/// The accepted case of a seed in which levels come by several ways. Now and then no row but a double slab receives weak power,
/// or strong power, or either.
pub fn hard_case(seed: u64) -> Case {
    let random = &mut Random::new(!seed);
    let mut case = of_sorts(&hard::SORTS, seed);
    if random.percent(30) {
        let received = random.pick(&[2, 4, 2 + 4]);
        case.profile.iter_mut().for_each(|byte| *byte &= !received);
    }
    if random.percent(20) { with_arms(random, case) } else { case }
}

/// In every other case dust has any arms stored, more of it or less.
pub fn with_arms(random: &mut Random, mut case: Case) -> Case {
    if random.percent(50) {
        let share = random.pick(&[20, 50, 100]);
        let with_arms = |row: Row| {
            let is_drawn = is_dust(&row) && random.percent(share);
            if is_drawn { row.with_arms(any_arms(random)) } else { row }
        };
        case.table = redstone::table(rows(&case.table).into_iter().map(with_arms));
    }
    case
}

/// Of six tables two have a profile without a byte for the bulb, and one more has no bulbs.
fn of_sorts(sorts: &[(usize, Sort)], seed: u64) -> Case {
    let mut random = Random::new(seed);
    let (sort, make) = random.weighted(sorts);
    let rows = make(&mut random);
    let mut profile = profile(&mut random);
    let (rows, bytes) = match random.below(6) {
        0..2 => (bulbs::replaced(rows), PROFILE_BYTES),
        2 => (bulbs::replaced(rows), PROFILE_BYTES_WITH_BULB),
        _ => (bulbs::placed(&mut random, rows), PROFILE_BYTES_WITH_BULB),
    };
    profile.truncate(bytes);
    Case { seed, ..Case::new(sort, profile, rows) }
}

/// The bench profile or any, and with either the torch as often charges the block above as not.
fn profile(random: &mut Random) -> Vec<u8> {
    let mut profile = BENCH_PROFILE_WITH_BULB.to_vec();
    if random.percent(50) {
        let plain = random.percent(40);
        for byte in &mut profile[1..] {
            *byte = if plain { random.pick(&[0, 1, 31]) } else { random.byte_below(32) };
        }
    }
    if random.percent(50) {
        profile[TORCH] |= TORCH_CHARGES_ABOVE;
    }
    profile
}
