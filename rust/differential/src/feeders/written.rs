//! Small tables with what feeds each row by hand, and rows of small tables replaced.

use redstone::Row;

use super::Trial;
use super::reading::{Entries, NO_ROW, listed};
use super::trials::{built, replacing};
use crate::generate::Case;
use crate::written;

/// A table by rows as docs/DIFFERENCES.md has them, each with the letters of the rows that feed it. The rows have letters in
/// the order in which they stand here.
pub struct ByHand {
    pub what: &'static str,
    /// A line of its own, or nothing for the bench profile with the bulb.
    pub profile: &'static str,
    pub rows: &'static [(&'static str, &'static str)],
}

/// A table of which a row is replaced. Each row has the letters of the rows that feed it before and after.
pub struct Replaced {
    pub what: &'static str,
    pub profile: &'static str,
    pub rows: &'static [(&'static str, [&'static str; 2])],
    /// The letter of the row that is replaced, and the row that is put in its place.
    pub new_row: (&'static str, &'static str),
    /// The letters of the rows whose entries are written afresh.
    pub afresh: &'static str,
}

/// Rows in the order of their letters, and the number of each in the table's order.
struct Lettered {
    rows: Vec<Row>,
    numbers: Vec<usize>,
}

impl Lettered {
    fn new(rows: Vec<Row>) -> Self {
        let number = |row: &Row| rows.iter().filter(|other| other.position() < row.position()).count();
        Self { numbers: rows.iter().map(number).collect(), rows }
    }

    /// After so many quarter turns, by which the rows come into other orders.
    fn turned(&self, turns: usize) -> Self {
        let turned = |row: &Row| (0..turns).fold(*row, |row, _| written::turned(&row));
        Self::new(self.rows.iter().map(turned).collect())
    }

    /// The numbers of the rows of these letters, in rising order.
    fn numbers(&self, letters: &str) -> Vec<usize> {
        let mut numbers: Vec<_> =
            letters.bytes().map(|letter| self.numbers[usize::from(letter - b'a')]).collect();
        numbers.sort_unstable();
        numbers
    }

    /// The list in the table's order, by what is written beside each row and the letters of what feeds it.
    fn list<T>(&self, beside: &[T], fed_by: impl Fn(&T) -> &'static str) -> Vec<Entries> {
        let mut list = vec![[NO_ROW; _]; self.rows.len()];
        for (number, beside) in self.numbers.iter().zip(beside) {
            list[*number] = listed(self.numbers(fed_by(beside)));
        }
        list
    }

    /// With a row in the place of the one at its position.
    fn with(&self, new_row: Row) -> Self {
        let replaced = |row: &Row| if row.position() == new_row.position() { new_row } else { *row };
        Self::new(self.rows.iter().map(replaced).collect())
    }

    fn case(&self, profile: &[u8]) -> Case {
        Case::new("written", profile, self.rows.iter().copied())
    }
}

fn read<T: Copy>(what: &str, profile: &str, rows: &[(&str, T)]) -> (Vec<u8>, Lettered, Vec<T>) {
    let (profile, rows) = written::read(what, profile, rows);
    let (rows, beside) = rows.into_iter().unzip();
    (profile, Lettered::new(rows), beside)
}

/// The list of a table in each quarter turn.
pub fn turned(table: &ByHand) -> impl Iterator<Item = Trial> {
    let (profile, rows, fed_by) = read(table.what, table.profile, table.rows);
    (0..4).map(move |turns| {
        let rows = rows.turned(turns);
        built(rows.case(&profile), rows.list(&fed_by, |fed_by| *fed_by))
    })
}

/// In each quarter turn: the lists before and after are built, and the row is replaced with each of some lists handed in.
pub fn replaced(table: &'static Replaced) -> impl Iterator<Item = Trial> {
    let (profile, rows, fed_by) = read(table.what, table.profile, table.rows);
    let (letter, new_row) = table.new_row;
    let (_, new_row, _) = read(table.what, table.profile, &[(new_row, ())]);
    (0..4).flat_map(move |turns| {
        let (rows, new_row) = (rows.turned(turns), new_row.turned(turns).rows[0]);
        let [before, after] = [0, 1].map(|time| rows.list(&fed_by, |fed_by| fed_by[time]));
        let replaced = rows.numbers(letter)[0];
        let afresh = rows.numbers(table.afresh);
        let case = rows.case(&profile);
        let new_case = rows.with(new_row).case(&profile);
        let written = (0..).zip(&after).map(|(row, entries)| afresh.contains(&row).then_some(*entries));
        let replacing = replacing(&case, replaced, &new_row, &before, &written.collect());
        [built(case, before), built(new_case, after)].into_iter().chain(replacing)
    })
}

pub const TABLES: [ByHand; 46] = [
    table("a dust alone", &[("0,0,0 RedstoneWire", "")]),
    table("no dust", &[("0,0,0 Solid", ""), ("0,1,0 Lever support=0,-1,0", ""), ("1,0,0 RedstoneLamp", "")]),
    table("two dust", &[("0,0,0 RedstoneWire", "b"), ("1,0,0 RedstoneWire", "a")]),
    table(
        "five dust in a line",
        &[
            ("0,0,0 RedstoneWire", "b"),
            ("1,0,0 RedstoneWire", "ac"),
            ("2,0,0 RedstoneWire", "bd"),
            ("3,0,0 RedstoneWire", "ce"),
            ("4,0,0 RedstoneWire", "d"),
        ],
    ),
    table(
        "four dust in a square",
        &[
            ("0,0,0 RedstoneWire", "bc"),
            ("0,0,1 RedstoneWire", "ad"),
            ("1,0,0 RedstoneWire", "ad"),
            ("1,0,1 RedstoneWire", "bc"),
        ],
    ),
    table(
        "a cross of dust",
        &[
            ("0,0,0 RedstoneWire", "bcde"),
            ("-1,0,0 RedstoneWire", "a"),
            ("0,0,-1 RedstoneWire", "a"),
            ("0,0,1 RedstoneWire", "a"),
            ("1,0,0 RedstoneWire", "a"),
        ],
    ),
    table(
        "dust that is not beside dust",
        &[
            ("0,0,0 RedstoneWire", ""),
            ("0,1,0 RedstoneWire", ""),
            ("1,0,1 RedstoneWire", ""),
            ("2,0,0 RedstoneWire", ""),
            ("0,0,2 RedstoneWire", ""),
            ("0,-2,0 RedstoneWire", ""),
        ],
    ),
    table(
        "devices and blocks beside dust feed nothing",
        &[
            ("0,0,0 RedstoneWire", ""),
            ("-1,0,0 RedstoneBlock", ""),
            ("0,0,-1 Lever powered=true", ""),
            ("0,0,1 Repeater facing=North powered=true", ""),
            ("1,0,0 RedstoneTorch", ""),
            ("0,-1,0 Solid", ""),
        ],
    ),
    table(
        "a step up on a solid block",
        &[("0,0,0 RedstoneWire", "c"), ("1,0,0 Solid", ""), ("1,1,0 RedstoneWire", "a")],
    ),
    table(
        "a step up on a lamp",
        &[("0,0,0 RedstoneWire", "c"), ("1,0,0 RedstoneLamp", ""), ("1,1,0 RedstoneWire", "a")],
    ),
    table(
        "a step up on a transparent block",
        &[("0,0,0 RedstoneWire", ""), ("1,0,0 Transparent", ""), ("1,1,0 RedstoneWire", "a")],
    ),
    table(
        "a step up on a bulb",
        &[("0,0,0 RedstoneWire", ""), ("1,0,0 CopperBulb", ""), ("1,1,0 RedstoneWire", "a")],
    ),
    table(
        "a step up on a redstone block, to which the arm leads",
        &[("0,0,0 RedstoneWire", ""), ("1,0,0 RedstoneBlock", ""), ("1,1,0 RedstoneWire", "")],
    ),
    table(
        "a step up on a piston",
        &[("0,0,0 RedstoneWire", ""), ("1,0,0 Piston", ""), ("1,1,0 RedstoneWire", "")],
    ),
    table("a step up on nothing", &[("0,0,0 RedstoneWire", ""), ("1,1,0 RedstoneWire", "")]),
    table(
        "a step up on a block under the lower dust's cell",
        &[("0,1,0 RedstoneWire", ""), ("0,0,0 Solid", ""), ("1,2,0 RedstoneWire", "")],
    ),
    table(
        "steps up by six shapes",
        &[
            ("0,0,0 RedstoneWire", ""),
            ("1,0,0 Solid shape=bottom_slab", ""),
            ("1,1,0 RedstoneWire", ""),
            ("10,0,0 RedstoneWire", ""),
            ("11,0,0 Solid shape=top_slab", ""),
            ("11,1,0 RedstoneWire", "d"),
            ("20,0,0 RedstoneWire", "i"),
            ("21,0,0 Piston shape=double_slab", ""),
            ("21,1,0 RedstoneWire", "g"),
            ("30,0,0 RedstoneWire", ""),
            ("31,0,0 Solid shape=bottom_stairs", ""),
            ("31,1,0 RedstoneWire", ""),
            ("40,0,0 RedstoneWire", ""),
            ("41,0,0 Solid shape=top_stairs", ""),
            ("41,1,0 RedstoneWire", "m"),
            ("50,0,0 RedstoneWire", ""),
            ("51,0,0 Solid shape=glass", ""),
            ("51,1,0 RedstoneWire", "p"),
        ],
    ),
    table(
        "a solid block over the lower dust",
        &[("0,0,0 RedstoneWire", ""), ("0,1,0 Solid", ""), ("1,0,0 Solid", ""), ("1,1,0 RedstoneWire", "")],
    ),
    table(
        "a solid block over the lower dust, whose arm up is stored",
        &[
            ("0,0,0 RedstoneWire arms=East:Up", "d"),
            ("0,1,0 Solid", ""),
            ("1,0,0 Solid", ""),
            ("1,1,0 RedstoneWire", "a"),
        ],
    ),
    table(
        "a double slab over the lower dust",
        &[
            ("0,0,0 RedstoneWire", ""),
            ("0,1,0 Piston shape=double_slab", ""),
            ("1,0,0 Solid", ""),
            ("1,1,0 RedstoneWire", ""),
        ],
    ),
    table(
        "glass and a lamp over the lower dust",
        &[
            ("0,0,0 RedstoneWire", "d"),
            ("0,1,0 Solid shape=glass", ""),
            ("1,0,0 Solid", ""),
            ("1,1,0 RedstoneWire", "a"),
            ("10,0,0 RedstoneWire", "h"),
            ("10,1,0 RedstoneLamp", ""),
            ("11,0,0 Solid", ""),
            ("11,1,0 RedstoneWire", "e"),
        ],
    ),
    table(
        "a staircase",
        &[
            ("0,0,0 RedstoneWire", "c"),
            ("1,0,0 Solid", ""),
            ("1,1,0 RedstoneWire", "ae"),
            ("2,1,0 Solid", ""),
            ("2,2,0 RedstoneWire", "c"),
        ],
    ),
    table(
        "a staircase of top slabs, which leads up alone",
        &[
            ("0,0,0 RedstoneWire", ""),
            ("1,0,0 Solid shape=top_slab", ""),
            ("1,1,0 RedstoneWire", "a"),
            ("2,1,0 Solid shape=top_slab", ""),
            ("2,2,0 RedstoneWire", "c"),
        ],
    ),
    table(
        "a hill",
        &[
            ("-1,0,0 RedstoneWire", "c"),
            ("0,0,0 Solid", ""),
            ("0,1,0 RedstoneWire", "aef"),
            ("0,0,-1 Transparent", ""),
            ("1,0,0 RedstoneWire", "c"),
            ("0,0,1 RedstoneWire", "c"),
        ],
    ),
    table(
        "a pit",
        &[
            ("0,0,0 RedstoneWire", "cegi"),
            ("-1,0,0 Solid", ""),
            ("-1,1,0 RedstoneWire", "a"),
            ("0,0,-1 RedstoneLamp", ""),
            ("0,1,-1 RedstoneWire", "a"),
            ("0,0,1 Solid shape=double_slab", ""),
            ("0,1,1 RedstoneWire", "a"),
            ("1,0,0 Solid", ""),
            ("1,1,0 RedstoneWire", "a"),
        ],
    ),
    table(
        "a line that goes on over a step and beside it",
        &[
            ("-1,0,0 RedstoneWire", "b"),
            ("0,0,0 RedstoneWire", "ade"),
            ("1,0,0 Solid", ""),
            ("1,1,0 RedstoneWire", "bf"),
            ("0,0,1 RedstoneWire", "b"),
            ("2,1,0 RedstoneWire", "d"),
        ],
    ),
    table(
        "an arm None of one of two",
        &[("0,0,0 RedstoneWire arms=East:None", ""), ("1,0,0 RedstoneWire", "")],
    ),
    table(
        "an arm None to another side",
        &[("0,0,0 RedstoneWire arms=West:None", "b"), ("1,0,0 RedstoneWire", "a")],
    ),
    table(
        "a stored set without the entry",
        &[("0,0,0 RedstoneWire arms=North:Side", "b"), ("1,0,0 RedstoneWire arms=none", "a")],
    ),
    table(
        "a stored arm up towards dust beside",
        &[("0,0,0 RedstoneWire arms=East:Up", "b"), ("1,0,0 RedstoneWire arms=West:Side", "a")],
    ),
    table(
        "dust whose arms point past each other",
        &[
            ("0,0,0 RedstoneWire arms=North:Side,East:None,West:None", ""),
            ("1,0,0 RedstoneWire arms=West:None,South:Up", ""),
            ("2,0,0 RedstoneWire arms=North:Up,West:None", ""),
        ],
    ),
    table(
        "a stored Side at a step with a rise Up",
        &[("0,0,0 RedstoneWire arms=East:Side", ""), ("1,0,0 Solid", ""), ("1,1,0 RedstoneWire", "")],
    ),
    table(
        "a stored Side at a step with a rise Side",
        &[
            ("0,0,0 RedstoneWire arms=East:Side", ""),
            ("1,0,0 Solid shape=top_stairs", ""),
            ("1,1,0 RedstoneWire arms=West:None", "a"),
        ],
    ),
    table(
        "a stored Up at a step with a rise Side",
        &[
            ("0,0,0 RedstoneWire arms=East:Up", ""),
            ("1,0,0 Solid shape=top_slab", ""),
            ("1,1,0 RedstoneWire", ""),
        ],
    ),
    table(
        "a stored Up at a step of a block that connects",
        &[("0,0,0 RedstoneWire arms=East:Up", ""), ("1,0,0 RedstoneBlock", ""), ("1,1,0 RedstoneWire", "a")],
    ),
    table(
        "a stored None at a step",
        &[("0,0,0 RedstoneWire arms=East:None", ""), ("1,0,0 Solid", ""), ("1,1,0 RedstoneWire", "")],
    ),
    table(
        "arms stored in the upper dust do not matter at a step",
        &[
            ("0,0,0 RedstoneWire", "c"),
            ("1,0,0 Solid", ""),
            ("1,1,0 RedstoneWire arms=North:None,East:None,South:None,West:None", "a"),
        ],
    ),
    table(
        "a step on levers and repeaters that have a shape",
        &[
            ("0,0,0 RedstoneWire", ""),
            ("1,0,0 Lever shape=top_slab", ""),
            ("1,1,0 RedstoneWire", "a"),
            ("10,0,0 RedstoneWire", ""),
            ("11,0,0 Repeater facing=East shape=double_slab", ""),
            ("11,1,0 RedstoneWire", ""),
            ("20,0,0 RedstoneWire", "i"),
            ("21,0,0 Repeater facing=North shape=double_slab", ""),
            ("21,1,0 RedstoneWire", "g"),
        ],
    ),
    table(
        "dust with a shape as a step",
        &[
            ("0,0,0 RedstoneWire", "b"),
            ("1,0,0 RedstoneWire shape=top_slab", "a"),
            ("1,1,0 RedstoneWire", "a"),
        ],
    ),
    by_profile(
        "pistons that carry and drive dust",
        "profile Piston=17",
        &[("0,0,0 RedstoneWire", "c"), ("1,0,0 Piston", ""), ("1,1,0 RedstoneWire", "a")],
    ),
    by_profile(
        "pistons that drive dust and carry nothing",
        "profile Solid=31 Piston=30",
        &[("0,0,0 RedstoneWire", ""), ("1,0,0 Piston", ""), ("1,1,0 RedstoneWire", "")],
    ),
    by_profile(
        "solid blocks that carry, and drive no dust",
        "profile Solid=15",
        &[("0,0,0 RedstoneWire", ""), ("1,0,0 Solid", ""), ("1,1,0 RedstoneWire", "a")],
    ),
    by_profile(
        "bulbs that carry and drive dust",
        "profile CopperBulb=17",
        &[("0,0,0 RedstoneWire", "c"), ("1,0,0 CopperBulb", ""), ("1,1,0 RedstoneWire", "a")],
    ),
    by_profile("twelve that feed one", CARRYING_DUST, &TWELVE),
    table(
        "twelve around one, of which four feed it",
        &[
            ("0,0,0 RedstoneWire", "behk"),
            ("-1,0,0 RedstoneWire", "a"),
            ("-1,-1,0 RedstoneWire", ""),
            ("-1,1,0 RedstoneWire", ""),
            ("0,0,-1 RedstoneWire", "a"),
            ("0,-1,-1 RedstoneWire", ""),
            ("0,1,-1 RedstoneWire", ""),
            ("0,0,1 RedstoneWire", "a"),
            ("0,-1,1 RedstoneWire", ""),
            ("0,1,1 RedstoneWire", ""),
            ("1,0,0 RedstoneWire", "a"),
            ("1,-1,0 RedstoneWire", ""),
            ("1,1,0 RedstoneWire", ""),
        ],
    ),
    table(
        "dust at the ends of the ground",
        &[
            ("-1000000,-1000000,-1000000 RedstoneWire", "c"),
            ("-999999,-1000000,-1000000 Solid", ""),
            ("-999999,-999999,-1000000 RedstoneWire", "a"),
            ("999999,1000000,1000000 RedstoneWire", "e"),
            ("1000000,1000000,1000000 RedstoneWire", "d"),
            ("1000000,-1000000,1000000 RedstoneWire", ""),
            ("-1000000,1000000,1000000 RedstoneWire", ""),
        ],
    ),
];

/// By it dust carries dust, and drives it.
const CARRYING_DUST: &str = "profile Solid=31 RedstoneWire=17";

/// A dust between dust at the twelve positions around it, all of which it feeds and is fed by.
const TWELVE: [(&str, &str); 14] = [
    ("0,0,0 RedstoneWire arms=North:Up,East:Up,South:Up,West:Up", "bcdefghijklm"),
    ("-1,0,0 RedstoneWire", "a"),
    ("-1,-1,0 RedstoneWire", "a"),
    ("-1,1,0 RedstoneWire", "a"),
    ("0,0,-1 RedstoneWire", "a"),
    ("0,-1,-1 RedstoneWire", "a"),
    ("0,1,-1 RedstoneWire", "a"),
    ("0,0,1 RedstoneWire", "a"),
    ("0,-1,1 RedstoneWire", "a"),
    ("0,1,1 RedstoneWire", "a"),
    ("1,0,0 RedstoneWire", "a"),
    ("1,-1,0 RedstoneWire", "a"),
    ("1,1,0 RedstoneWire", "a"),
    ("0,-1,0 Solid", ""),
];

const fn table(what: &'static str, rows: &'static [(&'static str, &'static str)]) -> ByHand {
    by_profile(what, "", rows)
}

const fn by_profile(
    what: &'static str,
    profile: &'static str,
    rows: &'static [(&'static str, &'static str)],
) -> ByHand {
    ByHand { what, profile, rows }
}

pub const REPLACEMENTS: [Replaced; 28] = [
    replacement(
        "the middle of a line becomes a piston",
        ("d", "3,0,0 Piston"),
        "bcdef",
        &[
            ("0,0,0 RedstoneWire", ["b", "b"]),
            ("1,0,0 RedstoneWire", ["ac", "ac"]),
            ("2,0,0 RedstoneWire", ["bd", "b"]),
            ("3,0,0 RedstoneWire", ["ce", ""]),
            ("4,0,0 RedstoneWire", ["df", "f"]),
            ("5,0,0 RedstoneWire", ["eg", "eg"]),
            ("6,0,0 RedstoneWire", ["f", "f"]),
        ],
    ),
    replacement(
        "a piston in a line becomes dust",
        ("d", "3,0,0 RedstoneWire"),
        "bcdef",
        &[
            ("0,0,0 RedstoneWire", ["b", "b"]),
            ("1,0,0 RedstoneWire", ["ac", "ac"]),
            ("2,0,0 RedstoneWire", ["b", "bd"]),
            ("3,0,0 Piston", ["", "ce"]),
            ("4,0,0 RedstoneWire", ["f", "df"]),
            ("5,0,0 RedstoneWire", ["eg", "eg"]),
            ("6,0,0 RedstoneWire", ["f", "f"]),
        ],
    ),
    replacement(
        "a dust of a line stays as it is",
        ("d", "3,0,0 RedstoneWire"),
        "bcdef",
        &[
            ("0,0,0 RedstoneWire", ["b", "b"]),
            ("1,0,0 RedstoneWire", ["ac", "ac"]),
            ("2,0,0 RedstoneWire", ["bd", "bd"]),
            ("3,0,0 RedstoneWire", ["ce", "ce"]),
            ("4,0,0 RedstoneWire", ["df", "df"]),
            ("5,0,0 RedstoneWire", ["eg", "eg"]),
            ("6,0,0 RedstoneWire", ["f", "f"]),
        ],
    ),
    replacement(
        "a dust of a line loses an arm",
        ("d", "3,0,0 RedstoneWire arms=West:None"),
        "bcdef",
        &[
            ("0,0,0 RedstoneWire", ["b", "b"]),
            ("1,0,0 RedstoneWire", ["ac", "ac"]),
            ("2,0,0 RedstoneWire", ["bd", "b"]),
            ("3,0,0 RedstoneWire", ["ce", "e"]),
            ("4,0,0 RedstoneWire", ["df", "df"]),
            ("5,0,0 RedstoneWire", ["eg", "eg"]),
            ("6,0,0 RedstoneWire", ["f", "f"]),
        ],
    ),
    replacement(
        "a dust of a line gets its arms back",
        ("b", "1,0,0 RedstoneWire arms=none powered=true"),
        "abcd",
        &[
            ("0,0,0 RedstoneWire", ["", "b"]),
            ("1,0,0 RedstoneWire arms=East:None,West:None", ["", "ac"]),
            ("2,0,0 RedstoneWire", ["d", "bd"]),
            ("3,0,0 RedstoneWire", ["ce", "ce"]),
            ("4,0,0 RedstoneWire", ["d", "d"]),
        ],
    ),
    replacement(
        "the first of a line becomes a lever",
        ("a", "0,0,0 Lever powered=true"),
        "abc",
        &[
            ("0,0,0 RedstoneWire", ["b", ""]),
            ("1,0,0 RedstoneWire", ["ac", "c"]),
            ("2,0,0 RedstoneWire", ["bd", "bd"]),
            ("3,0,0 RedstoneWire", ["c", "c"]),
        ],
    ),
    replacement(
        "the last of a line becomes a comparator",
        ("d", "3,0,0 Comparator facing=West level=15"),
        "bcd",
        &[
            ("0,0,0 RedstoneWire", ["b", "b"]),
            ("1,0,0 RedstoneWire", ["ac", "ac"]),
            ("2,0,0 RedstoneWire", ["bd", "b"]),
            ("3,0,0 RedstoneWire", ["c", ""]),
        ],
    ),
    replacement(
        "the middle of a cross becomes a redstone block",
        ("a", "0,0,0 RedstoneBlock"),
        "abcdefg",
        &[
            ("0,0,0 RedstoneWire", ["bcde", ""]),
            ("-1,0,0 RedstoneWire", ["a", ""]),
            ("0,0,-1 RedstoneWire", ["a", ""]),
            ("0,0,1 RedstoneWire", ["a", ""]),
            ("1,0,0 RedstoneWire", ["af", "f"]),
            ("2,0,0 RedstoneWire", ["eh", "eh"]),
            ("0,2,0 RedstoneWire", ["", ""]),
            ("3,0,0 RedstoneWire", ["f", "f"]),
        ],
    ),
    replacement(
        "the block of a step becomes transparent",
        ("b", "1,0,0 Transparent"),
        "abc",
        &[("0,0,0 RedstoneWire", ["c", ""]), ("1,0,0 Solid", ["", ""]), ("1,1,0 RedstoneWire", ["a", "a"])],
    ),
    replacement(
        "the block of a step becomes a bottom slab",
        ("b", "1,0,0 Solid shape=bottom_slab"),
        "abc",
        &[("0,0,0 RedstoneWire", ["c", ""]), ("1,0,0 Solid", ["", ""]), ("1,1,0 RedstoneWire", ["a", ""])],
    ),
    replacement(
        "the block of a step becomes dust",
        ("b", "1,0,0 RedstoneWire"),
        "abc",
        &[("0,0,0 RedstoneWire", ["c", "b"]), ("1,0,0 Solid", ["", "a"]), ("1,1,0 RedstoneWire", ["a", ""])],
    ),
    replacement(
        "dust that is a step becomes a top slab",
        ("b", "1,0,0 RedstoneWire shape=top_slab"),
        "abc",
        &[
            ("0,0,0 RedstoneWire", ["b", "b"]),
            ("1,0,0 RedstoneWire", ["a", "a"]),
            ("1,1,0 RedstoneWire", ["", "a"]),
        ],
    ),
    replacement(
        "a bulb in a step becomes a lamp",
        ("b", "1,0,0 RedstoneLamp"),
        "abc",
        &[
            ("0,0,0 RedstoneWire", ["", "c"]),
            ("1,0,0 CopperBulb", ["", ""]),
            ("1,1,0 RedstoneWire", ["a", "a"]),
        ],
    ),
    replacement(
        "the dust on a step becomes a bulb",
        ("c", "1,1,0 CopperBulb powered=true"),
        "ac",
        &[("0,0,0 RedstoneWire", ["c", ""]), ("1,0,0 Solid", ["", ""]), ("1,1,0 RedstoneWire", ["a", ""])],
    ),
    replacement(
        "the block over the lower dust becomes solid",
        ("d", "0,1,0 Solid"),
        "acd",
        &[
            ("0,0,0 RedstoneWire", ["c", ""]),
            ("1,0,0 Solid", ["", ""]),
            ("1,1,0 RedstoneWire", ["a", ""]),
            ("0,1,0 Transparent", ["", ""]),
        ],
    ),
    replacement(
        "a repeater in a step is turned",
        ("b", "1,0,0 Repeater facing=South shape=double_slab"),
        "abc",
        &[
            ("0,0,0 RedstoneWire", ["", "c"]),
            ("1,0,0 Repeater facing=East shape=double_slab", ["", ""]),
            ("1,1,0 RedstoneWire", ["", "a"]),
        ],
    ),
    replacement(
        "the middle of a staircase becomes a piston",
        ("c", "1,1,0 Piston"),
        "aceg",
        &[
            ("0,0,0 RedstoneWire", ["c", ""]),
            ("1,0,0 Solid", ["", ""]),
            ("1,1,0 RedstoneWire", ["ae", ""]),
            ("2,1,0 Solid", ["", ""]),
            ("2,2,0 RedstoneWire", ["cg", "g"]),
            ("3,2,0 Solid", ["", ""]),
            ("3,3,0 RedstoneWire", ["ei", "ei"]),
            ("4,3,0 Solid", ["", ""]),
            ("4,4,0 RedstoneWire", ["g", "g"]),
        ],
    ),
    replacement(
        "a dust alone becomes a block",
        ("a", "0,0,0 Solid"),
        "a",
        &[("0,0,0 RedstoneWire", ["", ""])],
    ),
    replacement("a block alone becomes dust", ("a", "0,0,0 RedstoneWire"), "a", &[("0,0,0 Solid", ["", ""])]),
    replacement(
        "a block among blocks",
        (
            "b",
            "0,1,0 Piston facing=Up powered=true level=200 delay=9 support=1,1,1 arms=North:Up shape=glass mode=subtract",
        ),
        "b",
        &[
            ("0,0,0 Lever", ["", ""]),
            ("0,1,0 Solid", ["", ""]),
            ("0,2,0 RedstoneLamp", ["", ""]),
            ("1,1,0 Repeater facing=East", ["", ""]),
        ],
    ),
    replacement(
        "a torch beside dust becomes a button",
        ("b", "1,0,0 Button"),
        "abc",
        &[
            ("0,0,0 RedstoneWire", ["c", "c"]),
            ("1,0,0 RedstoneTorch", ["", ""]),
            ("-1,0,0 RedstoneWire", ["ad", "ad"]),
            ("-2,0,0 RedstoneWire", ["c", "c"]),
            ("1,0,1 Lever", ["", ""]),
        ],
    ),
    replacement(
        "a lamp two and three cells from dust",
        ("a", "0,0,0 RedstoneLamp"),
        "abdfhj",
        &TWO_AND_THREE,
    ),
    replacement("dust two and three cells from dust", ("a", "0,0,0 RedstoneWire"), "abdfhj", &TWO_AND_THREE),
    replacement(
        "a lever far from dust",
        ("a", "0,0,0 Button"),
        "a",
        &[
            ("0,0,0 Lever", ["", ""]),
            ("256,0,0 RedstoneWire", ["c", "c"]),
            ("257,0,0 RedstoneWire", ["b", "b"]),
            ("0,65536,1 RedstoneWire", ["", ""]),
            ("-65535,65536,-65536 RedstoneWire", ["", ""]),
        ],
    ),
    Replaced {
        what: "the one that twelve feed becomes solid",
        profile: CARRYING_DUST,
        rows: &[
            ("0,0,0 RedstoneWire arms=North:Up,East:Up,South:Up,West:Up", ["bcdefghijklm", ""]),
            ("-1,0,0 RedstoneWire", ["a", ""]),
            ("-1,-1,0 RedstoneWire", ["a", ""]),
            ("-1,1,0 RedstoneWire", ["a", ""]),
            ("0,0,-1 RedstoneWire", ["a", ""]),
            ("0,-1,-1 RedstoneWire", ["a", ""]),
            ("0,1,-1 RedstoneWire", ["a", ""]),
            ("0,0,1 RedstoneWire", ["a", ""]),
            ("0,-1,1 RedstoneWire", ["a", ""]),
            ("0,1,1 RedstoneWire", ["a", ""]),
            ("1,0,0 RedstoneWire", ["a", ""]),
            ("1,-1,0 RedstoneWire", ["a", ""]),
            ("1,1,0 RedstoneWire", ["a", ""]),
            ("0,-1,0 Solid", ["", ""]),
        ],
        new_row: ("a", "0,0,0 Solid"),
        afresh: "abcdefghijklm",
    },
    Replaced {
        what: "the block under the one that twelve feed becomes transparent",
        profile: CARRYING_DUST,
        rows: &[
            ("0,0,0 RedstoneWire arms=North:Up,East:Up,South:Up,West:Up", ["bcdefghijklm", "bdeghjkm"]),
            ("-1,0,0 RedstoneWire", ["a", "a"]),
            ("-1,-1,0 RedstoneWire", ["a", ""]),
            ("-1,1,0 RedstoneWire", ["a", "a"]),
            ("0,0,-1 RedstoneWire", ["a", "a"]),
            ("0,-1,-1 RedstoneWire", ["a", ""]),
            ("0,1,-1 RedstoneWire", ["a", "a"]),
            ("0,0,1 RedstoneWire", ["a", "a"]),
            ("0,-1,1 RedstoneWire", ["a", ""]),
            ("0,1,1 RedstoneWire", ["a", "a"]),
            ("1,0,0 RedstoneWire", ["a", "a"]),
            ("1,-1,0 RedstoneWire", ["a", ""]),
            ("1,1,0 RedstoneWire", ["a", "a"]),
            ("0,-1,0 Solid", ["", ""]),
        ],
        new_row: ("n", "0,-1,0 Transparent"),
        afresh: "abcdefghijklmn",
    },
    replacement(
        "the high end of the ground",
        ("a", "1000000,1000000,1000000 RedstoneBlock"),
        "abc",
        &[
            ("1000000,1000000,1000000 RedstoneWire", ["b", ""]),
            ("999999,1000000,1000000 RedstoneWire", ["ac", "c"]),
            ("999998,1000000,1000000 RedstoneWire", ["bd", "bd"]),
            ("999997,1000000,1000000 RedstoneWire", ["c", "c"]),
            ("-1000000,1000000,1000000 RedstoneWire", ["", ""]),
        ],
    ),
    replacement(
        "the low end of the ground",
        ("b", "-999999,-1000000,-1000000 Solid shape=glass"),
        "abc",
        &[
            ("-1000000,-1000000,-1000000 RedstoneWire", ["c", ""]),
            ("-999999,-1000000,-1000000 Solid", ["", ""]),
            ("-999999,-999999,-1000000 RedstoneWire", ["a", "a"]),
            ("-999999,-999999,1000000 RedstoneWire", ["", ""]),
            ("-999999,1000000,-1000000 RedstoneWire", ["", ""]),
        ],
    ),
];

/// A block, and around it dust two cells away and three, and other rows nearer.
const TWO_AND_THREE: [(&str, [&str; 2]); 16] = [
    ("0,0,0 Solid", ["", ""]),
    ("2,0,0 RedstoneWire", ["c", "c"]),
    ("3,0,0 RedstoneWire", ["b", "b"]),
    ("0,2,0 RedstoneWire", ["", ""]),
    ("0,3,0 RedstoneWire", ["", ""]),
    ("0,0,2 RedstoneWire", ["g", "g"]),
    ("0,0,3 RedstoneWire", ["f", "f"]),
    ("2,2,2 RedstoneWire", ["i", "i"]),
    ("2,2,3 RedstoneWire", ["h", "h"]),
    ("-2,-2,-2 RedstoneWire", ["k", "k"]),
    ("-2,-2,-3 RedstoneWire", ["j", "j"]),
    ("2,-2,3 RedstoneWire", ["", ""]),
    ("3,3,3 RedstoneWire", ["", ""]),
    ("1,1,1 Solid", ["", ""]),
    ("2,1,2 Lever", ["", ""]),
    ("0,-1,0 Repeater facing=East", ["", ""]),
];

const fn replacement(
    what: &'static str,
    new_row: (&'static str, &'static str),
    afresh: &'static str,
    rows: &'static [(&'static str, [&'static str; 2])],
) -> Replaced {
    Replaced { what, profile: "", rows, new_row, afresh }
}
