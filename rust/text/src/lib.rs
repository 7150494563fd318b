//! Tables of blocks as text, read and written.
//!
//! ```
//! use redstone_text::Table;
//!
//! let text = "\
//! blocks=2
//! 0,0,0 RedstoneLamp
//! 0,1,0 Lever support=0,-1,0 powered=true  # thrown
//! ";
//! let table: Table = text.parse()?;
//! assert_eq!(table.rows[1].powered(), Some(true));
//! assert_eq!(table.to_string().parse(), Ok(table));
//!
//! let error = text.replace("Lever", "Levr").parse::<Table>().unwrap_err();
//! assert_eq!(error.to_string(), r#"line 3, column 7: found "Levr", expected a kind: did you mean Lever?"#);
//! # Ok::<(), redstone_text::Error>(())
//! ```
//!
//! # The form
//!
//! A line is words with blanks between them. `#` begins a comment, and a line without words says nothing.
//!
//! - `0,1,0 Lever support=0,-1,0` is a row: the position, the kind, and the fields that are given, in any order and
//!   each once. Rows stand in any order, each position once, and are read in the table's order, which is by x, then y,
//!   then z.
//! - `blocks=2` is the number of rows, and may be left out. Where it stands the last line has to be ended as well, so
//!   that a text that was cut anywhere is refused. A text without rows has to say `blocks=0`.
//! - `profile Solid=31 Transparent=1` is the profile by kinds; those that it leaves out have 0. It has 13 bytes, or 14
//!   where it has `CopperBulb=`, even with 0: then alone may the rows be bulbs. Without this line it is
//!   [the bench's with the bulb](redstone::BENCH_PROFILE_WITH_BULB), of 14. `RedstoneTorch=32` in it has lit torches
//!   [charge the block above](redstone::TORCH_CHARGES_ABOVE).
//!
//! `blocks=` and `profile` stand before the rows. The fields are those of [`Row`](redstone::Row):
//!
//! | field | values |
//! |---|---|
//! | `facing=` | `North`, `East`, `South`, `West`, `Up`, `Down` |
//! | `support=` | the step `dx,dy,dz`, each -1, 0 or 1 |
//! | `powered=` | `true`, `false` |
//! | `level=`, `delay=` | 0 to 255; no call accepts a comparator's level above [15](redstone::MOST_LEVEL) |
//! | `arms=` | `North:Side,East:Up`, of `None`, `Side` and `Up`; a side left out has no entry, and `none` is no entry at all |
//! | `shape=` | `plain`, `bottom_slab`, `top_slab`, `double_slab`, `bottom_stairs`, `top_stairs`, `glass` |
//! | `mode=` | `compare`, `subtract` |
//!
//! What is written of a table is the shortest text that is read as the same table, with its `blocks=`. A coordinate may
//! be any of 32 bits: one past the [farthest](redstone::FARTHEST) is for the calls to refuse, as is all else that can
//! be written and that no call accepts.
//!
//! # Other lines
//!
//! A text may have lines of its reader's own beside the table's. [`TableReader`] takes a text line by line and gives
//! back those that are not a table's, and [`Step`] reads the lines of a run, `tick 3` and `switch 0,1,0 on`. A reader of
//! other lines takes them apart by [`Line::words`] and the readers of [`Word`], whose errors have their place.
//!
//! ```
//! use redstone_text::{Error, Step, Table, TableReader, lines};
//!
//! fn read(text: &str) -> Result<(Table, Vec<Step>), Error> {
//!     let (mut table, mut steps) = (TableReader::new(), Vec::new());
//!     for line in lines(text) {
//!         if table.read(line)? {
//!             continue;
//!         }
//!         match Step::read(line)? {
//!             Some(step) => steps.push(step),
//!             None => return Err(line.unknown(&[TableReader::WORDS, Step::WORDS].concat())),
//!         }
//!     }
//!     Ok((table.table()?, steps))
//! }
//!
//! let (table, steps) = read("0,1,0 Lever\nswitch 0,1,0 on\ntick 3\n")?;
//! assert_eq!((table.rows.len(), steps[1]), (1, Step::Tick(3)));
//!
//! let error = read("0,1,0 Lever\nswich 0,1,0 on\n").unwrap_err();
//! assert_eq!((error.line(), error.column(), error.nearest()), (2, 1, Some("switch")));
//! # Ok::<(), Error>(())
//! ```

#![forbid(unsafe_code)]
#![warn(missing_docs)]

mod error;
mod line;
mod nearest;
mod row;
mod step;
mod table;

pub use error::Error;
pub use line::{Line, Word, Words, lines};
pub use nearest::nearest;
pub use row::{arms_text, position_text, read_row, row_text, shape_name};
pub use step::Step;
pub use table::{Table, TableReader};
