//! The document, read: its numbered headings, its tables, and the answers that are written under them.

use std::collections::BTreeSet;
use std::iter::from_fn;

use redstone_text::{Line, Step, Table, lines};

use super::Fault;
use crate::generate::Case;
use crate::table::Position;

/// A table, and what is written of it.
pub struct Example<'a> {
    pub table: Table,
    pub answers: Vec<Written<'a>>,
}

impl Example<'_> {
    pub fn case(&self) -> Case {
        Case::new("docs/DIFFERENCES.md", &self.table.profile[..], self.table.rows.iter().copied())
    }
}

/// A block of answers: its word, and its lines.
pub struct Written<'a> {
    pub word: Line<'a>,
    pub sort: Sort,
    pub lines: Vec<Line<'a>>,
}

impl Written<'_> {
    /// Whether the bench has no answer of this sort.
    pub fn is_of_the_original(&self) -> bool {
        matches!(self.sort, Sort::Original)
    }
}

pub enum Sort {
    /// What the program `settle` writes.
    Output,
    /// What each line of a run does or shows.
    Run(Vec<Turn>),
    /// The arms of each dust after the redraw.
    Redrawn,
    /// The rows of the support list.
    Unsupported,
    /// The rows that clearing takes out, pass by pass.
    Cleared,
    /// What the original settles to, whatever the bench refuses.
    Original,
}

/// A line of a run.
#[derive(Clone, Copy)]
pub enum Turn {
    Done(Step),
    /// Of the row of this number.
    Shown(Shown, usize),
}

#[derive(Clone, Copy)]
pub enum Shown {
    Row,
    Device,
    Lamp,
    Candidate,
    HadPower,
}

const SHOWN: [(&str, Shown); 5] = [
    ("row", Shown::Row),
    ("device", Shown::Device),
    ("lamp", Shown::Lamp),
    ("candidate", Shown::Candidate),
    ("had_power", Shown::HadPower),
];

/// The tables of a document, of which it has at least one, and one under the heading of each entry.
pub fn examples(document: &str) -> Result<Vec<Example<'_>>, Fault> {
    let parts = parts(document)?;
    check_headings(&parts)?;
    let mut blocks = parts.into_iter().filter_map(Part::block).peekable();
    let mut examples = Vec::new();
    while let Some(block) = blocks.next() {
        let table = table(&block)?;
        let answers = from_fn(|| blocks.next_if(|block| block.word.text != TABLE));
        let answers: Vec<_> = answers.map(|block| written(block, &table)).collect::<Result<_, _>>()?;
        if answers.is_empty() {
            return Err(Fault::at(block.word, "the table has no answer"));
        }
        examples.push(Example { table, answers });
    }
    if examples.is_empty() {
        return Err(Fault::new(1, "there is no table in the document"));
    }
    Ok(examples)
}

const FENCE: &str = "```";
const TABLE: &str = "table";

enum Part<'a> {
    Heading(Line<'a>),
    Block(Block<'a>),
}

/// What stands between a line of three back quotes with a word and one without.
struct Block<'a> {
    word: Line<'a>,
    lines: Vec<Line<'a>>,
}

impl<'a> Part<'a> {
    fn block(self) -> Option<Block<'a>> {
        match self {
            Self::Heading(_) => None,
            Self::Block(block) => Some(block),
        }
    }
}

fn parts(document: &str) -> Result<Vec<Part<'_>>, Fault> {
    let mut parts = Vec::new();
    let mut lines = lines(document);
    while let Some(line) = lines.next() {
        if let Some(text) = line.text.strip_prefix(FENCE) {
            let word = Line { text, ..line };
            parts.push(Part::Block(Block { word, lines: body(word, &mut lines)? }));
        } else if line.text.trim_start().starts_with(FENCE) {
            return Err(Fault::at(line, "a block begins at the start of a line"));
        } else if line.text.starts_with('#') {
            parts.push(Part::Heading(line));
        }
    }
    Ok(parts)
}

/// The lines up to the one that ends a block.
fn body<'a>(word: Line<'a>, lines: &mut impl Iterator<Item = Line<'a>>) -> Result<Vec<Line<'a>>, Fault> {
    let mut body = Vec::new();
    for line in lines {
        if line.text == FENCE {
            return Ok(body);
        }
        body.push(line);
    }
    Err(Fault::at(word, "the block has no end"))
}

/// Each entry has a number of its own, and a table under it.
fn check_headings(parts: &[Part]) -> Result<(), Fault> {
    let mut numbers = BTreeSet::new();
    for (at, part) in parts.iter().enumerate() {
        let Part::Heading(line) = part else { continue };
        let Some((number, _)) = entry(*line)? else { continue };
        if !numbers.insert(number) {
            return Err(Fault::at(*line, format!("the number {number} stands twice")));
        }
        if !matches!(parts.get(at + 1), Some(Part::Block(block)) if block.word.text == TABLE) {
            return Err(Fault::at(*line, "no table stands under the heading"));
        }
    }
    Ok(())
}

/// The number and the title of an entry, if the line is the heading of one.
pub fn entry(line: Line<'_>) -> Result<Option<(u32, &str)>, Fault> {
    let Some(heading) = line.text.strip_prefix("### ") else { return Ok(None) };
    let numbered = heading.split_once(". ").and_then(|(number, title)| Some((number.parse().ok()?, title)));
    numbered.map(Some).ok_or_else(|| Fault::at(line, "the heading has no number"))
}

/// The table of a block, whose lines are to stand as they are printed, in any order.
fn table(block: &Block) -> Result<Table, Fault> {
    if block.word.text != TABLE {
        return Err(Fault::at(block.word, "no table stands before this block"));
    }
    if block.lines.is_empty() {
        return Err(Fault::at(block.word, "the table has no lines"));
    }
    let table = Table::read(block.lines.iter().copied())?;
    let printed = table.to_string();
    match block.lines.iter().find(|line| printed.lines().all(|other| other != line.text)) {
        Some(line) => Err(Fault::at(*line, format!("the block's lines are to be among\n{printed}"))),
        None => Ok(table),
    }
}

fn written<'a>(Block { word, lines }: Block<'a>, table: &Table) -> Result<Written<'a>, Fault> {
    let sort = match word.text {
        "output" => Sort::Output,
        "run" => Sort::Run(run(word, &lines, table)?),
        "redrawn" => Sort::Redrawn,
        "unsupported" => Sort::Unsupported,
        "cleared" => Sort::Cleared,
        "original" => Sort::Original,
        other => return Err(Fault::at(word, format!("{other:?} is no word for a block"))),
    };
    Ok(Written { word, sort, lines })
}

fn run(word: Line, lines: &[Line], table: &Table) -> Result<Vec<Turn>, Fault> {
    let turns: Vec<_> = lines.iter().map(|line| turn(*line, table)).collect::<Result<_, _>>()?;
    match turns.last() {
        Some(Turn::Shown(..)) => Ok(turns),
        _ => Err(Fault::at(word, "the run does not end with something shown")),
    }
}

fn turn(line: Line, table: &Table) -> Result<Turn, Fault> {
    let step = Step::read(line)?;
    if let Some(Step::Switch { position, .. }) = step {
        row_at(line, table, position)?;
    }
    step.map_or_else(|| shown(line, table), |step| Ok(Turn::Done(step)))
}

fn shown(line: Line, table: &Table) -> Result<Turn, Fault> {
    const EXPECTED: &str = "a step, or something shown";
    let word = line.words().expect(EXPECTED)?;
    let (name, numbers) = word.split_once('=').ok_or_else(|| word.expected(EXPECTED))?;
    let shown = name.one_of("something shown", SHOWN)?;
    let any = i32::MIN..=i32::MAX;
    let position = match shown {
        Shown::Row => numbers.numbers(any, "x,y,z,signal,weak,strong").map(|[x, y, z, _, _, _]| [x, y, z]),
        _ => numbers.numbers(any, "x,y,z,byte").map(|[x, y, z, _]| [x, y, z]),
    };
    Ok(Turn::Shown(shown, row_at(line, table, position?)?))
}

fn row_at(line: Line, table: &Table, at: Position) -> Result<usize, Fault> {
    table.find(at).ok_or_else(|| Fault::at(line, format!("the table has no row at {at:?}")))
}
