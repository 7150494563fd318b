//! The document's entries, its table of risks and its checklist, held against each other.

use std::collections::{BTreeMap, BTreeSet};

use redstone_text::{Line, Word, lines};

use super::Fault;
use super::document::entry;

/// The risks, the highest first, each with the part in which its entries stand.
const RISKS: [(&str, &str); 4] =
    [("high", "High risk"), ("middle", "Middle risk"), ("low", "Low risk"), ("apart", "Of another sort")];
const DIRECTIONS: [&str; 5] = ["+", "-", "timing", "support", "input"];
/// Of these parts the checklist names every entry.
const CHECKED: [&str; 2] = ["High risk", "Middle risk"];

/// The number of entries. The table of risks is to have each of them once, the highest risks first, and the checklist
/// those of the parts that it is to name.
pub fn check_risks(document: &str) -> Result<usize, Fault> {
    let lines = placed(document);
    let entries = entries(&lines)?;
    check_table(&entries, in_part("By risk", &lines))?;
    check_list(&entries, in_part("Checklist", &lines))?;
    Ok(entries.len())
}

/// A line with the heading of the part that it stands in.
type Placed<'a> = (&'a str, Line<'a>);

fn placed(document: &str) -> Vec<Placed<'_>> {
    let mut part = "";
    let mut placed = Vec::new();
    for line in lines(document) {
        part = line.text.strip_prefix("## ").unwrap_or(part);
        placed.push((part, line));
    }
    placed
}

fn in_part<'a>(part: &str, lines: &[Placed<'a>]) -> Vec<Line<'a>> {
    lines.iter().filter(|(other, _)| *other == part).map(|(_, line)| *line).collect()
}

struct Entry<'a> {
    part: &'a str,
    heading: Line<'a>,
    title: &'a str,
}

/// The entries by their numbers.
type Entries<'a> = BTreeMap<u32, Entry<'a>>;

fn entries<'a>(lines: &[Placed<'a>]) -> Result<Entries<'a>, Fault> {
    let mut entries = BTreeMap::new();
    for &(part, heading) in lines {
        if let Some((number, title)) = entry(heading)? {
            entries.insert(number, Entry { part, heading, title });
        }
    }
    Ok(entries)
}

fn check_table(entries: &Entries, lines: Vec<Line>) -> Result<(), Fault> {
    let mut left: BTreeSet<_> = entries.keys().collect();
    let mut last = 0;
    for line in lines.into_iter().filter(|line| line.text.starts_with('|')).skip(2) {
        let (risk, number) = row(entries, line)?;
        if !left.remove(&number) {
            return Err(Fault::at(line, format!("entry {number} stands in the table twice")));
        }
        if risk < last {
            return Err(Fault::at(line, "a lower risk stands above this one"));
        }
        last = risk;
    }
    match left.first() {
        Some(number) => {
            Err(Fault::at(entries[number].heading, "the table of risks does not have this entry"))
        }
        None => Ok(()),
    }
}

/// The risk, counted from the highest, and the number of the entry.
fn row(entries: &Entries, line: Line) -> Result<(usize, u32), Fault> {
    let cells: Vec<_> = line.whole().split('|').map(Word::trim).collect();
    let [_, risk, number, directions, title, _] = cells[..] else {
        return Err(Fault::at(line, "a row has a risk, a number, directions and a title"));
    };
    let risks = RISKS.iter().enumerate().map(|(at, (risk, part))| (*risk, (at, *part)));
    let (risk, part) = risk.one_of("a risk", risks)?;
    for direction in directions.split(',').map(Word::trim) {
        direction.one_of("a direction", DIRECTIONS.map(|known| (known, ())))?;
    }
    let of = number.number(1..=u32::MAX)?;
    let entry = entries.get(&of).ok_or_else(|| number.expected("the number of an entry"))?;
    if (entry.title, entry.part) != (title.text, part) {
        let what = format!("entry {of} is {:?} and stands in {:?}", entry.title, entry.part);
        return Err(Fault::at(line, what));
    }
    Ok((risk, of))
}

fn check_list(entries: &Entries, lines: Vec<Line>) -> Result<(), Fault> {
    let mut named = BTreeSet::new();
    for (first, item) in items(lines) {
        let numbers = numbers_of(&item);
        for of in numbers.ok_or_else(|| Fault::at(first, "the item does not end with numbers in brackets"))? {
            if !entries.contains_key(&of) {
                return Err(Fault::at(first, format!("there is no entry {of}")));
            }
            named.insert(of);
        }
    }
    let left = entries.iter().find(|(of, entry)| CHECKED.contains(&entry.part) && !named.contains(of));
    match left {
        Some((_, entry)) => Err(Fault::at(entry.heading, "the checklist does not name this entry")),
        None => Ok(()),
    }
}

/// Each item's first line, and its text.
fn items(lines: Vec<Line>) -> Vec<(Line, String)> {
    let mut items: Vec<(Line, String)> = Vec::new();
    for line in lines {
        if line.text.starts_with("- [ ] ") {
            items.push((line, line.text.to_owned()));
        } else if let (Some((_, item)), Some(more)) = (items.last_mut(), line.text.strip_prefix(' ')) {
            item.push_str(more);
        }
    }
    items
}

/// The numbers between brackets at the end of an item.
fn numbers_of(item: &str) -> Option<Vec<u32>> {
    let (_, numbers) = item.strip_suffix(").")?.rsplit_once('(')?;
    numbers.split(", ").map(|number| number.parse().ok()).collect()
}
