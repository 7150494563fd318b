//! A picture of a tick in text, layer by layer.

use std::collections::{BTreeMap, BTreeSet};
use std::fmt::Write;

use redstone::{Facing, Kind, Row, Shape};

use crate::chart::level_digit;
use crate::device::{SORTS, States, place};
use crate::grid::{Layer, layers};
use crate::name::{is_switch, kind_name};
use crate::run::Frame;

/// The most signs that stand side by side.
const WIDEST: usize = 78;

/// The layers of a frame from the lowest on, North up and West left, and a legend of the signs that they have.
#[must_use]
pub fn picture(rows: &[Row], frame: &Frame, unsupported: &[usize]) -> String {
    let mut legend = Legend::default();
    let mut signs: Vec<_> =
        rows.iter().enumerate().map(|(number, row)| sign(row, frame, number, &mut legend)).collect();
    for &number in unsupported {
        signs[number] += legend.mark("!", "nothing holds it up, by the support list");
    }
    let mut widths = BTreeMap::new();
    for (row, sign) in rows.iter().zip(&signs) {
        let width: &mut usize = widths.entry(row.position()[0]).or_default();
        *width = sign.len().max(*width);
    }
    let mut text = String::new();
    for layer in layers(rows) {
        draw(&mut text, &layer, &signs, &widths);
    }
    text + &legend.text()
}

/// One layer, in bands that are not too wide. Each x has its width in all layers.
fn draw(text: &mut String, layer: &Layer, signs: &[String], widths: &BTreeMap<i32, usize>) {
    let label = layer.zs.clone().map(|z| z.to_string().len()).max().unwrap_or(1) + 2;
    let width = |x: i32| 1 + widths.get(&x).copied().unwrap_or(1);
    let mut columns = layer.xs.clone().peekable();
    while let Some(&first) = columns.peek() {
        let (mut band, mut taken) = (Vec::new(), label);
        while let Some(x) = columns.next_if(|x| band.is_empty() || taken + width(*x) <= WIDEST) {
            taken += width(x);
            band.push(x);
        }
        // Far from all rows there is nothing to be seen.
        if !band.iter().any(|x| widths.contains_key(x)) {
            continue;
        }
        let last = band.last().unwrap_or(&first);
        let _ = writeln!(text, "y={}, x from {first} to {last}", layer.y);
        let mut line = |label_text: &str, sign: &dyn Fn(i32) -> String| {
            let signs: String = band.iter().map(|x| format!("{:<1$}", sign(*x), width(*x))).collect();
            let _ = writeln!(text, "{label_text:label$} {}", signs.trim_end());
        };
        line("", &|x| (x.unsigned_abs() % 10).to_string());
        for z in layer.zs.clone() {
            line(&format!("z={z}"), &|x| {
                layer.row_at(x, z).map_or(".".into(), |number| signs[number].clone())
            });
        }
        text.push('\n');
    }
}

/// The signs that a picture has, with what they stand for.
#[derive(Default)]
struct Legend {
    signs: BTreeSet<(u8, &'static str, &'static str)>,
}

impl Legend {
    fn dust(&mut self) {
        self.signs.insert((0, "0-f", "dust, its level; a to f are 10 to 15"));
    }

    fn letter(&mut self, letter: &'static str, meaning: &'static str) -> &'static str {
        self.signs.insert((1, letter, meaning));
        letter
    }

    fn arrow(&mut self, arrow: &'static str) -> &'static str {
        self.signs.insert((2, "^>v<", "faces North, East, South, West"));
        arrow
    }

    fn mark(&mut self, mark: &'static str, meaning: &'static str) -> &'static str {
        self.signs.insert((3, mark, meaning));
        mark
    }

    fn text(&self) -> String {
        self.signs.iter().map(|(_, sign, meaning)| format!("{sign:4}  {meaning}\n")).collect()
    }
}

/// The sign of a row: what it is, where it faces, its shape, and whether it is on or what it gives.
fn sign(row: &Row, frame: &Frame, number: usize, legend: &mut Legend) -> String {
    let kind = row.kind();
    if kind == Kind::RedstoneWire {
        legend.dust();
        return level_digit(frame.figures(number).signal).to_string();
    }
    let mut sign = legend.letter(letter(kind), meaning(kind)).to_owned();
    if let Some(facing) = row.facing().filter(|_| matches!(kind, Kind::Repeater | Kind::Comparator)) {
        sign += arrow(facing).map_or("", |arrow| legend.arrow(arrow));
    }
    sign += shape(row.shape()).map_or("", |(mark, meaning)| legend.mark(mark, meaning));
    let given = frame.given(number);
    let is_on = match place(kind).map(|place| SORTS[place].states) {
        Some(States::Levels) => {
            sign.push(level_digit(given));
            false
        }
        Some(States::Two { .. }) => given > 0,
        None => is_switch(kind) && given > 0,
    };
    if is_on {
        sign += legend.mark("*", "on, lit");
    }
    sign
}

fn meaning(kind: Kind) -> &'static str {
    match kind {
        Kind::Comparator => "comparator, with its level; a to f are 10 to 15",
        _ => kind_name(kind),
    }
}

fn letter(kind: Kind) -> &'static str {
    match kind {
        Kind::Solid => "#",
        Kind::Transparent => "%",
        Kind::RedstoneTorch => "T",
        Kind::Repeater => "R",
        Kind::Comparator => "C",
        Kind::Lever => "/",
        Kind::Button => "o",
        Kind::PressurePlate => "p",
        Kind::RedstoneLamp => "L",
        Kind::RedstoneBlock => "B",
        Kind::Piston => "P",
        Kind::CopperBulb => "U",
        _ => "?",
    }
}

fn arrow(facing: Facing) -> Option<&'static str> {
    match facing {
        Facing::North => Some("^"),
        Facing::East => Some(">"),
        Facing::South => Some("v"),
        Facing::West => Some("<"),
        Facing::Up | Facing::Down => None,
    }
}

fn shape(shape: Shape) -> Option<(&'static str, &'static str)> {
    match shape {
        Shape::Plain => None,
        Shape::BottomSlab => Some(("_", "bottom slab")),
        Shape::TopSlab => Some(("-", "top slab")),
        Shape::DoubleSlab => Some(("=", "double slab")),
        Shape::BottomStairs => Some((",", "bottom stairs")),
        Shape::TopStairs => Some(("'", "top stairs")),
        Shape::Glass => Some(("g", "glass")),
    }
}

#[cfg(test)]
mod tests {
    use super::*;
    use crate::Hall;

    fn picture_of(text: &str) -> String {
        let hall = Hall::from_text("a.hall", text, None).expect("a hall");
        picture(&hall.rows, &Frame::of(&hall.fresh, Vec::new()), &hall.fresh.unsupported().expect("a list"))
    }

    #[test]
    fn each_sign_has_its_meaning() {
        let text = "0,0,0 Solid\n1,0,0 Solid shape=top_slab\n2,0,0 Transparent shape=glass\n3,0,0 RedstoneBlock\n\
                    0,1,0 Lever powered=true support=0,-1,0\n1,1,0 RedstoneWire support=0,-1,0\n2,1,0 RedstoneWire\n\
                    3,1,0 Repeater facing=North powered=true support=0,-1,0\n0,1,1 RedstoneTorch powered=false support=0,0,-1\n\
                    1,1,1 Comparator facing=West level=12 support=0,-1,0\n2,1,1 RedstoneLamp\n3,1,1 Piston\n\
                    4,0,1 CopperBulb powered=true\n4,1,1 CopperBulb\n";
        let expected = "\
y=0, x from 0 to 4
    0  1    2  3   4
z=0 #  #-   %g B   .
z=1 .  .    .  .   U*

y=1, x from 0 to 4
    0  1    2  3   4
z=0 /* f    e! R^* .
z=1 T! C<c! L  P   U

0-f   dust, its level; a to f are 10 to 15
#     solid block
%     transparent block
/     lever
B     redstone block
C     comparator, with its level; a to f are 10 to 15
L     lamp
P     piston
R     repeater
T     torch
U     bulb
^>v<  faces North, East, South, West
!     nothing holds it up, by the support list
*     on, lit
-     top slab
g     glass
";
        assert_eq!(picture_of(text), expected);
    }

    #[test]
    fn a_wide_layer_stands_in_bands() {
        let text: String = (-3..80).map(|x| format!("{x},0,0 Solid\n")).collect();
        let picture = picture_of(&text);
        let heads: Vec<_> = picture.lines().filter(|line| line.starts_with("y=")).collect();
        assert_eq!(heads, ["y=0, x from -3 to 33", "y=0, x from 34 to 70", "y=0, x from 71 to 79"]);
        assert!(picture.lines().all(|line| line.len() <= WIDEST));
        // Over each column is the last digit of its x.
        assert!(picture.lines().nth(1).is_some_and(|line| line.trim_start().starts_with("3 2 1 0 1 2 3 ")));
    }

    #[test]
    fn bands_without_rows_are_left_out() {
        let picture = picture_of("0,0,0 Solid\n0,1,0 Solid\n5000,0,0 RedstoneWire\n");
        let heads: Vec<_> = picture.lines().filter(|line| line.starts_with("y=")).collect();
        assert_eq!(heads.len(), 4, "{heads:?}");
        assert!(heads[0].starts_with("y=0, x from 0 to ") && heads[1].ends_with(" to 5000"), "{heads:?}");
    }
}
