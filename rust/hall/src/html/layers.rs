//! A tick's layers as pictures in SVG.

use std::fmt::Write;

use redstone::{Facing, Kind, Row, Shape};

use super::escape;
use crate::device::place;
use crate::expect::Met;
use crate::grid::{Layer, layers};
use crate::name::{block_name, is_switch, kind_name};
use crate::run::{Frame, Run};

/// The width of a cell, and of the places for the coordinates at the left and on top.
const CELL: i32 = 32;
const LEFT: i32 = 40;
const TOP: i32 = 18;
/// Coordinates wider than this many letters are written on every fifth column alone.
const NARROW: usize = 4;

/// Layers with no more columns than this are drawn larger.
const FEW: i32 = 10;
/// The most columns and lines of a picture: a larger layer is cut into more, so that each fits on a sheet of paper.
const COLUMNS: i32 = 32;
const LINES: i32 = 20;
/// The most columns of a layer that another may stand beside.
const MOST_BESIDE: i32 = 24;

/// What the pictures mark.
pub struct Marks<'a> {
    /// The numbers of the rows that nothing holds up.
    pub unsupported: &'a [usize],
    /// What is not as expected.
    pub differing: &'a [&'a Met],
}

/// What the marks stand for.
pub const LEGEND: &str = "<p class=\"legend\"><span class=\"key dust-key\">7</span> dust with its level \
<span class=\"key lit-key\"></span> on or lit <span class=\"key off-key\"></span> off, out or dark \
<span class=\"key blink-key\"></span> blinks <span class=\"key differs-key\">&#8800;</span> differs (dashed: at another tick) \
<span class=\"key drop-key\">!</span> nothing holds it up. \
East is right, South is down.</p>\n";

/// Whether a layer is so wide that two do not stand side by side.
pub fn is_wide(run: &Run) -> bool {
    layers(&run.rows).iter().any(|layer| layer.xs.end() - layer.xs.start() >= MOST_BESIDE)
}

/// The layers at a tick.
pub fn pictures(run: &Run, tick: usize, marks: &Marks) -> String {
    let mut text = String::from("<div class=\"layers\">\n");
    for layer in layers(&run.rows) {
        let tiles = layer.tiles(COLUMNS, LINES);
        for tile in &tiles {
            text += &picture(run, tick, tile, tiles.len() > 1, marks);
        }
    }
    text + "</div>\n"
}

fn picture(run: &Run, tick: usize, layer: &Layer, is_part: bool, marks: &Marks) -> String {
    let (first_x, first_z) = (*layer.xs.start(), *layer.zs.start());
    let (columns, lines) = (layer.xs.end() - first_x + 1, layer.zs.end() - first_z + 1);
    let (width, height) = (LEFT + CELL * columns + 2, TOP + CELL * lines + 2);
    let (shown_width, shown_height) =
        if columns <= FEW { (width * 5 / 4, height * 5 / 4) } else { (width, height) };
    let part = if is_part {
        format!(", x from {first_x} to {}, z from {first_z} to {}", layer.xs.end(), layer.zs.end())
    } else {
        String::new()
    };
    let mut text = format!("<figure><figcaption>y = {}{part}</figcaption>\n", layer.y);
    let _ = writeln!(
        text,
        "<svg class=\"layer\" xmlns=\"http://www.w3.org/2000/svg\" width=\"{shown_width}\" height=\"{shown_height}\" \
         viewBox=\"0 0 {width} {height}\" role=\"img\" aria-label=\"layer y = {}, tick {tick}\">",
        layer.y
    );
    let _ = writeln!(
        text,
        "<rect class=\"ground\" x=\"{LEFT}\" y=\"{TOP}\" width=\"{}\" height=\"{}\"/>",
        CELL * columns,
        CELL * lines
    );
    let is_wide = |x: &i32| x.to_string().len() > NARROW;
    let is_sparse = is_wide(layer.xs.start()) || is_wide(layer.xs.end());
    for x in layer.xs.clone().filter(|x| !is_sparse || x.rem_euclid(5) == 0) {
        let at = LEFT + CELL * (x - first_x) + CELL / 2;
        let _ = writeln!(text, "<text class=\"x\" x=\"{at}\" y=\"{}\">{x}</text>", TOP - 5);
    }
    for z in layer.zs.clone() {
        let at = TOP + CELL * (z - first_z) + CELL / 2 + 4;
        let _ = writeln!(text, "<text class=\"z\" x=\"{}\" y=\"{at}\">{z}</text>", LEFT - 5);
    }
    for ((x, z), number) in layer.rows() {
        let place = (LEFT + CELL * (x - first_x), TOP + CELL * (z - first_z));
        text += &cell(run, tick, number, place, marks);
    }
    text + "</svg></figure>\n"
}

/// A block: a group with its figures, a sentence, its drawing and its marks.
fn cell(run: &Run, tick: usize, number: usize, (x, y): (i32, i32), marks: &Marks) -> String {
    let (row, frame) = (&run.rows[number], &run.frames[tick]);
    let figures = frame.figures(number);
    let (signal, weak, strong) = (figures.signal, figures.weak, figures.strong);
    let [at_x, at_y, at_z] = row.position();
    let differing: Vec<_> =
        marks.differing.iter().filter(|met| met.expectation.position() == Some(row.position())).collect();
    let mut sentence = format!("{}: signal {signal}, weak {weak}, strong {strong}", block_name(row));
    for met in &differing {
        let _ = write!(sentence, "; {met}");
    }
    let blinks = run.blinks(number) && row.kind() != Kind::RedstoneWire;
    let state = if blinks {
        " blinks"
    } else if is_on(row, frame, number) {
        " on"
    } else {
        ""
    };
    let mut text = format!(
        "<g class=\"cell {}{state}\" transform=\"translate({x} {y})\" data-at=\"{at_x},{at_y},{at_z}\" \
         data-figures=\"{signal},{weak},{strong}\"><title>{}</title>",
        class(row.kind()),
        escape(&sentence)
    );
    text += &drawing(row, frame, number);
    if blinks {
        text += "<rect class=\"wave-ground\" x=\"14\" y=\"21\" width=\"17\" height=\"10\" rx=\"2\"/>\
                 <path class=\"wave\" d=\"M16 29h3v-6h4v6h4v-6h3\"/>";
    }
    if marks.unsupported.contains(&number) {
        text += "<rect class=\"drop\" x=\"1.5\" y=\"1.5\" width=\"29\" height=\"29\"/>";
        text += "<text class=\"drop-sign\" x=\"6\" y=\"12\">!</text>";
    }
    if !differing.is_empty() {
        let is_now = differing.iter().any(|met| met.expectation.tick as usize == tick);
        let class = if is_now { "differs" } else { "differs other-tick" };
        let _ = write!(text, "<rect class=\"{class}\" x=\"2\" y=\"2\" width=\"28\" height=\"28\"/>");
        text += "<path class=\"corner\" d=\"M18 0H32V14Z\"/>";
    }
    text + "</g>\n"
}

/// Whether a row gives light or power of its own.
fn is_on(row: &Row, frame: &Frame, number: usize) -> bool {
    (place(row.kind()).is_some() || is_switch(row.kind())) && frame.given(number) > 0
}

/// The kind's word, as the style sheet has it.
fn class(kind: Kind) -> String {
    kind_name(kind).replace(' ', "-")
}

fn drawing(row: &Row, frame: &Frame, number: usize) -> String {
    let figures = frame.figures(number);
    match row.kind() {
        Kind::RedstoneWire => format!(
            "<rect class=\"level l{0}\" x=\"4\" y=\"4\" width=\"24\" height=\"24\" rx=\"6\"/>\
             <text class=\"number l{0}\" x=\"16\" y=\"21\">{0}</text>",
            figures.signal
        ),
        Kind::RedstoneTorch => "<circle class=\"glow\" cx=\"16\" cy=\"16\" r=\"13\"/>\
             <path class=\"stick\" d=\"M16 16V28\"/><circle class=\"body\" cx=\"16\" cy=\"13\" r=\"7\"/>\
             <path class=\"half\" d=\"M16 6A7 7 0 0 0 16 20Z\"/>"
            .to_owned(),
        Kind::Repeater => format!(
            "<rect class=\"plate-of-device\" x=\"3\" y=\"3\" width=\"26\" height=\"26\" rx=\"3\"/>{}",
            arrow(row.facing(), "M16 6L25 20H7Z")
        ),
        Kind::Comparator => {
            let level = frame.given(number);
            format!(
                "<rect class=\"plate-of-device\" x=\"3\" y=\"3\" width=\"26\" height=\"26\" rx=\"3\"/>{}\
                 <text class=\"number\" x=\"16\" y=\"21\">{level}</text>",
                arrow(row.facing(), "M16 0L21 6H11Z")
            )
        }
        Kind::Lever => "<rect class=\"base\" x=\"9\" y=\"20\" width=\"14\" height=\"8\" rx=\"2\"/>\
             <path class=\"off-stick\" d=\"M16 22L8 6\"/><path class=\"on-stick\" d=\"M16 22L24 6\"/>"
            .to_owned(),
        Kind::Button => {
            "<rect class=\"body\" x=\"9\" y=\"12\" width=\"14\" height=\"9\" rx=\"2\"/>".to_owned()
        }
        Kind::PressurePlate => {
            "<rect class=\"body\" x=\"4\" y=\"6\" width=\"24\" height=\"20\" rx=\"2\"/>".to_owned()
        }
        Kind::RedstoneLamp => light("<circle class=\"core\" cx=\"16\" cy=\"16\" r=\"5\"/>"),
        Kind::CopperBulb => {
            light("<rect class=\"core\" x=\"11\" y=\"11\" width=\"10\" height=\"10\" rx=\"2\"/>")
        }
        Kind::RedstoneBlock => "<rect class=\"body\" x=\"1\" y=\"1\" width=\"30\" height=\"30\" rx=\"2\"/>\
             <text class=\"number\" x=\"16\" y=\"21\">15</text>"
            .to_owned(),
        Kind::Solid | Kind::Transparent => block(row.shape()) + power(figures.weak, figures.strong),
        kind => format!(
            "<rect class=\"body\" x=\"1\" y=\"1\" width=\"30\" height=\"30\"/>\
             <text class=\"number\" x=\"16\" y=\"21\">{}</text>",
            kind.name().chars().next().unwrap_or('?')
        ),
    }
}

/// A lamp or a bulb, around what is drawn in its middle.
fn light(core: &str) -> String {
    format!(
        "<rect class=\"body\" x=\"1\" y=\"1\" width=\"30\" height=\"30\" rx=\"3\"/>\
         <path class=\"half\" d=\"M1 1H31L1 31Z\"/>\
         <path class=\"rays\" d=\"M16 4V9M16 23V28M4 16H9M23 16H28M8 8L11 11M21 21L24 24M24 8L21 11M11 21L8 24\"/>{core}"
    )
}

/// An arrow that is drawn towards North, turned to where a device faces.
fn arrow(facing: Option<Facing>, path: &str) -> String {
    let turn = match facing {
        Some(Facing::North) => 0,
        Some(Facing::East) => 90,
        Some(Facing::South) => 180,
        Some(Facing::West) => 270,
        _ => return "<circle class=\"arrow\" cx=\"16\" cy=\"16\" r=\"6\"/>".to_owned(),
    };
    format!("<path class=\"arrow\" d=\"{path}\" transform=\"rotate({turn} 16 16)\"/>")
}

fn block(shape: Shape) -> String {
    let path = match shape {
        Shape::BottomSlab => "M1 16H31V31H1Z",
        Shape::TopSlab => "M1 1H31V16H1Z",
        Shape::BottomStairs => "M1 16H16V1H31V31H1Z",
        Shape::TopStairs => "M1 1H31V31H16V16H1Z",
        Shape::DoubleSlab | Shape::Plain | Shape::Glass => "M1 1H31V31H1Z",
    };
    let class = if shape == Shape::Glass { "body glass" } else { "body" };
    let middle = if shape == Shape::DoubleSlab { "<path class=\"seam\" d=\"M1 16H31\"/>" } else { "" };
    format!("<path class=\"{class}\" d=\"{path}\"/>{middle}")
}

/// A spot for a block with power: full where it is strong.
fn power(weak: u8, strong: u8) -> &'static str {
    match (weak, strong) {
        (0, 0) => "",
        (_, 0) => "<circle class=\"weak\" cx=\"16\" cy=\"16\" r=\"4\"/>",
        _ => "<circle class=\"strong\" cx=\"16\" cy=\"16\" r=\"5\"/>",
    }
}
