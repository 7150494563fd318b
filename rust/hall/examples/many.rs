//! Writes many halls, each with what the library gives as its expectations, for timings of `hall check`:
//!
//!     cargo run --release -p hall --example many -- FOLDER HALLS ROWS

use std::collections::BTreeMap;
use std::fmt::Write;
use std::path::Path;
use std::{env, fs};

use differential::random::Random;
use redstone::{BENCH_PROFILE, Circuit, Device, Facing, Kind, Row};
use redstone_text::{position_text, row_text};

const BELOW: [i8; 3] = [0, -1, 0];

/// Rows by position, so that none stands twice.
type Plan = BTreeMap<[i32; 3], Row>;

fn main() {
    let words: Vec<_> = env::args().skip(1).collect();
    let [folder, halls, rows] = &words[..] else { panic!("give FOLDER HALLS ROWS") };
    let (halls, rows): (u64, usize) = (halls.parse().expect("a number"), rows.parse().expect("a number"));
    fs::create_dir_all(folder).expect("a folder");
    for number in 0..halls {
        let text = hall(&mut Random::new(number), rows);
        fs::write(Path::new(folder).join(format!("{number:04}.hall")), text).expect("a file");
    }
}

/// A hall of so many rows: one circuit after the other to the South, and solid blocks for what is left.
fn hall(random: &mut Random, rows: usize) -> String {
    let mut plan = Plan::new();
    for z in (0..).step_by(3) {
        let mut more = plan.clone();
        circuit(random, &mut more, z);
        if more.len() > rows {
            break;
        }
        plan = more;
    }
    for x in (0..).take(rows - plan.len()) {
        plan.insert([x, 0, -5], Row::new(Kind::Solid, [x, 0, -5]));
    }
    let rows: Vec<_> = plan.into_values().collect();
    let mut text: String = rows.iter().map(|row| row_text(row) + "\n").collect();
    expect(&mut text, rows);
    text
}

/// A source, a line of dust, a repeater, more dust, and a lamp or a torch at the end.
fn circuit(random: &mut Random, plan: &mut Plan, z: i32) {
    let mut put = |row: Row| {
        plan.insert(row.position(), row);
    };
    let (before, after) = (random.within(1, 12), random.within(1, 16));
    let source = random.pick(&[Kind::Lever, Kind::RedstoneBlock, Kind::PressurePlate]);
    put(Row::new(source, [0, 1, z]).with_powered(random.percent(70)).with_support(BELOW));
    for x in 0..=before + after {
        put(Row::new(Kind::Solid, [x, 0, z]));
        if x > 0 {
            put(Row::new(Kind::RedstoneWire, [x, 1, z]).with_support(BELOW));
        }
    }
    let device = random.pick(&[Kind::Repeater, Kind::Repeater, Kind::Comparator]);
    let delay = (device == Kind::Repeater).then(|| 1 + random.byte_below(4));
    put(Row::new(device, [before, 1, z]).with_facing(Facing::East).with_delay(delay).with_support(BELOW));
    let end = before + after;
    if random.percent(50) {
        put(Row::new(Kind::RedstoneLamp, [end, 0, z]));
    } else {
        put(Row::new(Kind::RedstoneTorch, [end + 1, 0, z]).with_support([-1, 0, 0]));
    }
}

/// What the library gives: the blocks and rounds, some dust, and every device at three ticks.
fn expect(text: &mut String, rows: Vec<Row>) {
    let mut circuit = Circuit::new(&BENCH_PROFILE, rows).expect("an accepted table");
    let _ = writeln!(text, "expect blocks = {}\nexpect rounds = {}", circuit.len(), circuit.rounds().get());
    for ticks in [0, 8, 12] {
        circuit.tick(ticks).expect("ticks");
        for block in circuit.blocks() {
            let at = format!("tick {} {{}} {}", circuit.tick_number(), position_text(block.row.position()));
            let line = |figure: &str, value: String| format!("expect {} {value}\n", at.replace("{}", figure));
            *text += &match block.device {
                Device::Lamp { lit, .. } => line("lamp", (if lit { "lit" } else { "dark" }).to_owned()),
                Device::Torch { lit, .. } => line("torch", (if lit { "lit" } else { "out" }).to_owned()),
                Device::Repeater { powered, .. } => {
                    line("repeater", (if powered { "on" } else { "off" }).to_owned())
                }
                Device::Comparator { level } => line("comparator", format!("= {level}")),
                _ if block.row.kind() == Kind::RedstoneWire && block.number % 10 == 0 => {
                    line("dust", format!("= {}", block.figures.signal))
                }
                _ => String::new(),
            };
        }
    }
}
