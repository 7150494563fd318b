//! What Change 4 is tried on: small tables with figures by hand, every way to feed a bulb, and a bulb beside every block.

use redstone::{Arm, Facing, Kind, Row, Shape, TORCH_CHARGES_ABOVE};
use redstone_text::Table;

use crate::generate::{BENCH_PROFILE_WITH_BULB, BULB, Case, TORCH};
use crate::table::{ABOVE, HORIZONTAL, Position, UNDER};

/// A table, by the bench profile with the bulb where it has no other, and a run of it, as docs/DIFFERENCES.md has them.
pub struct Trial {
    pub what: &'static str,
    pub rows: &'static str,
    pub run: &'static str,
}

impl Trial {
    pub fn table(&self) -> Table {
        self.rows.parse().unwrap_or_else(|error| panic!("{}: {error}", self.what))
    }

    pub fn case(&self) -> Case {
        let Table { profile, rows } = self.table();
        Case::new("trial", profile, rows)
    }
}

/// The bench profile with such a byte for the bulb, where a torch charges the block above it.
fn profile(bulb: u8) -> [u8; 14] {
    let mut profile = BENCH_PROFILE_WITH_BULB;
    profile[TORCH] = TORCH_CHARGES_ABOVE;
    profile[BULB] = bulb;
    profile
}

/// Rows about a bulb at 0,0,0 that give it power, or take it, as a lever is thrown.
#[derive(Debug)]
pub struct Feeder {
    pub what: &'static str,
    pub rows: &'static str,
    pub lever: Position,
    /// Whether it gives power while the lever is on.
    pub gives_when_on: bool,
    /// The ticks that pass between the lever and the power.
    pub ticks: u32,
    /// What it gives to a bulb that receives it.
    pub weak: u8,
    pub strong: u8,
}

impl Feeder {
    /// A table of it and such a bulb.
    pub fn case(&self, byte: u8, bulb: Row) -> Case {
        let table: Table = self.rows.parse().unwrap_or_else(|error| panic!("{}: {error}", self.what));
        Case::new("feeder", profile(byte), table.rows.into_iter().chain([bulb]))
    }
}

/// Without power at the start.
pub const FEEDERS: [Feeder; 13] = [
    Feeder {
        what: "a lever on the bulb",
        rows: "0,1,0 Lever support=0,-1,0\n",
        lever: [0, 1, 0],
        gives_when_on: true,
        ticks: 0,
        weak: 0,
        strong: 15,
    },
    Feeder {
        what: "a button at its side",
        rows: "1,0,0 Button support=-1,0,0\n",
        lever: [1, 0, 0],
        gives_when_on: true,
        ticks: 0,
        weak: 0,
        strong: 15,
    },
    Feeder {
        what: "a plate of level 1",
        rows: "0,1,0 PressurePlate support=0,-1,0 level=1\n",
        lever: [0, 1, 0],
        gives_when_on: true,
        ticks: 0,
        weak: 0,
        strong: 1,
    },
    Feeder {
        what: "dust on the bulb",
        rows: "0,1,0 RedstoneWire\n1,1,0 Lever\n",
        lever: [1, 1, 0],
        gives_when_on: true,
        ticks: 0,
        weak: 15,
        strong: 0,
    },
    Feeder {
        what: "dust of level 1 on the bulb",
        rows: "0,1,0 RedstoneWire\n1,1,0 Lever level=1\n",
        lever: [1, 1, 0],
        gives_when_on: true,
        ticks: 0,
        weak: 1,
        strong: 0,
    },
    Feeder {
        what: "dust beside with an arm to the bulb",
        rows: "1,0,0 RedstoneWire arms=East:Side,West:Side\n2,0,0 Lever\n",
        lever: [2, 0, 0],
        gives_when_on: true,
        ticks: 0,
        weak: 15,
        strong: 0,
    },
    Feeder {
        what: "dust beside with no arm to the bulb",
        rows: "1,0,0 RedstoneWire\n2,0,0 Lever\n",
        lever: [2, 0, 0],
        gives_when_on: true,
        ticks: 0,
        weak: 0,
        strong: 0,
    },
    Feeder {
        what: "a repeater",
        rows: "0,0,1 Repeater facing=North\n0,0,2 Lever\n",
        lever: [0, 0, 2],
        gives_when_on: true,
        ticks: 1,
        weak: 0,
        strong: 15,
    },
    Feeder {
        what: "a repeater of delay 4",
        rows: "-1,0,0 Repeater facing=East delay=4\n-2,0,0 Lever\n",
        lever: [-2, 0, 0],
        gives_when_on: true,
        ticks: 4,
        weak: 0,
        strong: 15,
    },
    Feeder {
        what: "a comparator",
        rows: "1,0,0 Comparator facing=West\n2,0,0 Lever level=6\n",
        lever: [2, 0, 0],
        gives_when_on: true,
        ticks: 1,
        weak: 0,
        strong: 6,
    },
    Feeder {
        what: "a torch under the bulb that a lever puts out",
        rows: "0,-2,0 Solid\n0,-1,0 RedstoneTorch powered=false support=0,-1,0\n1,-2,0 Lever powered=true support=-1,0,0\n",
        lever: [1, -2, 0],
        gives_when_on: false,
        ticks: 1,
        weak: 0,
        strong: 15,
    },
    Feeder {
        what: "a strongly powered block beside",
        rows: "1,0,0 Solid\n1,1,0 Lever support=0,-1,0\n",
        lever: [1, 1, 0],
        gives_when_on: true,
        ticks: 0,
        weak: 15,
        strong: 0,
    },
    Feeder {
        what: "a lever beside that hangs on nothing",
        rows: "1,0,0 Lever\n",
        lever: [1, 0, 0],
        gives_when_on: true,
        ticks: 0,
        weak: 0,
        strong: 0,
    },
];

/// The receiving values of the bulb's byte: none, each, both, those of the bench, and all.
const BYTES: [u8; 6] = [0, 2, 4, 6, 7, 31];

/// A bulb and a block of every kind at each of its six sides, held by the bulb, with each facing and each `powered`, with
/// a redstone block behind it and without; dust has arms where it has a facing. By several bytes of the bulb.
pub fn beside_every_kind() -> impl Iterator<Item = Case> {
    let sides = HORIZONTAL.into_iter().chain([ABOVE, UNDER]);
    let blocks = sides.flat_map(|side| Kind::ALL.iter().map(move |kind| Row::new(*kind, side)));
    let blocks = blocks.flat_map(|block| {
        let facings = Facing::ALL.iter().copied().map(Some).chain([None]);
        facings.map(move |facing| block.with_facing(facing).with_arms(facing.map(|_| [Some(Arm::Side); 4])))
    });
    let blocks = blocks.flat_map(|block| [None, Some(false), Some(true)].map(|on| block.with_powered(on)));
    let fed = blocks.flat_map(|block| [false, true].map(|fed| (block, fed)));
    fed.flat_map(|(block, fed)| BYTES.map(|byte| beside(block, fed, byte)))
}

fn beside(block: Row, fed: bool, byte: u8) -> Case {
    let side = block.position();
    let block = block.with_support(side.map(|step| -step as i8));
    let behind = fed.then(|| Row::new(Kind::RedstoneBlock, side.map(|step| 2 * step)));
    let bulb = Row::new(Kind::CopperBulb, [0; 3]).with_powered(byte & 1 != 0);
    Case::new("bulb beside a block", profile(byte), [bulb, block].into_iter().chain(behind))
}

/// Bulbs of every shape and with each `powered`.
pub fn bulbs() -> impl Iterator<Item = Row> {
    let bulb = |shape: &Shape| Row::new(Kind::CopperBulb, [0; 3]).with_shape(*shape);
    Shape::ALL
        .iter()
        .map(bulb)
        .flat_map(|bulb| [None, Some(false), Some(true)].map(|on| bulb.with_powered(on)))
}

pub const TRIALS: [Trial; 34] = [
    Trial {
        what: "a lever on the bulb: each arrival of power flips the light, held power does not",
        rows: "0,0,0 CopperBulb\n0,1,0 Lever support=0,-1,0\n",
        run: "lamp=0,0,0,0\nhad_power=0,0,0,0\nswitch 0,1,0 on\nrow=0,0,0,0,0,15\nlamp=0,0,0,0\nhad_power=0,0,0,0\n\
              tick 1\nlamp=0,0,0,1\nhad_power=0,0,0,1\ntick 1\nlamp=0,0,0,1\ntick 5\nlamp=0,0,0,1\nhad_power=0,0,0,1\n\
              switch 0,1,0 off\nlamp=0,0,0,1\nhad_power=0,0,0,1\ntick 1\nlamp=0,0,0,1\nhad_power=0,0,0,0\n\
              tick 3\nlamp=0,0,0,1\nhad_power=0,0,0,0\nswitch 0,1,0 on\ntick 1\nlamp=0,0,0,0\nhad_power=0,0,0,1\n\
              switch 0,1,0 off\ntick 1\nlamp=0,0,0,0\nhad_power=0,0,0,0\nswitch 0,1,0 on\ntick 1\nlamp=0,0,0,1\n",
    },
    Trial {
        what: "power at the start is no arrival",
        rows: "0,0,0 CopperBulb\n0,1,0 Lever support=0,-1,0 powered=true\n",
        run: "lamp=0,0,0,0\nhad_power=0,0,0,1\ntick 1\nlamp=0,0,0,0\nhad_power=0,0,0,1\ntick 9\nlamp=0,0,0,0\n\
              switch 0,1,0 off\ntick 1\nlamp=0,0,0,0\nhad_power=0,0,0,0\nswitch 0,1,0 on\ntick 1\nlamp=0,0,0,1\n",
    },
    Trial {
        what: "powered missing, false and true, without power and with it",
        rows: "0,0,0 CopperBulb\n2,0,0 CopperBulb powered=false\n4,0,0 CopperBulb powered=true\n10,0,0 CopperBulb\n\
               10,1,0 RedstoneBlock\n12,0,0 CopperBulb powered=false\n12,1,0 RedstoneBlock\n\
               14,0,0 CopperBulb powered=true\n14,1,0 RedstoneBlock\n",
        run: "lamp=0,0,0,0\nhad_power=0,0,0,0\nlamp=2,0,0,0\nhad_power=2,0,0,0\nlamp=4,0,0,1\nhad_power=4,0,0,0\n\
              lamp=10,0,0,0\nhad_power=10,0,0,1\nlamp=12,0,0,0\nhad_power=12,0,0,1\nlamp=14,0,0,1\nhad_power=14,0,0,1\n\
              tick 1\nlamp=0,0,0,0\nlamp=2,0,0,0\nlamp=4,0,0,1\nlamp=10,0,0,0\nlamp=12,0,0,0\nlamp=14,0,0,1\n\
              tick 99\nlamp=0,0,0,0\nlamp=2,0,0,0\nlamp=4,0,0,1\nhad_power=4,0,0,0\nlamp=10,0,0,0\nlamp=12,0,0,0\n\
              lamp=14,0,0,1\nhad_power=14,0,0,1\n",
    },
    Trial {
        what: "power that comes and goes between two ticks",
        rows: "0,0,0 CopperBulb\n0,1,0 Lever support=0,-1,0\n",
        run: "switch 0,1,0 on\nrow=0,0,0,0,0,15\nswitch 0,1,0 off\nrow=0,0,0,0,0,0\ntick 1\nlamp=0,0,0,0\n\
              had_power=0,0,0,0\n",
    },
    Trial {
        what: "power that goes and comes between two ticks",
        rows: "0,0,0 CopperBulb powered=true\n0,1,0 Lever support=0,-1,0 powered=true\n",
        run: "switch 0,1,0 off\nrow=0,0,0,0,0,0\nhad_power=0,0,0,1\nswitch 0,1,0 on\ntick 1\nlamp=0,0,0,1\n\
              had_power=0,0,0,1\n",
    },
    Trial {
        what: "no ticks write neither byte",
        rows: "0,0,0 CopperBulb\n0,1,0 Lever support=0,-1,0\n",
        run: "switch 0,1,0 on\ntick 0\nrow=0,0,0,0,0,15\nlamp=0,0,0,0\nhad_power=0,0,0,0\ntick 1\nlamp=0,0,0,1\n\
              had_power=0,0,0,1\ntick 0\nlamp=0,0,0,1\nswitch 0,1,0 off\ntick 0\nhad_power=0,0,0,1\ntick 1\n\
              had_power=0,0,0,0\ntick 0\nlamp=0,0,0,1\nhad_power=0,0,0,0\n",
    },
    Trial {
        what: "a switch at the bulb itself",
        rows: "0,0,0 CopperBulb\n2,0,0 CopperBulb powered=true\n",
        run: "switch 0,0,0 on\nlamp=0,0,0,0\nhad_power=0,0,0,0\nswitch 2,0,0 off\nlamp=2,0,0,1\ntick 2\nlamp=0,0,0,0\n\
              lamp=2,0,0,1\nrow=0,0,0,0,0,0\n",
    },
    Trial {
        what: "a torch that blinks: the light does so half as often",
        rows: "0,0,0 Solid\n0,0,1 Solid\n0,1,0 RedstoneWire\n0,1,1 RedstoneWire\n1,-1,1 CopperBulb\n\
               1,0,0 RedstoneTorch support=-1,0,0\n1,0,1 RedstoneWire\n",
        run: "row=1,-1,1,0,15,0\nlamp=1,-1,1,0\nhad_power=1,-1,1,1\ntick 1\nrow=1,-1,1,0,0,0\nlamp=1,-1,1,0\n\
              had_power=1,-1,1,0\ntick 1\nlamp=1,-1,1,1\nhad_power=1,-1,1,1\ntick 1\nlamp=1,-1,1,1\nhad_power=1,-1,1,0\n\
              tick 1\nlamp=1,-1,1,0\ntick 2\nlamp=1,-1,1,1\ntick 3\nlamp=1,-1,1,0\nhad_power=1,-1,1,0\ntick 1\n\
              lamp=1,-1,1,1\nhad_power=1,-1,1,1\ntick 90\nlamp=1,-1,1,0\nhad_power=1,-1,1,1\ntick 99\nlamp=1,-1,1,1\n\
              had_power=1,-1,1,0\n",
    },
    Trial {
        what: "a torch and a repeater that blink, four ticks on and four off",
        rows: "0,0,0 Solid\n0,0,1 Repeater facing=North delay=3\n0,0,2 RedstoneWire\n1,-1,1 CopperBulb\n\
               1,0,0 RedstoneTorch support=-1,0,0\n1,0,1 RedstoneWire\n1,0,2 RedstoneWire\n",
        run: "lamp=1,-1,1,0\nhad_power=1,-1,1,1\ntick 3\nhad_power=1,-1,1,1\ntick 1\nlamp=1,-1,1,0\nhad_power=1,-1,1,0\n\
              tick 3\nlamp=1,-1,1,0\ntick 1\nlamp=1,-1,1,1\nhad_power=1,-1,1,1\ntick 3\nlamp=1,-1,1,1\ntick 1\n\
              lamp=1,-1,1,1\nhad_power=1,-1,1,0\ntick 4\nlamp=1,-1,1,0\ntick 8\nlamp=1,-1,1,1\ntick 100\n\
              lamp=1,-1,1,1\nhad_power=1,-1,1,0\n",
    },
    Trial {
        what: "the same with the bulb in the place of the torch's block",
        rows: "0,0,0 CopperBulb\n0,0,1 Repeater facing=North delay=3\n0,0,2 RedstoneWire\n\
               1,0,0 RedstoneTorch support=-1,0,0\n1,0,1 RedstoneWire\n1,0,2 RedstoneWire\n",
        run: "lamp=0,0,0,0\nhad_power=0,0,0,0\ntick 2\nlamp=0,0,0,0\ntick 1\nrow=0,0,0,0,0,15\nlamp=0,0,0,1\n\
              had_power=0,0,0,1\ndevice=1,0,0,1\ntick 1\ndevice=1,0,0,0\ntick 3\nlamp=0,0,0,1\nhad_power=0,0,0,0\n\
              tick 4\nlamp=0,0,0,0\nhad_power=0,0,0,1\ntick 8\nlamp=0,0,0,1\ntick 80\nlamp=0,0,0,1\n",
    },
    Trial {
        what: "a pulse of one tick",
        rows: "0,0,0 Lever\n1,0,0 Repeater facing=East\n2,0,0 CopperBulb\n",
        run: "switch 0,0,0 on\nlamp=2,0,0,0\ntick 1\nrow=2,0,0,0,0,15\nlamp=2,0,0,1\nhad_power=2,0,0,1\n\
              switch 0,0,0 off\ntick 1\nrow=2,0,0,0,0,0\nlamp=2,0,0,1\nhad_power=2,0,0,0\ntick 1\nlamp=2,0,0,1\n\
              switch 0,0,0 on\ntick 1\nlamp=2,0,0,0\nswitch 0,0,0 off\ntick 5\nlamp=2,0,0,0\nhad_power=2,0,0,0\n",
    },
    Trial {
        what: "a pulse that comes and goes within one call",
        rows: "0,0,0 Lever\n1,0,0 Repeater facing=East delay=4\n2,0,0 CopperBulb\n",
        run: "switch 0,0,0 on\ntick 1\nswitch 0,0,0 off\ntick 2\nlamp=2,0,0,0\ntick 1\nlamp=2,0,0,1\nhad_power=2,0,0,1\n\
              tick 1\nlamp=2,0,0,1\nhad_power=2,0,0,0\nswitch 0,0,0 on\ntick 1\nswitch 0,0,0 off\ntick 10\nlamp=2,0,0,0\n\
              had_power=2,0,0,0\n",
    },
    Trial {
        what: "two pulses within one call, and a gap of one tick between them",
        rows: "0,0,0 Lever\n1,0,0 Repeater facing=East delay=4\n2,0,0 CopperBulb\n",
        run: "switch 0,0,0 on\ntick 1\nswitch 0,0,0 off\ntick 1\nswitch 0,0,0 on\ntick 1\nswitch 0,0,0 off\ntick 3\n\
              lamp=2,0,0,0\nhad_power=2,0,0,1\nrow=2,0,0,0,0,15\ntick 1\nlamp=2,0,0,0\nhad_power=2,0,0,0\n",
    },
    Trial {
        what: "a gap of one tick in held power",
        rows: "0,0,0 Lever powered=true\n1,0,0 Repeater facing=East powered=true\n2,0,0 CopperBulb powered=true\n",
        run: "had_power=2,0,0,1\nswitch 0,0,0 off\ntick 1\nlamp=2,0,0,1\nhad_power=2,0,0,0\nswitch 0,0,0 on\ntick 1\n\
              lamp=2,0,0,0\nhad_power=2,0,0,1\n",
    },
    Trial {
        what: "power that changes hands is no arrival",
        rows: "-1,0,0 Lever support=1,0,0 powered=true\n0,0,0 CopperBulb\n0,1,0 RedstoneWire\n1,1,0 Lever\n",
        run: "row=0,0,0,0,0,15\nhad_power=0,0,0,1\nswitch 1,1,0 on\nrow=0,0,0,0,15,15\nswitch -1,0,0 off\n\
              row=0,0,0,0,15,0\ntick 1\nlamp=0,0,0,0\nhad_power=0,0,0,1\nswitch -1,0,0 on\nswitch 1,1,0 off\ntick 1\n\
              lamp=0,0,0,0\nhad_power=0,0,0,1\nrow=0,0,0,0,0,15\n",
    },
    Trial {
        what: "dust on the bulb, and a level that changes",
        rows: "0,0,0 CopperBulb\n0,1,0 RedstoneWire\n1,1,0 Lever level=1\n-1,1,0 Lever level=9\n",
        run: "switch 1,1,0 on\nrow=0,0,0,0,1,0\ntick 1\nlamp=0,0,0,1\nswitch -1,1,0 on\nrow=0,0,0,0,9,0\ntick 1\n\
              lamp=0,0,0,1\nswitch -1,1,0 off\ntick 1\nlamp=0,0,0,1\nhad_power=0,0,0,1\n",
    },
    Trial {
        what: "dust beside the bulb, with an arm to it and without, and under it",
        rows: "0,0,0 CopperBulb\n1,0,0 RedstoneWire arms=East:Side,West:Side\n2,0,0 Lever\n0,0,4 CopperBulb\n\
               1,0,4 RedstoneWire\n2,0,4 Lever\n0,0,8 RedstoneWire\n0,1,8 CopperBulb\n1,0,8 Lever\n",
        run: "switch 2,0,0 on\nswitch 2,0,4 on\nswitch 1,0,8 on\nrow=0,0,0,0,15,0\nrow=1,0,4,15,0,0\nrow=0,0,4,0,0,0\n\
              row=0,0,8,15,0,0\nrow=0,1,8,0,0,0\ntick 1\nlamp=0,0,0,1\nlamp=0,0,4,0\nhad_power=0,0,4,0\nlamp=0,1,8,0\n",
    },
    Trial {
        what: "comparators of the lowest level and the highest",
        rows: "0,0,0 RedstoneBlock\n1,0,0 Comparator facing=East level=0\n2,0,0 CopperBulb\n\
               4,0,0 Comparator facing=East level=15\n5,0,0 CopperBulb\n",
        run: "had_power=2,0,0,0\nrow=5,0,0,0,0,15\nhad_power=5,0,0,1\ntick 1\nrow=2,0,0,0,0,15\nlamp=2,0,0,1\n\
              row=5,0,0,0,0,0\nlamp=5,0,0,0\nhad_power=5,0,0,0\n",
    },
    Trial {
        what: "a comparator's level that goes on through a block and another comparator",
        rows: "0,0,0 Comparator facing=East level=9\n1,0,0 Solid\n2,0,0 Comparator facing=East\n3,0,0 CopperBulb\n",
        run: "row=1,0,0,0,0,9\nhad_power=3,0,0,0\ntick 1\nrow=3,0,0,0,0,9\nlamp=3,0,0,1\nhad_power=3,0,0,1\ntick 1\n\
              row=3,0,0,0,0,0\nlamp=3,0,0,1\nhad_power=3,0,0,0\n",
    },
    Trial {
        what: "a torch under the bulb, by profile value 32",
        rows: "profile Solid=31 Transparent=1 RedstoneTorch=32 RedstoneLamp=31 RedstoneBlock=1 CopperBulb=7\n\
               0,0,0 RedstoneTorch powered=false\n0,1,0 CopperBulb\n1,0,0 RedstoneTorch\n1,1,0 CopperBulb\n",
        run: "row=0,1,0,0,15,0\nrow=1,1,0,0,0,15\nhad_power=0,1,0,1\nhad_power=1,1,0,1\ntick 1\nrow=0,1,0,0,15,15\n\
              lamp=0,1,0,0\nlamp=1,1,0,0\n",
    },
    Trial {
        what: "a torch under the bulb, without the value",
        rows: "0,0,0 RedstoneTorch powered=false\n0,1,0 CopperBulb\n",
        run: "row=0,1,0,0,0,0\ntick 1\ndevice=0,0,0,1\nrow=0,1,0,0,0,0\nlamp=0,1,0,0\nhad_power=0,1,0,0\n",
    },
    Trial {
        what: "a powered block beside the bulb, strongly and weakly",
        rows: "0,0,0 CopperBulb\n1,0,0 Solid\n1,1,0 Lever support=0,-1,0\n0,0,4 CopperBulb\n1,0,4 Solid\n\
               1,1,4 RedstoneWire\n2,1,4 Lever\n",
        run: "switch 1,1,0 on\nswitch 2,1,4 on\nrow=1,0,0,0,0,15\nrow=0,0,0,0,15,0\nrow=1,0,4,0,15,0\nrow=0,0,4,0,0,0\n\
              tick 1\nlamp=0,0,0,1\nlamp=0,0,4,0\n",
    },
    Trial {
        what: "two bulbs side by side, and a third",
        rows: "0,0,0 CopperBulb\n0,1,0 Lever support=0,-1,0\n1,0,0 CopperBulb powered=true\n2,0,0 CopperBulb\n",
        run: "switch 0,1,0 on\nrow=0,0,0,0,0,15\nrow=1,0,0,0,15,0\nrow=2,0,0,0,0,0\ntick 1\nlamp=0,0,0,1\nlamp=1,0,0,0\n\
              lamp=2,0,0,0\nswitch 0,1,0 off\ntick 1\nlamp=0,0,0,1\nlamp=1,0,0,0\nswitch 0,1,0 on\ntick 1\nlamp=0,0,0,0\n\
              lamp=1,0,0,1\nhad_power=2,0,0,0\n",
    },
    Trial {
        what: "a lamp with a lever on it, and a bulb beside",
        rows: "0,0,0 RedstoneLamp\n0,1,0 Lever support=0,-1,0\n1,0,0 CopperBulb\n",
        run: "switch 0,1,0 on\nrow=0,0,0,0,0,15\nrow=1,0,0,0,15,0\ntick 1\nlamp=0,0,0,1\nlamp=1,0,0,1\nhad_power=0,0,0,0\n\
              switch 0,1,0 off\ntick 2\nlamp=0,0,0,1\nlamp=1,0,0,1\ntick 1\nlamp=0,0,0,0\nlamp=1,0,0,1\ntick 50\n\
              lamp=1,0,0,1\n",
    },
    Trial {
        what: "a bulb with a lever on it, and a lamp beside",
        rows: "0,0,0 CopperBulb powered=true\n0,1,0 Lever support=0,-1,0\n1,0,0 RedstoneLamp\n",
        run: "lamp=0,0,0,1\nlamp=1,0,0,0\nswitch 0,1,0 on\nrow=1,0,0,0,15,0\ntick 1\nlamp=0,0,0,0\nlamp=1,0,0,1\n\
              switch 0,1,0 off\ntick 3\nlamp=0,0,0,0\nlamp=1,0,0,0\n",
    },
    Trial {
        what: "what reads a powered bulb: a torch and a comparator, no repeater and no dust",
        rows: "-1,0,0 RedstoneTorch support=1,0,0\n0,0,-1 Repeater facing=North\n0,0,0 CopperBulb\n\
               0,0,1 Comparator facing=South\n0,1,0 Lever support=0,-1,0\n0,-1,0 RedstoneWire\n\
               1,0,0 RedstoneWire arms=East:Side,West:Side\n",
        run: "tick 1\ndevice=-1,0,0,1\nswitch 0,1,0 on\nrow=0,0,0,0,0,15\nrow=0,-1,0,0,0,0\nrow=1,0,0,0,0,0\ntick 1\n\
              device=-1,0,0,0\ndevice=0,0,-1,0\ndevice=0,0,1,15\nlamp=0,0,0,1\nswitch 0,1,0 off\ntick 1\nlamp=0,0,0,1\n\
              device=-1,0,0,1\ndevice=0,0,1,0\n",
    },
    Trial {
        what: "by a profile byte of 31 a repeater and dust read it, too",
        rows: "profile Solid=31 Transparent=1 RedstoneLamp=31 RedstoneBlock=1 CopperBulb=31\n\
               0,-1,0 RedstoneWire\n0,0,-1 Repeater facing=North\n0,0,0 CopperBulb\n0,1,0 Lever support=0,-1,0\n\
               1,0,0 RedstoneWire arms=East:Side,West:Side\n",
        run: "switch 0,1,0 on\nrow=0,0,0,0,15,15\nrow=0,-1,0,15,0,0\nrow=1,0,0,15,0,0\ntick 1\ndevice=0,0,-1,1\n\
              lamp=0,0,0,1\n",
    },
    Trial {
        what: "by a profile byte without the values 2 and 4 there is no power",
        rows: "profile Solid=31 Transparent=1 RedstoneLamp=31 RedstoneBlock=1 CopperBulb=25\n\
               0,0,0 CopperBulb powered=true\n0,1,0 Lever support=0,-1,0\n1,0,0 RedstoneBlock\n2,0,0 CopperBulb\n",
        run: "had_power=0,0,0,0\nhad_power=2,0,0,0\nswitch 0,1,0 on\nrow=0,0,0,0,0,0\ntick 1\nlamp=0,0,0,1\n\
              had_power=0,0,0,0\nlamp=2,0,0,0\ntick 50\nlamp=0,0,0,1\nlamp=2,0,0,0\n",
    },
    Trial {
        what: "by a profile byte of 2 weak power alone is there, and by 4 strong power alone",
        rows: "profile Solid=31 Transparent=1 RedstoneLamp=31 RedstoneBlock=1 CopperBulb=2\n\
               0,0,0 CopperBulb\n0,1,0 Lever support=0,-1,0\n0,0,4 CopperBulb\n0,1,4 RedstoneWire\n1,1,4 Lever\n",
        run: "switch 0,1,0 on\nswitch 1,1,4 on\nrow=0,0,0,0,0,0\nrow=0,0,4,0,15,0\ntick 1\nlamp=0,0,0,0\nlamp=0,0,4,1\n",
    },
    Trial {
        what: "bulbs of every shape under a lever: the plain one and the double slab have power",
        rows: "0,0,0 CopperBulb\n0,1,0 Lever support=0,-1,0 powered=true\n\
               3,0,0 CopperBulb shape=bottom_slab\n3,1,0 Lever support=0,-1,0 powered=true\n\
               6,0,0 CopperBulb shape=top_slab\n6,1,0 Lever support=0,-1,0 powered=true\n\
               9,0,0 CopperBulb shape=double_slab\n9,1,0 Lever support=0,-1,0 powered=true\n\
               12,0,0 CopperBulb shape=bottom_stairs\n12,1,0 Lever support=0,-1,0 powered=true\n\
               15,0,0 CopperBulb shape=top_stairs\n15,1,0 Lever support=0,-1,0 powered=true\n\
               18,0,0 CopperBulb shape=glass\n18,1,0 Lever support=0,-1,0 powered=true\n",
        run: "had_power=0,0,0,1\nhad_power=3,0,0,0\nhad_power=6,0,0,0\nhad_power=9,0,0,1\nhad_power=12,0,0,0\n\
              had_power=15,0,0,0\nhad_power=18,0,0,0\nswitch 0,1,0 off\nswitch 9,1,0 off\ntick 1\nhad_power=0,0,0,0\n\
              had_power=9,0,0,0\nswitch 0,1,0 on\nswitch 9,1,0 on\nswitch 18,1,0 off\ntick 1\nswitch 18,1,0 on\ntick 1\n\
              lamp=0,0,0,1\nlamp=3,0,0,0\nlamp=6,0,0,0\nlamp=9,0,0,1\nlamp=12,0,0,0\nlamp=15,0,0,0\nlamp=18,0,0,0\n",
    },
    Trial {
        what: "dust climbs onto a bulb, and past one over it",
        rows: "0,0,0 RedstoneBlock\n1,0,0 RedstoneWire\n2,0,0 CopperBulb\n2,1,0 RedstoneWire\n0,0,4 RedstoneBlock\n\
               1,0,4 RedstoneWire\n1,1,4 CopperBulb\n2,0,4 Solid\n2,1,4 RedstoneWire\n",
        run: "row=2,0,0,0,15,0\nrow=2,1,0,14,0,0\nrow=2,1,4,14,0,0\nrow=1,1,4,0,0,0\nhad_power=2,0,0,1\n\
              had_power=1,1,4,0\n",
    },
    Trial {
        what: "a facing, a level, a delay and a mode mean nothing to a bulb",
        rows: "0,0,0 CopperBulb facing=East powered=true level=7 delay=3 support=0,-1,0 mode=subtract\n\
               0,1,0 Lever support=0,-1,0\n1,0,0 RedstoneWire arms=West:Side\n",
        run: "row=0,0,0,0,0,0\nrow=1,0,0,0,0,0\nlamp=0,0,0,1\nswitch 0,1,0 on\ntick 1\nlamp=0,0,0,0\nrow=1,0,0,0,0,0\n",
    },
    Trial {
        what: "bulbs at the ends of the room",
        rows: "-1000000,-1000000,-1000000 CopperBulb\n-1000000,-999999,-1000000 Lever support=0,-1,0\n\
               1000000,999999,1000000 Lever support=0,1,0\n1000000,1000000,1000000 CopperBulb powered=true\n",
        run: "switch -1000000,-999999,-1000000 on\nswitch 1000000,999999,1000000 on\ntick 1\n\
              lamp=-1000000,-1000000,-1000000,1\nlamp=1000000,1000000,1000000,0\n",
    },
    Trial {
        what: "bulbs in all four states at once",
        rows: "0,0,0 CopperBulb\n2,0,0 CopperBulb powered=true\n4,0,0 CopperBulb\n4,1,0 Lever support=0,-1,0 powered=true\n\
               6,0,0 CopperBulb powered=true\n6,1,0 Lever support=0,-1,0 powered=true\n0,1,0 Lever support=0,-1,0\n\
               2,1,0 Lever support=0,-1,0\n",
        run: "switch 0,1,0 on\nswitch 2,1,0 on\nswitch 4,1,0 off\nswitch 6,1,0 off\ntick 1\nlamp=0,0,0,1\nlamp=2,0,0,0\n\
              lamp=4,0,0,0\nlamp=6,0,0,1\nhad_power=0,0,0,1\nhad_power=2,0,0,1\nhad_power=4,0,0,0\nhad_power=6,0,0,0\n\
              switch 0,1,0 off\nswitch 2,1,0 off\nswitch 4,1,0 on\nswitch 6,1,0 on\ntick 1\nlamp=0,0,0,1\nlamp=2,0,0,0\n\
              lamp=4,0,0,1\nlamp=6,0,0,0\n",
    },
];
