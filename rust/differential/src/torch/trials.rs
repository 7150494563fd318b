//! What Change 3 is tried on: small tables with figures by hand, and every torch under every block.

use redstone::{Kind, Row, Shape};
use redstone_text::Table;

use crate::generate::{BENCH_PROFILE_WITH_BULB, BULB, Case, TORCH};
use crate::table::ABOVE;

/// The bench profile with such a byte for the torch.
pub fn profile(torch: u8) -> [u8; 14] {
    let mut profile = BENCH_PROFILE_WITH_BULB;
    profile[TORCH] = torch;
    profile
}

/// A torch and what is over it, if anything, under the bench profile with such a byte for the torch.
#[derive(Clone, Copy, Debug)]
pub struct Pair {
    pub torch: Row,
    pub over: Option<Row>,
    pub byte: u8,
}

impl Pair {
    pub fn case(&self) -> Case {
        Case::new("torch and block", profile(self.byte), [self.torch].into_iter().chain(self.over))
    }
}

/// Without the value, and with it: alone, beside "supports components", beside "receives strong" and beside all others.
pub const BYTES: [u8; 6] = [0, 31, 32, 33, 36, 63];

/// Every torch under every block and under none, by every byte.
pub fn pairs() -> impl Iterator<Item = Pair> {
    let over = || blocks_over().map(Some).chain([None]);
    let under = move |torch| over().flat_map(move |over| BYTES.map(|byte| Pair { torch, over, byte }));
    torches().flat_map(under)
}

/// No support field, the block below, those beside, and the block above.
const SUPPORTS: [Option<[i8; 3]>; 7] = [
    None,
    Some([0, -1, 0]),
    Some([0, 0, -1]),
    Some([1, 0, 0]),
    Some([0, 0, 1]),
    Some([-1, 0, 0]),
    Some([0, 1, 0]),
];

/// Torches of every shape, with each support and each `powered`.
pub fn torches() -> impl Iterator<Item = Row> {
    let supported = |shape: Shape| SUPPORTS.map(|support| torch().with_shape(shape).with_support(support));
    let supported = Shape::ALL.iter().copied().flat_map(supported);
    supported.flat_map(|torch| [None, Some(false), Some(true)].map(|powered| torch.with_powered(powered)))
}

fn torch() -> Row {
    Row::new(Kind::RedstoneTorch, [0; 3])
}

/// Blocks of every kind and shape.
fn blocks_over() -> impl Iterator<Item = Row> {
    let shapes = |kind: Kind| Shape::ALL.iter().map(move |shape| Row::new(kind, ABOVE).with_shape(*shape));
    Kind::ALL.iter().copied().flat_map(shapes)
}

/// A table under the bench profile, and a run of it without profile value 32 and with it, as docs/DIFFERENCES.md has
/// them.
pub struct Trial {
    pub what: &'static str,
    pub rows: &'static str,
    pub without: &'static str,
    pub with: &'static str,
}

impl Trial {
    /// The table with such a byte for the torch, by a profile with a byte for the bulb and by one without.
    pub fn tables(&self, byte: u8) -> [Table; 2] {
        let table: Table = self.rows.parse().unwrap_or_else(|error| panic!("{}: {error}", self.what));
        let profile = profile(byte);
        [&profile[..], &profile[..BULB]].map(|profile| Table { profile: profile.to_vec(), ..table.clone() })
    }

    pub fn cases(&self, byte: u8) -> [Case; 2] {
        self.tables(byte).map(|Table { profile, rows }| Case::new("trial", profile, rows))
    }
}

pub const TRIALS: [Trial; 31] = [
    Trial {
        what: "a standing torch",
        rows: "0,0,0 RedstoneTorch support=0,-1,0\n0,1,0 Solid\n",
        without: "row=0,0,0,15,0,0\nrow=0,1,0,0,0,0\ntick 100\nrow=0,1,0,0,0,0\n",
        with: "row=0,0,0,15,0,0\nrow=0,1,0,0,0,15\ntick 100\nrow=0,1,0,0,0,15\n",
    },
    Trial {
        what: "a torch without a support field, lit a tick later",
        rows: "0,0,0 RedstoneTorch powered=false\n0,1,0 Solid\n",
        without: "row=0,1,0,0,0,0\ntick 1\nrow=0,0,0,15,0,0\nrow=0,1,0,0,0,0\n",
        with: "row=0,1,0,0,0,0\ntick 1\nrow=0,0,0,15,0,0\nrow=0,1,0,0,0,15\n",
    },
    Trial {
        what: "four torches on walls",
        rows: "-1,0,0 RedstoneTorch support=1,0,0\n-1,1,0 Solid\n0,0,-1 RedstoneTorch support=0,0,1\n\
                0,0,0 Solid\n0,0,1 RedstoneTorch support=0,0,-1\n0,1,-1 Solid\n0,1,1 Solid\n\
                1,0,0 RedstoneTorch support=-1,0,0\n1,1,0 Solid\n",
        without: "tick 10\nrow=-1,1,0,0,0,0\nrow=0,0,0,0,0,0\nrow=0,1,-1,0,0,0\nrow=0,1,1,0,0,0\nrow=1,1,0,0,0,0\n",
        with: "tick 10\nrow=-1,1,0,0,0,15\nrow=0,0,0,0,0,0\nrow=0,1,-1,0,0,15\nrow=0,1,1,0,0,15\nrow=1,1,0,0,0,15\n",
    },
    Trial {
        what: "a torch that hangs from the block above is put out by its own charge",
        rows: "0,0,0 RedstoneTorch support=0,1,0\n0,1,0 Solid\n",
        without: "row=0,1,0,0,0,0\ntick 1\ndevice=0,0,0,1\ntick 99\ndevice=0,0,0,1\ncandidate=0,0,0,0\n",
        with: "row=0,1,0,0,0,15\ntick 1\ndevice=0,0,0,0\nrow=0,1,0,0,0,0\ntick 1\ndevice=0,0,0,1\n\
               row=0,1,0,0,0,15\ntick 5\ncandidate=0,0,0,0\ntick 1\ncandidate=0,0,0,1\ntick 91\ndevice=0,0,0,0\n\
               tick 1\ndevice=0,0,0,1\n",
    },
    Trial {
        what: "torches of every other shape",
        rows: "0,0,0 RedstoneTorch shape=bottom_slab\n0,1,0 Solid\n2,0,0 RedstoneTorch shape=top_slab\n2,1,0 Solid\n\
                4,0,0 RedstoneTorch shape=double_slab\n4,1,0 Solid\n6,0,0 RedstoneTorch shape=bottom_stairs\n\
                6,1,0 Solid\n8,0,0 RedstoneTorch shape=top_stairs\n8,1,0 Solid\n10,0,0 RedstoneTorch shape=glass\n\
                10,1,0 Solid\n",
        without: "row=0,1,0,0,0,0\nrow=2,1,0,0,0,0\nrow=4,0,0,15,0,0\nrow=4,1,0,0,0,0\nrow=6,1,0,0,0,0\n\
                  row=8,1,0,0,0,0\nrow=10,1,0,0,0,0\n",
        with: "row=0,1,0,0,0,15\nrow=2,1,0,0,0,15\nrow=4,0,0,15,15,0\nrow=4,1,0,0,0,15\nrow=6,1,0,0,0,15\n\
               row=8,1,0,0,0,15\nrow=10,1,0,0,0,15\n",
    },
    Trial {
        what: "torches of every facing",
        rows: "0,0,0 RedstoneTorch facing=North\n0,1,0 Solid\n2,0,0 RedstoneTorch facing=East\n2,1,0 Solid\n\
               4,0,0 RedstoneTorch facing=South\n4,1,0 Solid\n6,0,0 RedstoneTorch facing=West\n6,1,0 Solid\n\
               8,0,0 RedstoneTorch facing=Up\n8,1,0 Solid\n10,0,0 RedstoneTorch facing=Down\n10,1,0 Solid\n",
        without: "row=0,1,0,0,0,0\nrow=2,1,0,0,0,0\nrow=4,1,0,0,0,0\nrow=6,1,0,0,0,0\nrow=8,1,0,0,0,0\n\
                  row=10,1,0,0,0,0\n",
        with: "row=0,1,0,0,0,15\nrow=2,1,0,0,0,15\nrow=4,1,0,0,0,15\nrow=6,1,0,0,0,15\nrow=8,1,0,0,0,15\n\
               row=10,1,0,0,0,15\n",
    },
    Trial {
        what: "what is no torch",
        rows: "0,0,0 Repeater facing=East powered=true\n0,1,0 Solid\n3,0,0 Comparator facing=East level=15\n3,1,0 Solid\n\
                6,0,0 Lever support=0,-1,0 powered=true\n6,1,0 Solid\n",
        without: "row=0,0,0,15,0,0\nrow=0,1,0,0,0,0\nrow=3,1,0,0,0,0\nrow=6,1,0,0,0,0\n",
        with: "row=0,0,0,15,0,0\nrow=0,1,0,0,0,0\nrow=3,1,0,0,0,0\nrow=6,1,0,0,0,0\n",
    },
    Trial {
        what: "a lamp over the torch",
        rows: "0,0,0 RedstoneTorch\n0,1,0 RedstoneLamp\n",
        without: "row=0,1,0,0,0,0\nlamp=0,1,0,0\n",
        with: "row=0,1,0,0,0,15\nlamp=0,1,0,1\n",
    },
    Trial {
        what: "a double slab of kind Transparent over the torch",
        rows: "0,0,0 RedstoneTorch\n0,1,0 Transparent shape=double_slab\n0,2,0 RedstoneWire\n",
        without: "row=0,1,0,0,0,0\nrow=0,2,0,0,0,0\n",
        with: "row=0,1,0,0,15,15\nrow=0,2,0,15,0,0\n",
    },
    Trial {
        what: "what receives no strong power",
        rows: "0,0,0 RedstoneTorch\n0,1,0 Transparent\n2,0,0 RedstoneTorch\n2,1,0 Solid shape=glass\n\
                4,0,0 RedstoneTorch\n4,1,0 Solid shape=top_slab\n4,2,0 RedstoneWire\n6,0,0 RedstoneTorch\n\
                6,1,0 Solid shape=bottom_stairs\n8,0,0 RedstoneTorch\n8,1,0 Piston\n10,0,0 RedstoneTorch\n\
                10,1,0 RedstoneBlock\n12,0,0 RedstoneTorch\n12,1,0 Repeater facing=East\n",
        without: "row=0,1,0,0,0,0\nrow=2,1,0,0,0,0\nrow=4,1,0,0,0,0\nrow=4,2,0,0,0,0\nrow=6,1,0,0,0,0\n\
                  row=8,1,0,0,0,0\nrow=10,1,0,15,0,0\nrow=12,1,0,0,0,0\n",
        with: "row=0,1,0,0,0,0\nrow=2,1,0,0,0,0\nrow=4,1,0,0,0,0\nrow=4,2,0,0,0,0\nrow=6,1,0,0,0,0\n\
               row=8,1,0,0,0,0\nrow=10,1,0,15,0,0\nrow=12,1,0,0,0,0\n",
    },
    Trial {
        what: "dust over the torch, which the torch lights as before",
        rows: "0,0,0 RedstoneTorch\n0,1,0 RedstoneWire\n",
        without: "row=0,1,0,15,0,0\n",
        with: "row=0,1,0,15,0,0\n",
    },
    Trial {
        what: "nothing over the torch, and a block over that",
        rows: "0,0,0 RedstoneTorch\n0,2,0 Solid\n",
        without: "row=0,2,0,0,0,0\n",
        with: "row=0,2,0,0,0,0\n",
    },
    Trial {
        what: "a torch over a torch",
        rows: "0,0,0 RedstoneTorch\n0,1,0 RedstoneTorch\n0,2,0 Solid\n",
        without: "row=0,1,0,15,0,0\nrow=0,2,0,0,0,0\n",
        with: "row=0,1,0,15,0,0\nrow=0,2,0,0,0,15\n",
    },
    Trial {
        what: "two torches side by side under two blocks",
        rows: "0,0,0 RedstoneTorch\n0,1,0 Solid\n1,0,0 RedstoneTorch\n1,1,0 Solid\n",
        without: "row=0,1,0,0,0,0\nrow=1,1,0,0,0,0\n",
        with: "row=0,1,0,0,15,15\nrow=1,1,0,0,15,15\n",
    },
    Trial {
        what: "of two torches side by side one that is out",
        rows: "0,0,0 RedstoneTorch\n0,1,0 Solid\n1,0,0 RedstoneTorch powered=false\n1,1,0 Solid\n",
        without: "row=0,1,0,0,0,0\nrow=1,1,0,0,0,0\n",
        with: "row=0,1,0,0,0,15\nrow=1,1,0,0,15,0\n",
    },
    Trial {
        what: "one torch under a block that is out, and one beside it that is lit",
        rows: "0,0,0 RedstoneTorch powered=false\n0,1,0 Solid\n1,1,0 RedstoneTorch\n",
        without: "row=0,1,0,0,0,0\ntick 1\nrow=0,1,0,0,0,0\n",
        with: "row=0,1,0,0,0,0\ntick 1\nrow=0,1,0,0,0,15\n",
    },
    Trial {
        what: "one torch under a block that is lit, and one beside it that is out",
        rows: "0,0,0 RedstoneTorch\n0,1,0 Solid\n1,1,0 RedstoneTorch powered=false\n",
        without: "row=0,1,0,0,0,0\n",
        with: "row=0,1,0,0,0,15\n",
    },
    Trial {
        what: "dust on the block",
        rows: "0,0,0 RedstoneTorch\n0,1,0 Solid\n0,2,0 RedstoneWire\n",
        without: "row=0,1,0,0,0,0\nrow=0,2,0,0,0,0\n",
        with: "row=0,1,0,0,15,15\nrow=0,2,0,15,0,0\n",
    },
    Trial {
        what: "dust beside the block, with an arm to it and without",
        rows: "0,0,0 RedstoneTorch\n0,1,0 Solid\n0,1,1 RedstoneWire\n1,1,0 RedstoneWire arms=East:Side,West:Side\n\
                2,1,0 RedstoneWire\n",
        without: "row=0,1,0,0,0,0\nrow=0,1,1,0,0,0\nrow=1,1,0,0,0,0\nrow=2,1,0,0,0,0\n",
        with: "row=0,1,0,0,15,15\nrow=0,1,1,0,0,0\nrow=1,1,0,15,0,0\nrow=2,1,0,14,0,0\n",
    },
    Trial {
        what: "a repeater that reads the block",
        rows: "0,0,0 RedstoneTorch\n0,1,0 Solid\n1,1,0 Repeater facing=East delay=2\n2,1,0 RedstoneWire\n",
        without: "tick 100\ndevice=1,1,0,0\nrow=2,1,0,0,0,0\n",
        with: "tick 1\ndevice=1,1,0,0\ntick 1\ndevice=1,1,0,1\nrow=2,1,0,15,0,0\n",
    },
    Trial {
        what: "a comparator that reads the block",
        rows: "0,0,0 RedstoneTorch\n0,1,0 Solid\n1,1,0 Comparator facing=East\n2,1,0 RedstoneWire\n",
        without: "tick 100\ndevice=1,1,0,0\nrow=2,1,0,0,0,0\n",
        with: "tick 1\ndevice=1,1,0,15\nrow=2,1,0,15,0,0\n",
    },
    Trial {
        what: "a comparator with the block at its side",
        rows: "-1,1,1 RedstoneBlock\n0,0,0 RedstoneTorch\n0,1,0 Solid\n0,1,1 Comparator facing=East mode=subtract\n",
        without: "tick 1\ndevice=0,1,1,15\n",
        with: "tick 1\ndevice=0,1,1,0\n",
    },
    Trial {
        what: "a lamp beside the block, and one beside that",
        rows: "0,0,0 RedstoneTorch\n0,1,0 Solid\n1,1,0 RedstoneLamp\n2,1,0 RedstoneLamp\n",
        without: "row=1,1,0,0,0,0\nlamp=1,1,0,0\nlamp=2,1,0,0\n",
        with: "row=1,1,0,0,15,0\nlamp=1,1,0,1\nrow=2,1,0,0,0,0\nlamp=2,1,0,0\n",
    },
    Trial {
        what: "lamps beside and below the torch",
        rows: "-1,0,0 Solid\n0,-1,0 RedstoneLamp\n0,0,0 RedstoneTorch support=-1,0,0\n0,1,0 Solid\n1,0,0 RedstoneLamp\n",
        without: "tick 10\nrow=0,-1,0,0,0,0\nrow=0,1,0,0,0,0\nrow=1,0,0,0,0,0\nlamp=0,-1,0,0\nlamp=1,0,0,0\n",
        with: "tick 10\nrow=0,-1,0,0,0,0\nrow=0,1,0,0,0,15\nrow=1,0,0,0,0,0\nlamp=0,-1,0,0\nlamp=1,0,0,0\n",
    },
    Trial {
        what: "torches on the block: one stands, one is on its wall",
        rows: "0,0,0 RedstoneTorch\n0,1,0 Solid\n0,2,0 RedstoneTorch support=0,-1,0\n1,1,0 RedstoneTorch support=-1,0,0\n",
        without: "tick 100\ndevice=0,2,0,1\ndevice=1,1,0,1\n",
        with: "device=0,2,0,1\ntick 1\ndevice=0,2,0,0\ndevice=1,1,0,0\ntick 99\ndevice=0,2,0,0\ndevice=1,1,0,0\n",
    },
    Trial {
        what: "a torch on the block beside",
        rows: "0,0,0 RedstoneTorch\n0,1,0 Solid\n1,1,0 Solid\n2,1,0 RedstoneTorch support=-1,0,0\n",
        without: "tick 100\nrow=1,1,0,0,0,0\ndevice=2,1,0,1\n",
        with: "row=1,1,0,0,15,0\ntick 1\ndevice=2,1,0,0\n",
    },
    Trial {
        what: "a tower of four torches",
        rows: "0,0,0 RedstoneTorch\n0,1,0 Solid\n0,2,0 RedstoneTorch support=0,-1,0\n0,3,0 Solid\n\
                0,4,0 RedstoneTorch support=0,-1,0\n0,5,0 Solid\n0,6,0 RedstoneTorch support=0,-1,0\n0,7,0 Solid\n",
        without: "tick 100\ndevice=0,0,0,1\ndevice=0,2,0,1\ndevice=0,4,0,1\ndevice=0,6,0,1\nrow=0,7,0,0,0,0\n",
        with: "row=0,7,0,0,0,15\ntick 1\ndevice=0,0,0,1\ndevice=0,2,0,0\ndevice=0,4,0,0\ndevice=0,6,0,0\ntick 1\n\
               device=0,0,0,1\ndevice=0,2,0,0\ndevice=0,4,0,1\ndevice=0,6,0,1\ntick 1\ndevice=0,4,0,1\n\
               device=0,6,0,0\ntick 97\ndevice=0,0,0,1\ndevice=0,2,0,0\ndevice=0,4,0,1\ndevice=0,6,0,0\n\
               row=0,1,0,0,0,15\nrow=0,3,0,0,0,0\nrow=0,5,0,0,0,15\nrow=0,7,0,0,0,0\n",
    },
    Trial {
        what: "a torch whose charge dust leads back to its support",
        rows: "0,0,0 Solid\n0,1,0 RedstoneWire\n1,0,0 RedstoneTorch support=-1,0,0\n1,1,0 Solid\n1,2,0 RedstoneWire\n",
        without: "tick 100\ndevice=1,0,0,1\nrow=0,0,0,0,0,0\ncandidate=1,0,0,0\n",
        with: "row=0,0,0,0,15,0\nrow=0,1,0,15,0,0\nrow=1,1,0,0,15,15\nrow=1,2,0,15,0,0\ntick 1\ndevice=1,0,0,0\n\
               row=0,0,0,0,0,0\nrow=0,1,0,0,0,0\nrow=1,1,0,0,0,0\ntick 1\ndevice=1,0,0,1\nrow=0,0,0,0,15,0\ntick 5\n\
               candidate=1,0,0,0\ntick 1\ncandidate=1,0,0,1\ntick 91\ndevice=1,0,0,0\ntick 1\ndevice=1,0,0,1\n",
    },
    Trial {
        what: "a lever that puts the torch out, and a lamp beside the block",
        rows: "0,0,0 Solid\n0,1,0 Lever support=0,-1,0\n1,0,0 RedstoneTorch support=-1,0,0\n1,1,0 Solid\n2,1,0 RedstoneLamp\n",
        without: "lamp=2,1,0,0\nswitch 0,1,0 on\ntick 1\nrow=1,1,0,0,0,0\nswitch 0,1,0 off\ntick 1\nrow=1,1,0,0,0,0\n\
                  lamp=2,1,0,0\n",
        with: "row=1,1,0,0,0,15\nlamp=2,1,0,1\nswitch 0,1,0 on\nrow=1,1,0,0,0,15\ntick 1\nrow=1,1,0,0,0,0\n\
               row=2,1,0,0,0,0\nlamp=2,1,0,1\ntick 2\nlamp=2,1,0,0\nswitch 0,1,0 off\nrow=1,1,0,0,0,0\ntick 1\n\
               row=1,1,0,0,0,15\nlamp=2,1,0,1\n",
    },
    Trial {
        what: "of several charges the largest",
        rows: "-1,1,0 Comparator facing=East level=9\n0,0,0 RedstoneTorch\n0,1,0 Solid\n4,0,0 RedstoneTorch\n\
                4,1,0 Solid\n4,2,0 Lever support=0,-1,0 powered=true level=7\n",
        without: "row=0,1,0,0,0,9\nrow=4,1,0,0,0,7\n",
        with: "row=0,1,0,0,0,15\nrow=4,1,0,0,0,15\n",
    },
    Trial {
        what: "the highest block that there is",
        rows: "0,999999,0 RedstoneTorch\n0,1000000,0 Solid\n2,1000000,0 RedstoneTorch\n",
        without: "row=0,1000000,0,0,0,0\nrow=2,1000000,0,15,0,0\n",
        with: "row=0,1000000,0,0,0,15\nrow=2,1000000,0,15,0,0\n",
    },
];
