//! A run, with what stands beside what.

use redstone::{
    Arm, Circuit, Device, Facing, Kind, Refusal, Row, Settled, Shape, TORCH_CHARGES_ABOVE, redraw, rows,
};

use crate::device::place;
use crate::hall::Hall;
use crate::name::{find, moved, step};
use crate::run::{Frame, Run};

/// The sides of a block on its own level.
pub const SIDES: [Facing; 4] = [Facing::North, Facing::East, Facing::South, Facing::West];

fn opposite(facing: Facing) -> Facing {
    match facing {
        Facing::North => Facing::South,
        Facing::East => Facing::West,
        Facing::South => Facing::North,
        Facing::West => Facing::East,
        Facing::Up => Facing::Down,
        Facing::Down => Facing::Up,
    }
}

const BELOW: [i8; 3] = [0, -1, 0];

/// The support offset; of what can only lie on the block below, that one for want of the field.
fn support_in_game(row: &Row) -> Option<[i8; 3]> {
    let lies = matches!(row.kind(), Kind::RedstoneWire | Kind::Repeater | Kind::Comparator);
    row.support().or(lies.then_some(BELOW))
}

/// A run with what stands beside what.
pub struct View<'a> {
    pub run: &'a Run,
    /// The hall before anything is switched, even at tick 0.
    pub fresh: Frame,
    /// The bulbs that get power by a switch, and not by a tick.
    pub switched_bulbs: Vec<usize>,
    profile: &'a [u8],
    /// The rows after a redraw, which shows where a line of dust ends.
    redrawn: Vec<Row>,
    /// The rows that the support list names.
    pub unsupported: Vec<usize>,
    /// Those that it names even where dust, repeaters and comparators without a support field rest on the block below.
    pub without_floor: Vec<usize>,
    /// For each row, the rows at its six sides, in the order of the facings.
    around: Vec<[Option<usize>; 6]>,
}

impl<'a> View<'a> {
    pub fn new(hall: &'a Hall, run: &'a Run) -> Result<Self, Refusal> {
        let mut table = hall.fresh.table().to_vec();
        redraw(hall.fresh.profile(), &mut table)?;
        let redrawn = rows(&table).unwrap_or_default();
        let around = |row: &Row| {
            let at = |facing: &Facing| find(&run.rows, moved(row.position(), step(*facing)));
            [0, 1, 2, 3, 4, 5].map(|number: usize| Facing::ALL.get(number).and_then(at))
        };
        let resting = run.rows.iter().map(|row| row.with_support(support_in_game(row)));
        Ok(Self {
            run,
            fresh: Frame::of(&hall.fresh, Vec::new()),
            switched_bulbs: switched_bulbs(hall, run)?,
            profile: hall.fresh.profile(),
            redrawn,
            unsupported: hall.fresh.unsupported()?,
            without_floor: Circuit::new(hall.fresh.profile(), resting)?.unsupported()?,
            around: run.rows.iter().map(around).collect(),
        })
    }

    pub fn row(&self, row: usize) -> &Row {
        &self.run.rows[row]
    }

    pub fn kind(&self, row: usize) -> Kind {
        self.row(row).kind()
    }

    pub fn is_bulb(&self, row: usize) -> bool {
        self.kind(row) == Kind::CopperBulb
    }

    /// Whether a row is a lamp or a bulb, which the game powers as devices and not as blocks alone.
    pub fn is_light(&self, row: usize) -> bool {
        self.kind(row) == Kind::RedstoneLamp || self.is_bulb(row)
    }

    /// The row at a side of a row.
    pub fn at(&self, row: usize, side: Facing) -> Option<usize> {
        self.around[row][usize::from(side.code()) - 1]
    }

    pub fn around(&self, row: usize) -> impl Iterator<Item = usize> {
        self.around[row].into_iter().flatten()
    }

    pub fn beside(&self, row: usize) -> impl Iterator<Item = usize> {
        SIDES.into_iter().filter_map(move |side| self.at(row, side))
    }

    fn at_step(&self, row: usize, step: [i8; 3]) -> Option<usize> {
        find(&self.run.rows, moved(self.row(row).position(), step.map(i32::from)))
    }

    /// The row at the support offset.
    pub fn support(&self, row: usize) -> Option<usize> {
        self.at_step(row, self.row(row).support()?)
    }

    /// Whether nothing holds a row at its support, which is known.
    pub fn lacks_floor(&self, row: usize) -> bool {
        support_in_game(self.row(row)).is_some() && self.without_floor.contains(&row)
    }

    /// Whether a lever is fixed under a bottom slab or bottom stairs, or a lever or torch at the side of such stairs.
    pub fn hangs_on_full_side(&self, row: usize) -> bool {
        let shape = self.support(row).map(|block| self.row(block).shape());
        match (self.kind(row), self.row(row).support()) {
            (Kind::Lever, Some([0, 1, 0])) => matches!(shape, Some(Shape::BottomSlab | Shape::BottomStairs)),
            (Kind::Lever | Kind::RedstoneTorch, Some([-1 | 1, 0, 0] | [0, 0, -1 | 1])) => {
                shape == Some(Shape::BottomStairs)
            }
            _ => false,
        }
    }

    /// Whether a row is fixed to the top of a piston.
    pub fn lies_on_piston(&self, row: usize) -> bool {
        let below = self.at(row, Facing::Down).map(|block| self.kind(block));
        support_in_game(self.row(row)) == Some(BELOW) && below == Some(Kind::Piston)
    }

    /// Where a repeater or comparator faces, if it is along the ground.
    fn direction(&self, row: usize) -> Option<Facing> {
        let is_directed = matches!(self.kind(row), Kind::Repeater | Kind::Comparator);
        self.row(row).facing().filter(|facing| is_directed && SIDES.contains(facing))
    }

    fn output(&self, row: usize) -> Option<usize> {
        self.at(row, self.direction(row)?)
    }

    pub fn input(&self, row: usize) -> Option<usize> {
        self.at(row, opposite(self.direction(row)?))
    }

    /// The block behind the one that a comparator has as its input, if in the game it reads through that: a block that
    /// takes power and has less than 15 at some tick.
    pub fn input_behind_block(&self, row: usize) -> Option<usize> {
        let block = self.input(row)?;
        let is_read_through = self.takes_power(block) && self.ever(|frame| self.power(frame, block) < 15);
        self.at(block, opposite(self.direction(row)?)).filter(|_| is_read_through)
    }

    pub fn sides(&self, row: usize) -> impl Iterator<Item = usize> {
        let direction = self.direction(row);
        let is_across =
            move |side: &Facing| direction.is_some_and(|along| along != *side && opposite(along) != *side);
        SIDES.into_iter().filter(is_across).filter_map(move |side| self.at(row, side))
    }

    pub fn ever(&self, holds: impl Fn(&Frame) -> bool) -> bool {
        self.run.frames.iter().any(holds)
    }

    pub fn ever_gives(&self, row: usize) -> bool {
        self.ever(|frame| frame.figures(row).signal > 0)
    }

    /// Whether a kind has one of these values in the profile.
    fn has_property(&self, kind: Kind, values: u8) -> bool {
        self.profile.get(usize::from(kind.code())).is_some_and(|properties| properties & values != 0)
    }

    /// Whether a row can have weak or strong power.
    pub fn takes_power(&self, row: usize) -> bool {
        const WEAK_AND_STRONG: u8 = 6;
        match self.row(row).shape() {
            Shape::Plain => self.has_property(self.kind(row), WEAK_AND_STRONG),
            shape => shape == Shape::DoubleSlab,
        }
    }

    /// Whether a lit torch gives power to the block above, as in the game.
    pub fn torches_charge_above(&self) -> bool {
        self.has_property(Kind::RedstoneTorch, TORCH_CHARGES_ABOVE)
    }

    /// Whether a row is a repeater with a bulb at its input, of which it reads the power.
    pub fn is_bulb_read_by_repeater(&self, bulb: usize, row: usize) -> bool {
        const READ_BY_REPEATERS: u8 = 8;
        let is_read = self.has_property(Kind::CopperBulb, READ_BY_REPEATERS);
        is_read && self.kind(row) == Kind::Repeater && self.input(row) == Some(bulb)
    }

    /// Whether a row is dust that takes the strong power of a bulb: over it, under it, or with an arm to it.
    pub fn is_dust_driven_by_bulb(&self, bulb: usize, row: usize) -> bool {
        const DRIVES_DUST: u8 = 16;
        let arms = self.row(row).arms().unwrap_or_default();
        let has_arm = |(side, arm): (Facing, Option<Arm>)| {
            matches!(arm, Some(Arm::Side | Arm::Up)) && self.at(row, side) == Some(bulb)
        };
        self.has_property(Kind::CopperBulb, DRIVES_DUST)
            && self.kind(row) == Kind::RedstoneWire
            && (!self.beside(row).any(|block| block == bulb) || SIDES.into_iter().zip(arms).any(has_arm))
    }

    /// Whether a torch, repeater or comparator, beside a block, answers to its power.
    pub fn is_device_that_reads(&self, row: usize, block: usize) -> bool {
        match self.kind(row) {
            Kind::RedstoneTorch => self.support(row) == Some(block),
            Kind::Comparator => self.input(row) == Some(block) || self.sides(row).any(|side| side == block),
            _ => self.input(row) == Some(block),
        }
    }

    /// Whether a torch, repeater or comparator beside a block answers to its power.
    pub fn is_read(&self, block: usize) -> bool {
        self.around(block).any(|other| self.is_device_that_reads(other, block))
    }

    /// Whether a row, beside a block with strong power, answers to it.
    pub fn reads(&self, row: usize, block: usize) -> bool {
        self.kind(row) == Kind::RedstoneWire || self.is_light(row) || self.is_device_that_reads(row, block)
    }

    pub fn powered_by_redstone_block(&self, row: usize) -> bool {
        self.takes_power(row) && self.around(row).any(|other| self.kind(other) == Kind::RedstoneBlock)
    }

    fn power(&self, frame: &Frame, row: usize) -> u8 {
        frame.figures(row).weak.max(frame.figures(row).strong)
    }

    pub fn has_power(&self, frame: &Frame, row: usize) -> bool {
        self.power(frame, row) > 0
    }

    /// Whether nothing beside a bulb with power has power in the game: there are bulbs (58), and blocks that a redstone
    /// block alone powers (2, 3).
    pub fn is_powered_here_alone(&self, frame: &Frame, bulb: usize) -> bool {
        let gives = |row: usize| frame.figures(row).signal > 0;
        let by_redstone_block = |block: usize| {
            let is_such = |other: usize| self.kind(other) == Kind::RedstoneBlock;
            self.around(block).any(is_such) && self.around(block).all(|other| is_such(other) || !gives(other))
        };
        self.around(bulb).all(|block| {
            !gives(block)
                && (self.is_bulb(block) || !self.has_power(frame, block) || by_redstone_block(block))
        })
    }

    /// Whether a block has weak power alone, and no dust gives it.
    pub fn is_powered_by_blocks(&self, frame: &Frame, row: usize) -> bool {
        let dust_beside = self.around(row).any(|other| self.is_dust_with_power(frame, other));
        frame.figures(row).weak > 0 && frame.figures(row).strong == 0 && !dust_beside
    }

    /// Whether a strongly powered block that is no bulb is at one of the six sides.
    pub fn is_beside_strong_block(&self, frame: &Frame, row: usize) -> bool {
        self.around(row).any(|other| !self.is_bulb(other) && frame.figures(other).strong > 0)
    }

    pub fn is_dust_with_power(&self, frame: &Frame, row: usize) -> bool {
        self.kind(row) == Kind::RedstoneWire && frame.figures(row).signal > 0
    }

    /// Whether a block that gives power on in the game has weak power alone, and dust gives it: dust that lies on it, or
    /// for want of a strongly powered block beside it, which would give it here and not in the game (4).
    pub fn is_powered_by_dust(&self, frame: &Frame, block: usize) -> bool {
        let figures = frame.figures(block);
        let over = self.at(block, Facing::Up).is_some_and(|dust| self.is_dust_with_power(frame, dust));
        let strong_beside = self.around(block).any(|other| frame.figures(other).strong > 0);
        !self.is_bulb(block) && figures.weak > 0 && figures.strong == 0 && (over || !strong_beside)
    }

    /// Whether a repeater or comparator beside a row is ever on and does not point at it.
    pub fn points_past(&self, device: usize, row: usize) -> bool {
        let is_such = matches!(self.kind(device), Kind::Repeater | Kind::Comparator);
        is_such && self.output(device) != Some(row) && self.ever_gives(device)
    }

    pub fn has_arm_up(&self, dust: usize) -> bool {
        let arms = self.redrawn.get(dust).and_then(Row::arms).unwrap_or_default();
        self.kind(dust) == Kind::RedstoneWire && arms.contains(&Some(Arm::Up))
    }

    /// Whether dust that ever has power ends, as a line, towards a block at the opposite of this side of the dust: the
    /// redraw gives it an arm there that it has not.
    pub fn ends_towards(&self, dust: usize, side_of_block: Facing) -> bool {
        let arm = |row: Option<&Row>| {
            let side = SIDES.iter().position(|side| *side == opposite(side_of_block))?;
            row.and_then(Row::arms)?[side]
        };
        self.kind(dust) == Kind::RedstoneWire
            && arm(self.redrawn.get(dust)) == Some(Arm::Side)
            && !matches!(arm(Some(self.row(dust))), Some(Arm::Side | Arm::Up))
            && self.ever_gives(dust)
    }

    /// Whether dust that ever has power connects to nothing.
    pub fn is_alone(&self, dust: usize) -> bool {
        let arms = |row: Option<&Row>| row.and_then(Row::arms).unwrap_or_default();
        self.kind(dust) == Kind::RedstoneWire
            && arms(self.redrawn.get(dust)) == [None; 4]
            && !arms(Some(self.row(dust))).iter().any(|arm| matches!(arm, Some(Arm::Side | Arm::Up)))
            && self.ever_gives(dust)
    }

    /// Whether a lamp or bulb has no power at a tick at which something holds of a block at one of its sides.
    pub fn is_powerless_light_while(&self, row: usize, holds: impl Fn(&Frame, usize) -> bool) -> bool {
        self.is_light(row)
            && self.ever(|frame| {
                !self.has_power(frame, row) && self.around(row).any(|other| holds(frame, other))
            })
    }

    /// Whether a torch is fixed to a block: by its field, or for want of one to the block below.
    pub fn stands_on(&self, torch: usize, block: usize) -> bool {
        let block_of_torch = match self.row(torch).support() {
            Some(_) => self.support(torch),
            None => self.at(torch, Facing::Down),
        };
        block_of_torch == Some(block)
    }

    /// Whether a device changes before anything is switched.
    pub fn changes_by_itself(&self, row: usize) -> bool {
        let first_switch = self.run.frames.iter().position(|frame| !frame.switches.is_empty());
        let frames = &self.run.frames[..=first_switch.unwrap_or(self.run.last_tick())];
        place(self.kind(row)).is_some() && frames.iter().any(|frame| frame.given(row) != frames[0].given(row))
    }

    /// The fewest ticks for which a repeater gives a value between two times at which it gives the other.
    pub fn shortest(&self, row: usize, value: u8) -> Option<usize> {
        if self.kind(row) != Kind::Repeater {
            return None;
        }
        let given = self.run.given(row);
        let mut spans: Vec<_> = given.chunk_by(|one, next| one == next).collect();
        // The first and the last are cut off by the ends of the run.
        spans.pop();
        spans.iter().skip(1).filter(|span| span[0] == value).map(|span| span.len()).min()
    }

    /// Whether this holds of a lamp's power, light and ticks left when something is switched.
    pub fn has_lamp_at_switch(&self, row: usize, holds: fn(bool, bool, u8) -> bool) -> bool {
        let mut frames = self.run.frames.iter().filter(|frame| !frame.switches.is_empty());
        frames.any(|frame| match frame.devices[row] {
            Device::Lamp { lit, ticks_left } => holds(self.has_power(frame, row), lit, ticks_left),
            _ => false,
        })
    }
}

/// The bulbs that get power by a switch, tick by tick and switch by switch: of those of one tick a frame has only the last.
fn switched_bulbs(hall: &Hall, run: &Run) -> Result<Vec<usize>, Refusal> {
    let is_bulb = |row: &usize| run.rows[*row].kind() == Kind::CopperBulb;
    let bulbs: Vec<_> = (0..run.rows.len()).filter(is_bulb).collect();
    let mut found = Vec::new();
    if bulbs.is_empty() {
        return Ok(found);
    }
    let mut circuit = hall.fresh.clone();
    for (tick, frame) in run.ticks().filter(|(_, frame)| !frame.switches.is_empty()) {
        circuit.tick(tick as u32 - circuit.tick_number())?;
        for switch in &frame.switches {
            let before = circuit.settled().clone();
            circuit.switch(switch.position, switch.on)?;
            let has_power =
                |settled: &Settled, row: usize| settled.weak()[row].max(settled.strong()[row]) > 0;
            let gets_power = |row: &usize| !has_power(&before, *row) && has_power(circuit.settled(), *row);
            found.extend(bulbs.iter().copied().filter(gets_power));
        }
    }
    Ok(found)
}
