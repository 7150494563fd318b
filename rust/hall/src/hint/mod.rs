//! Hints: the commonest circuits in which the game differs from the bench, by the numbers of docs/DIFFERENCES.md. They are
//! no figures, and change none.

mod view;

use std::fmt::{self, Display, Formatter};

use redstone::{Device, Facing, Kind, Refusal};

use self::view::{SIDES, View};
use crate::hall::Hall;
use crate::name::{block_name, is_switch};
use crate::run::{Frame, Run};

/// A circuit in which the game differs, and where the hall has it.
#[derive(Clone, Debug, Eq, PartialEq)]
pub struct Hint {
    /// The number in docs/DIFFERENCES.md.
    pub number: u8,
    /// What the hall has, and what the game makes of it.
    pub sentence: &'static str,
    /// The blocks and their places.
    pub blocks: Vec<String>,
}

/// The most blocks that a hint names.
const MOST_NAMED: usize = 6;

/// The blocks and the sentence.
impl Display for Hint {
    fn fmt(&self, f: &mut Formatter<'_>) -> fmt::Result {
        let named = self.blocks.len().min(MOST_NAMED);
        write!(f, "{}", self.blocks[..named].join(", "))?;
        match self.blocks.len() - named {
            0 => {}
            more => write!(f, " and {more} more")?,
        }
        write!(f, ": {}", self.sentence)
    }
}

/// The hints of a hall's run, by number.
///
/// # Errors
///
/// None: no call refuses what it has accepted.
pub fn hints(hall: &Hall, run: &Run) -> Result<Vec<Hint>, Refusal> {
    let view = View::new(hall, run)?;
    let hint = |rule: &Rule| {
        let found = (0..run.rows.len()).filter(|row| (rule.holds)(&view, *row));
        let blocks: Vec<_> = found.map(|row| block_name(&run.rows[row])).collect();
        (!blocks.is_empty()).then_some(Hint { number: rule.number, sentence: rule.sentence, blocks })
    };
    Ok(RULES.iter().filter_map(hint).collect())
}

/// When a hint is given of a row.
struct Rule {
    number: u8,
    sentence: &'static str,
    holds: fn(&View, usize) -> bool,
}

const RULES: &[Rule] = &[
    Rule {
        number: 1,
        sentence: "it changes after tick 0 with nothing switched, since devices start fresh here and not as the game has \
                   them at rest; expect it from the tick on at which it rests, or have it start so by powered= or level=",
        holds: |view, row| view.changes_by_itself(row) && !view.run.blinks(row),
    },
    Rule {
        number: 2,
        sentence: "a redstone block beside it powers it here, and no block in the game",
        holds: |view, row| !view.is_light(row) && view.powered_by_redstone_block(row),
    },
    Rule {
        number: 3,
        sentence: "a redstone block lights it, and here it passes the power on, in the game it does not",
        holds: |view, row| {
            view.kind(row) == Kind::RedstoneLamp
                && view.powered_by_redstone_block(row)
                && view.around(row).any(|other| view.reads(other, row))
        },
    },
    Rule {
        number: 4,
        sentence: "a strongly powered block beside it powers it here, and no block in the game",
        holds: |view, row| {
            view.takes_power(row)
                && !view.is_bulb(row)
                && view.is_read(row)
                && view.ever(|frame| {
                    view.is_powered_by_blocks(frame, row) && view.is_beside_strong_block(frame, row)
                })
        },
    },
    Rule {
        number: 5,
        sentence: "without a support field it never goes out here; in the game it goes out by its block: write support=",
        holds: |view, row| view.kind(row) == Kind::RedstoneTorch && view.row(row).support().is_none(),
    },
    Rule {
        number: 6,
        sentence: "it is fixed to a redstone block, which puts it out in the game",
        holds: |view, row| {
            view.kind(row) == Kind::RedstoneTorch
                && view.support(row).is_some_and(|block| view.kind(block) == Kind::RedstoneBlock)
        },
    },
    Rule {
        number: 7,
        sentence: "it reads a repeater or comparator that points elsewhere, in the game it does not",
        holds: |view, row| {
            view.kind(row) == Kind::Repeater
                && view.input(row).is_some_and(|block| view.points_past(block, row))
        },
    },
    Rule {
        number: 8,
        sentence: "it reads a repeater or comparator that points elsewhere, in the game it does not",
        holds: |view, row| {
            let read = view.input(row).into_iter().chain(view.sides(row));
            view.kind(row) == Kind::Comparator && { read }.any(|block| view.points_past(block, row))
        },
    },
    Rule {
        number: 9,
        sentence: "it stands over dust that climbs, and cuts the way up and down in the game",
        holds: |view, row| {
            let below = view.at(row, Facing::Down);
            view.kind(row) == Kind::RedstoneLamp && below.is_some_and(|dust| view.has_arm_up(dust))
        },
    },
    Rule {
        number: 10,
        sentence: "it is pressed and stays so here; in the game it comes out by itself",
        holds: |view, row| view.kind(row) == Kind::Button && view.ever_gives(row),
    },
    Rule {
        number: 11,
        sentence: "it is down and stays so here; in the game it comes up by itself",
        holds: |view, row| view.kind(row) == Kind::PressurePlate && view.ever_gives(row),
    },
    Rule {
        number: 12,
        sentence: "it changes so often that it is marked, and goes on here; in the game it burns out where it goes out \
                   eight times within 30 ticks, coming on not counted (44)",
        holds: |view, row| view.run.candidates.iter().any(|(torch, _)| *torch == row),
    },
    Rule {
        number: 13,
        sentence: "it does nothing here; in the game it pushes blocks when it has power",
        holds: |view, row| view.kind(row) == Kind::Piston,
    },
    Rule {
        number: 15,
        sentence: "nothing holds it up, and it drops in the game: see `hall clear`",
        holds: |view, row| {
            view.lacks_floor(row) && !view.hangs_on_full_side(row) && !view.lies_on_piston(row)
        },
    },
    Rule {
        number: 16,
        sentence: "a line of dust ends at it, and powers it in the game, not here, unless the last dust has an arm to it: \
                   write arms=West:Side,East:Side in the row of that dust if the line comes from the West, \
                   arms=North:Side,South:Side if from the North, and so on",
        holds: |view, row| {
            view.takes_power(row)
                && SIDES
                    .iter()
                    .any(|side| view.at(row, *side).is_some_and(|dust| view.ends_towards(dust, *side)))
        },
    },
    Rule {
        number: 17,
        sentence: "dust that stands alone is beside it, and powers it in the game, not here, unless its arms are written: \
                   arms=North:Side,East:Side,South:Side,West:Side",
        holds: |view, row| view.takes_power(row) && view.beside(row).any(|dust| view.is_alone(dust)),
    },
    Rule {
        number: 18,
        sentence: "a strongly powered block is beside it, and powers it in the game, not here",
        holds: |view, row| {
            let is_lower =
                |frame: &Frame, block: usize| frame.figures(row).signal < frame.figures(block).strong;
            view.kind(row) == Kind::RedstoneWire
                && view.beside(row).any(|block| {
                    // What a redstone block powers has no power in the game (2), and a bulb gives none on.
                    let gives = !view.powered_by_redstone_block(block) && !view.is_bulb(block);
                    gives && view.ever(|frame| is_lower(frame, block))
                })
        },
    },
    Rule {
        number: 19,
        sentence: "a weakly powered block is beside it, and powers it in the game, not here",
        holds: |view, row| {
            view.is_powerless_light_while(row, |frame, block| view.is_powered_by_dust(frame, block))
        },
    },
    Rule {
        number: 20,
        sentence: "a lever, button or plate is beside it, and powers it in the game, not here",
        holds: |view, row| {
            view.is_powerless_light_while(row, |frame, block| {
                is_switch(view.kind(block)) && frame.figures(block).signal > 0
            })
        },
    },
    Rule {
        number: 21,
        sentence: "without a support field it powers no block here; in the game it powers the block that holds it: write \
                   support=",
        holds: |view, row| is_switch(view.kind(row)) && view.row(row).support().is_none(),
    },
    Rule {
        number: 22,
        sentence: "a block is over it, and takes its power in the game, not here: add 32 to RedstoneTorch in the profile, \
                   as in `profile Solid=31 Transparent=1 RedstoneLamp=31 RedstoneBlock=1 CopperBulb=7 RedstoneTorch=32` \
                   before the rows, or lead dust from the torch",
        holds: |view, row| {
            view.kind(row) == Kind::RedstoneTorch
                && !view.torches_charge_above()
                && view.ever_gives(row)
                && view
                    .at(row, Facing::Up)
                    .is_some_and(|block| view.takes_power(block) && !view.stands_on(row, block))
        },
    },
    Rule {
        number: 23,
        sentence: "a lit torch is beside it, and powers it in the game, not here: lead dust from the torch",
        holds: |view, row| {
            view.is_powerless_light_while(row, |frame, block| {
                let is_lit = matches!(frame.devices[block], Device::Torch { lit: true, .. });
                is_lit && !view.stands_on(block, row)
            })
        },
    },
    Rule {
        number: 24,
        sentence: "a powered block is at its side, which it reads here and not in the game",
        holds: |view, row| {
            view.kind(row) == Kind::Comparator
                && view.sides(row).any(|block| view.ever(|frame| view.has_power(frame, block)))
        },
    },
    Rule {
        number: 25,
        sentence: "a lever, button, plate or torch is at its side, which it reads here and not in the game",
        holds: |view, row| {
            let is_such =
                |block: usize| is_switch(view.kind(block)) || view.kind(block) == Kind::RedstoneTorch;
            view.kind(row) == Kind::Comparator
                && view.sides(row).any(|block| is_such(block) && view.ever_gives(block))
        },
    },
    Rule {
        number: 34,
        sentence: "it gives a pulse of one tick, which torches and comparators do not answer to in the game",
        holds: |view, row| {
            view.kind(row) == Kind::Repeater && view.shortest(row, 1).is_some_and(|ticks| ticks == 1)
        },
    },
    Rule {
        number: 35,
        sentence: "it gives a pulse that is shorter than its delay; in the game it lasts as long as the delay",
        holds: |view, row| {
            view.shortest(row, 1).is_some_and(|ticks| ticks < view.row(row).delay_ticks().into())
        },
    },
    Rule {
        number: 36,
        sentence: "it is off for less than its delay; in the game it stays on",
        holds: |view, row| {
            view.shortest(row, 0).is_some_and(|ticks| ticks < view.row(row).delay_ticks().into())
        },
    },
    Rule {
        number: 40,
        sentence: "a switch powers it, and it is lit a tick later; in the game at once",
        holds: |view, row| view.has_lamp_at_switch(row, |has_power, lit, _| has_power && !lit),
    },
    Rule {
        number: 41,
        sentence: "a switch takes its power, and it goes out three ticks later; in the game two",
        holds: |view, row| {
            view.has_lamp_at_switch(row, |has_power, lit, left| !has_power && lit && left == 0)
        },
    },
    Rule {
        number: 45,
        sentence: "without a support field the support list names it; in the game it rests on the block below",
        holds: |view, row| view.unsupported.contains(&row) && !view.without_floor.contains(&row),
    },
    Rule {
        number: 46,
        sentence: "a bottom slab or stairs do not hold it here; in the game they do at a full side",
        holds: |view, row| view.lacks_floor(row) && view.hangs_on_full_side(row),
    },
    Rule {
        number: 47,
        sentence: "a piston does not hold it here; in the game it does as long as it does not extend",
        holds: |view, row| view.lacks_floor(row) && view.lies_on_piston(row),
    },
    Rule {
        number: 56,
        sentence: "it does not face North, East, South or West, so that it reads nothing and gives nothing on: write the \
                   side of its output, as in facing=East",
        holds: |view, row| {
            let is_diode = matches!(view.kind(row), Kind::Repeater | Kind::Comparator);
            is_diode && !view.row(row).facing().is_some_and(|facing| SIDES.contains(&facing))
        },
    },
    Rule {
        number: 57,
        sentence: "it has a bulb at its back, or behind the block there, and reads power alone here; in the game the bulb's \
                   light, 15 where it is lit",
        holds: |view, row| {
            let mut read = [view.input(row), view.input_behind_block(row)].into_iter().flatten();
            view.kind(row) == Kind::Comparator && read.any(|block| view.is_bulb(block))
        },
    },
    Rule {
        number: 58,
        sentence: "it has power as a block, which puts out a torch on it, or powers a lamp, a bulb or a block beside it, or by \
                   values 8 and 16 of its byte a repeater or dust; in the game it powers nothing",
        holds: |view, row| {
            let is_put_out =
                |torch: usize| view.kind(torch) == Kind::RedstoneTorch && view.support(torch) == Some(row);
            let gets_power = |frame: &Frame, block: usize| {
                (view.is_light(block) || view.is_read(block))
                    && view.is_powered_by_blocks(frame, block)
                    && !view.is_beside_strong_block(frame, block)
            };
            let is_read = |repeater: usize| view.is_bulb_read_by_repeater(row, repeater);
            let is_driven = |dust: usize| view.is_dust_driven_by_bulb(row, dust);
            view.is_bulb(row)
                && view.ever(|frame| {
                    view.has_power(frame, row)
                        && view.around(row).any(|device| is_put_out(device) || is_read(device))
                        || frame.figures(row).strong > 0
                            && view.around(row).any(|block| gets_power(frame, block) || is_driven(block))
                })
        },
    },
    Rule {
        number: 59,
        sentence: "a switch powers it, and it flips a tick later, or never if its power comes and goes, or goes and comes, \
                   between two ticks; in the game at once",
        holds: |view, row| view.switched_bulbs.contains(&row),
    },
    Rule {
        number: 60,
        sentence: "it has power at the start and is dark; in the game a bulb that is set beside power is lit, if the game powers \
                   it there, too (2, 3, 4, 58): write powered=true, or powered=false for one that is to be dark",
        holds: |view, row| {
            let had_power = matches!(view.fresh.devices[row], Device::Bulb { had_power: true, .. });
            had_power && view.row(row).powered().is_none() && !view.is_powered_here_alone(&view.fresh, row)
        },
    },
];
