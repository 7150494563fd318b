//! A run: the figures of every tick as the calls answered them, and from where on they repeat.

use std::collections::HashMap;
use std::fmt::{self, Display, Formatter};

use redstone::{Circuit, Device, Figures, Kind, Refusal, Row, STATE_BYTES, Settled};

use crate::course::Course;
use crate::device::{SORTS, SWITCHED, States, given, is_candidate, place};
use crate::hall::Hall;
use crate::name::{block_name, counted, is_switch};
use crate::switch::Switch;

/// A hall's figures from tick 0 on, tick by tick.
#[derive(Clone, Debug)]
pub struct Run {
    /// The rows, in the table's order.
    pub rows: Vec<Row>,
    /// The ticks from 0 on.
    pub frames: Vec<Frame>,
    /// How it goes on.
    pub outlook: Outlook,
    /// The switches that come after the last tick.
    pub later: Vec<Switch>,
    /// The torches that are marked as candidates for burning out, each with the tick from which it is. The cycle that goes
    /// on may mark one after the last tick.
    pub candidates: Vec<(usize, usize)>,
}

/// What stands once a tick is done and its switches are set.
#[derive(Clone, Debug)]
pub struct Frame {
    /// What the table settled to.
    pub settled: Settled,
    /// What the state holds of each row.
    pub devices: Vec<Device>,
    /// What was set at this tick.
    pub switches: Vec<Switch>,
}

/// How a run goes on after its last switch.
#[derive(Clone, Copy, Debug, Eq, PartialEq)]
pub enum Outlook {
    /// Nothing changes from a tick on.
    Still {
        /// The tick.
        from: u32,
    },
    /// From a tick on, the same ticks come again and again.
    Cycle {
        /// The first of them.
        from: u32,
        /// How many they are.
        ticks: u32,
    },
    /// No tick repeats an earlier one.
    Open,
}

impl Frame {
    /// What a circuit holds.
    #[must_use]
    pub fn of(circuit: &Circuit, switches: Vec<Switch>) -> Self {
        let devices = circuit.blocks().map(|block| block.device).collect();
        Self { settled: circuit.settled().clone(), devices, switches }
    }

    /// What a row settled to.
    ///
    /// # Panics
    ///
    /// There is no such row.
    #[must_use]
    pub fn figures(&self, row: usize) -> Figures {
        self.settled.figures(row).expect("a row of the table")
    }

    /// What a row gives: a device its level, or whether it is on or lit; any other row its signal.
    #[must_use]
    pub fn given(&self, row: usize) -> u8 {
        given(self.devices[row]).unwrap_or_else(|| self.figures(row).signal)
    }
}

/// The ticks over which a torch's changes are counted, a bit of its state each.
const COUNTED_TICKS: usize = 31;

/// The bytes of a state that decide all that follows but the marks of torches: 0 to 3 and 9 of each row.
fn deciding_bytes(state: &[u8]) -> Vec<u8> {
    let rows = state.as_chunks::<STATE_BYTES>().0;
    rows.iter().flat_map(|row| [row[0], row[1], row[2], row[3], row[9]]).collect()
}

impl Run {
    /// Runs a hall for so many ticks from its fresh state.
    ///
    /// # Errors
    ///
    /// None: no call refuses what it has accepted.
    pub fn new(hall: &Hall, ticks: u32) -> Result<Self, Refusal> {
        let (now, later): (Vec<_>, Vec<_>) = hall.switches.iter().partition(|switch| switch.tick <= ticks);
        let last_switch = now.iter().map(|switch: &Switch| switch.tick).max().unwrap_or(0);
        let mut course = hall.course()?;
        let (mut frames, mut outlook, mut seen) = (Vec::new(), Outlook::Open, HashMap::new());
        for tick in 0..=ticks {
            let circuit = course.move_to(tick)?;
            let set = now.iter().copied().filter(|switch| switch.tick == tick).collect();
            frames.push(Frame::of(circuit, set));
            if tick < last_switch || outlook != Outlook::Open {
                continue;
            }
            if let Some(from) = seen.insert(deciding_bytes(circuit.state()), tick) {
                outlook = match tick - from {
                    1 => Outlook::Still { from },
                    ticks => Outlook::Cycle { from, ticks },
                };
            }
        }
        let mut run = Self { rows: hall.rows.clone(), frames, outlook, later, candidates: Vec::new() };
        run.candidates = run.find_candidates(course)?;
        Ok(run)
    }

    /// The candidates, with those that the cycle marks after the last tick and before the next switch.
    fn find_candidates(&self, mut course: Course) -> Result<Vec<(usize, usize)>, Refusal> {
        let in_run = |row: usize| {
            self.frames.iter().position(|frame| is_candidate(frame.devices[row])).map(|tick| (row, tick))
        };
        let mut candidates: Vec<_> = (0..self.rows.len()).filter_map(in_run).collect();
        let mut waiting: Vec<_> = (0..self.rows.len())
            .filter(|row| self.rows[*row].kind() == Kind::RedstoneTorch && self.blinks(*row))
            .filter(|row| candidates.iter().all(|(other, _)| other != row))
            .collect();
        // By then the changes that are counted have been those of every part of the cycle.
        let end = self.cycle().map_or(0, |cycle| cycle.end + COUNTED_TICKS);
        let next_switch = self.later.iter().map(|switch| switch.tick as usize).min();
        let last = next_switch.unwrap_or(end).min(end);
        for tick in self.frames.len()..=last {
            if waiting.is_empty() {
                break;
            }
            let frame = Frame::of(course.move_to(tick as u32)?, Vec::new());
            waiting.retain(|row| {
                let is_marked = is_candidate(frame.devices[*row]);
                candidates.extend(is_marked.then_some((*row, tick)));
                !is_marked
            });
        }
        candidates.sort_unstable();
        Ok(candidates)
    }

    /// The number of the last tick.
    #[must_use]
    pub fn last_tick(&self) -> usize {
        self.frames.len() - 1
    }

    /// The frames with the numbers of their ticks.
    pub fn ticks(&self) -> impl Iterator<Item = (usize, &Frame)> {
        self.frames.iter().enumerate()
    }

    /// What a row gives at each tick.
    #[must_use]
    pub fn given(&self, row: usize) -> Vec<u8> {
        self.frames.iter().map(|frame| frame.given(row)).collect()
    }

    /// The rows that are shown tick by tick: the devices, and what is set during the run.
    #[must_use]
    pub fn lanes(&self) -> Vec<Lane> {
        let set = |row: &Row| {
            let mut switches = self.frames.iter().flat_map(|frame| &frame.switches);
            switches.any(|switch| switch.position == row.position())
        };
        let shown = |row: &Row| place(row.kind()).is_some() || is_switch(row.kind()) && set(row);
        let rows = self.rows.iter().enumerate().filter(|(_, row)| shown(row));
        let mut lanes: Vec<_> = rows.map(|(number, row)| Lane::new(self, number, row)).collect();
        lanes.sort_by_key(|lane| (lane.place, lane.row));
        lanes
    }

    /// Whether two ticks differ in a figure, or in what a device gives.
    #[must_use]
    pub fn looks_different(&self, one: usize, other: usize) -> bool {
        let (one, other) = (&self.frames[one], &self.frames[other]);
        one.settled != other.settled || (0..self.rows.len()).any(|row| one.given(row) != other.given(row))
    }

    /// The ticks that come again and again, if they do, within the run.
    #[must_use]
    pub fn cycle(&self) -> Option<std::ops::Range<usize>> {
        match self.outlook {
            Outlook::Cycle { from, ticks } => Some(from as usize..(from + ticks) as usize),
            _ => None,
        }
    }

    /// Whether a row's device changes in the ticks that come again and again.
    #[must_use]
    pub fn blinks(&self, row: usize) -> bool {
        self.cycle().is_some_and(|ticks| {
            let frames = &self.frames[ticks];
            frames.iter().any(|frame| frame.given(row) != frames[0].given(row))
        })
    }
}

/// What a row gives, tick by tick.
#[derive(Clone, Debug)]
pub struct Lane {
    /// The number of the row.
    pub row: usize,
    /// The block and its place, with the delay of a repeater.
    pub label: String,
    /// What it gives at each tick.
    pub values: Vec<u8>,
    /// What it may give.
    pub states: States,
    /// Whether it changes in the ticks that come again and again.
    pub blinks: bool,
    /// Among the devices; what is switched goes before them.
    place: Option<usize>,
}

impl Lane {
    fn new(run: &Run, number: usize, row: &Row) -> Self {
        let label = match row.kind() {
            Kind::Repeater => format!("{} delay {}", block_name(row), row.delay_ticks()),
            _ => block_name(row),
        };
        let place = place(row.kind());
        Self {
            row: number,
            label,
            values: run.given(number),
            states: place.map_or(SWITCHED, |place| SORTS[place].states),
            blinks: run.blinks(number),
            place,
        }
    }

    /// Whether it gives levels, and not just one of two states.
    #[must_use]
    pub fn has_levels(&self) -> bool {
        self.states == States::Levels
    }

    /// Whether it changes at a tick.
    #[must_use]
    pub fn changes_at(&self, tick: usize) -> bool {
        tick > 0 && self.values[tick] != self.values[tick - 1]
    }
}

/// A sentence.
impl Display for Run {
    fn fmt(&self, f: &mut Formatter<'_>) -> fmt::Result {
        match self.outlook {
            Outlook::Still { from } => write!(f, "From tick {from} on nothing changes")?,
            Outlook::Cycle { from, ticks } => {
                let ticks = counted(ticks as usize, "tick");
                write!(f, "From tick {from} on the same {ticks} come again and again")?;
            }
            Outlook::Open => {
                match self.frames.iter().rposition(|frame| !frame.switches.is_empty()) {
                    Some(switch) => {
                        write!(f, "From the switch at tick {switch} up to tick {}", self.last_tick())?
                    }
                    None => write!(f, "Up to tick {}", self.last_tick())?,
                }
                return f.write_str(" no tick repeats an earlier one: ask for more with --ticks.");
            }
        }
        match self.later.iter().map(|switch| switch.tick).min() {
            Some(tick) => write!(f, ", until the switch at tick {tick}."),
            None => f.write_str("."),
        }
    }
}

#[cfg(test)]
mod tests {
    use super::*;

    const CLOCK: &str = "0,0,0 Solid\n0,0,1 Solid\n0,1,0 RedstoneWire\n0,1,1 RedstoneWire\n\
                         1,0,0 RedstoneTorch support=-1,0,0\n1,0,1 RedstoneWire\n";
    const LOCK: &str = "0,0,0 Lever\n1,0,0 Repeater facing=East delay=3\n2,0,0 RedstoneLamp\n";

    fn run(text: &str, ticks: u32) -> Run {
        let hall = Hall::from_text("a.hall", text, None).expect("a hall");
        Run::new(&hall, ticks).expect("an accepted table")
    }

    #[test]
    fn a_hall_without_devices_is_still_at_once() {
        let run = run("0,0,0 RedstoneBlock\n1,0,0 RedstoneWire\n", 5);
        assert_eq!(run.outlook, Outlook::Still { from: 0 });
        assert_eq!(run.to_string(), "From tick 0 on nothing changes.");
        assert!(run.lanes().is_empty() && run.candidates.is_empty());
    }

    /// The toggle bits of a torch, which are new in every tick, and its mark are left out.
    #[test]
    fn a_clock_begins_its_cycle_at_tick_0() {
        let run = run(CLOCK, 20);
        assert_eq!(run.outlook, Outlook::Cycle { from: 0, ticks: 2 });
        assert_eq!(run.to_string(), "From tick 0 on the same 2 ticks come again and again.");
        assert_eq!((run.candidates.clone(), run.cycle()), (vec![(4, 8)], Some(0..2)));
        assert_eq!((0..6).filter(|row| run.blinks(*row)).collect::<Vec<_>>(), [2, 3, 4, 5]);
        assert!(run.looks_different(0, 1) && !run.looks_different(0, 2));
    }

    /// A slow clock marks its torch long after its cycle is known, and a switch may come before that.
    #[test]
    fn a_cycle_names_the_candidate_that_it_makes_after_the_last_tick() {
        let slow = "0,0,0 Solid\n0,0,1 Repeater facing=North delay=3\n0,0,2 RedstoneWire\n\
                    1,0,0 RedstoneTorch support=-1,0,0\n1,0,1 RedstoneWire\n1,0,2 RedstoneWire\n9,0,0 Lever\n";
        for ticks in [8, 20, 31, 32, 40] {
            let run = run(slow, ticks);
            assert!(matches!(run.outlook, Outlook::Cycle { ticks: 8, .. }), "{:?}", run.outlook);
            assert_eq!(run.candidates, [(3, 32)], "{ticks} ticks");
        }
        assert_eq!(run(&format!("{slow}switch tick 31 9,0,0 on\n"), 20).candidates, []);
        assert_eq!(run(&format!("{slow}switch tick 32 9,0,0 on\n"), 20).candidates, [(3, 32)]);
        // Too slow for eight changes within the ticks that are counted.
        let slower = slow.replace("delay=3", "delay=4").replace("9,0,0 Lever\n", "");
        let run = run(&slower, 40);
        assert!(matches!(run.outlook, Outlook::Cycle { ticks: 10, .. }), "{:?}", run.outlook);
        assert_eq!(run.candidates, []);
    }

    /// A repeater's queue is part of what decides, though nothing shows of it.
    #[test]
    fn what_is_under_way_in_a_queue_is_not_still() {
        let run = run(&format!("{LOCK}switch tick 2 0,0,0 on\n"), 20);
        assert_eq!(run.outlook, Outlook::Still { from: 5 });
        let values: Vec<_> =
            run.lanes().iter().map(|lane| (lane.label.clone(), lane.values[..8].to_vec())).collect();
        assert_eq!(
            values,
            [
                ("lever 0,0,0".to_owned(), vec![0, 0, 15, 15, 15, 15, 15, 15]),
                ("repeater 1,0,0 delay 3".to_owned(), vec![0, 0, 0, 0, 0, 1, 1, 1]),
                ("lamp 2,0,0".to_owned(), vec![0, 0, 0, 0, 0, 1, 1, 1]),
            ]
        );
    }

    /// A switch changes no device at once: a lamp's light, or the ticks that it has left, are all that moves after it.
    #[test]
    fn a_lamp_that_answers_a_switch_is_not_still() {
        let lamp = "0,0,0 RedstoneLamp\n0,1,0 Lever support=0,-1,0\nswitch tick 2 0,1,0 on\n";
        assert_eq!(run(lamp, 20).outlook, Outlook::Still { from: 3 });
        assert_eq!(run(&format!("{lamp}switch tick 6 0,1,0 off\n"), 20).outlook, Outlook::Still { from: 9 });
    }

    /// Whether it had power is part of what decides, though nothing shows of it.
    #[test]
    fn a_bulb_that_loses_its_power_is_not_still() {
        let bulb = "0,0,0 CopperBulb\n0,1,0 Lever support=0,-1,0\nswitch tick 2 0,1,0 on\n";
        assert_eq!(run(bulb, 20).outlook, Outlook::Still { from: 3 });
        assert_eq!(run(&format!("{bulb}switch tick 6 0,1,0 off\n"), 20).outlook, Outlook::Still { from: 7 });
    }

    /// A bulb halves a clock.
    #[test]
    fn a_bulb_at_a_clock_has_a_cycle_of_twice_as_many_ticks() {
        let run = run(&format!("{CLOCK}1,-1,1 CopperBulb\n"), 20);
        assert_eq!(run.outlook, Outlook::Cycle { from: 0, ticks: 4 });
        let bulb = run.rows.iter().position(|row| row.kind() == Kind::CopperBulb).expect("a bulb");
        assert_eq!((&run.given(bulb)[..8], run.blinks(bulb)), (&[0, 0, 1, 1, 0, 0, 1, 1][..], true));
    }

    #[test]
    fn a_run_that_is_too_short_says_so() {
        let open = run(&format!("{LOCK}switch tick 2 0,0,0 on\n"), 4);
        assert_eq!(open.outlook, Outlook::Open);
        assert_eq!(
            open.to_string(),
            "From the switch at tick 2 up to tick 4 no tick repeats an earlier one: ask for more with --ticks."
        );
        // Before anything is switched, every tick counts.
        let fresh = run(&LOCK.replace("Lever", "Lever powered=true"), 2);
        assert_eq!(
            fresh.to_string(),
            "Up to tick 2 no tick repeats an earlier one: ask for more with --ticks."
        );
        let before = run(&format!("{LOCK}switch tick 9 0,0,0 on\n"), 4);
        assert_eq!(before.to_string(), "From tick 0 on nothing changes, until the switch at tick 9.");
        assert_eq!(before.later.len(), 1);
    }
}
