//! What happens in a run, in words.

use std::fmt::{self, Display, Formatter};

use redstone::{Device, Kind};

use crate::device::{SORTS, States, given, is_candidate, place};
use crate::name::{block_name, find};
use crate::run::{Frame, Run};

/// Something that a tick or a switch changes.
#[derive(Clone, Debug)]
pub struct Event {
    /// The number of the tick.
    pub tick: usize,
    /// The number of the row.
    pub row: usize,
    /// The block and its place.
    pub block: String,
    change: Change,
}

#[derive(Clone, Copy, Debug)]
enum Change {
    Switched(bool),
    Begins(&'static str),
    Level(u8, u8),
    Candidate,
}

/// All events of a run, tick by tick: first what the tick changes, in the order of the rows, then what is set.
#[must_use]
pub fn events(run: &Run) -> Vec<Event> {
    run.ticks().flat_map(|(tick, frame)| events_of_tick(run, tick, frame)).collect()
}

fn events_of_tick(run: &Run, tick: usize, frame: &Frame) -> Vec<Event> {
    let event = |row: usize, change| Event { tick, row, block: block_name(&run.rows[row]), change };
    let mut events = Vec::new();
    if let Some(before) = tick.checked_sub(1).map(|before| &run.frames[before]) {
        for (row, (old, new)) in before.devices.iter().zip(&frame.devices).enumerate() {
            events.extend(
                changes(run.rows[row].kind(), *old, *new)
                    .into_iter()
                    .flatten()
                    .map(|change| event(row, change)),
            );
        }
    }
    for switch in &frame.switches {
        if let Some(row) = find(&run.rows, switch.position) {
            events.push(event(row, Change::Switched(switch.on)));
        }
    }
    events
}

fn changes(kind: Kind, old: Device, new: Device) -> [Option<Change>; 2] {
    let states = place(kind).map(|place| SORTS[place].states);
    let change = match (states, given(old), given(new)) {
        (Some(states), Some(old), Some(new)) if old != new => Some(match states {
            States::Levels => Change::Level(old, new),
            States::Two { verbs, .. } => Change::Begins(verbs[usize::from(new > 0)]),
        }),
        _ => None,
    };
    [change, (!is_candidate(old) && is_candidate(new)).then_some(Change::Candidate)]
}

/// What happens, as in `torch 13,1,0 goes out`.
impl Display for Event {
    fn fmt(&self, f: &mut Formatter<'_>) -> fmt::Result {
        write!(f, "{} ", self.block)?;
        match self.change {
            Change::Switched(on) => write!(f, "is switched {}", if on { "on" } else { "off" }),
            Change::Begins(verb) => f.write_str(verb),
            Change::Level(from, to) => write!(f, "goes from {from} to {to}"),
            Change::Candidate => f.write_str("becomes a burn-out candidate"),
        }
    }
}

#[cfg(test)]
mod tests {
    use super::*;
    use crate::Hall;

    #[test]
    fn each_change_has_its_words() {
        let text = "0,0,0 Solid\n0,0,1 Solid\n0,1,0 RedstoneWire\n0,1,1 RedstoneWire\n1,0,0 RedstoneTorch support=-1,0,0\n\
                    1,0,1 RedstoneWire\n5,0,0 Lever\n6,0,0 Repeater facing=East\n7,0,0 RedstoneLamp\n\
                    5,0,1 Comparator facing=South\nswitch tick 7 5,0,0 on\nswitch tick 9 5,0,0 off\n";
        let hall = Hall::from_text("a.hall", text, None).expect("a hall");
        let run = Run::new(&hall, 12).expect("an accepted table");
        let of_tick = |tick: usize| -> Vec<_> {
            events(&run).iter().filter(|event| event.tick == tick).map(ToString::to_string).collect()
        };
        assert_eq!(of_tick(0), [""; 0]);
        assert_eq!(of_tick(1), ["torch 1,0,0 goes out"]);
        assert_eq!(of_tick(7), ["torch 1,0,0 goes out", "lever 5,0,0 is switched on"]);
        assert_eq!(
            of_tick(8),
            [
                "torch 1,0,0 lights up",
                "torch 1,0,0 becomes a burn-out candidate",
                "comparator 5,0,1 goes from 0 to 15",
                "repeater 6,0,0 goes on",
                "lamp 7,0,0 lights up"
            ]
        );
        assert_eq!(of_tick(10)[1..], ["comparator 5,0,1 goes from 15 to 0", "repeater 6,0,0 goes off"]);
        assert_eq!(of_tick(12)[1..], ["lamp 7,0,0 goes out"]);
    }

    #[test]
    fn a_bulb_flips() {
        let text = "0,0,0 CopperBulb\n0,1,0 Lever support=0,-1,0\nswitch tick 1 0,1,0 on\nswitch tick 2 0,1,0 off\n\
                    switch tick 5 0,1,0 on\n";
        let hall = Hall::from_text("a.hall", text, None).expect("a hall");
        let events = events(&Run::new(&hall, 9).expect("an accepted table"));
        let said: Vec<_> = events.iter().map(|event| format!("{} {event}", event.tick)).collect();
        assert_eq!(
            said,
            [
                "1 lever 0,1,0 is switched on",
                "2 bulb 0,0,0 flips on",
                "2 lever 0,1,0 is switched off",
                "5 lever 0,1,0 is switched on",
                "6 bulb 0,0,0 flips off"
            ]
        );
    }
}
