//! Wrong answers that the comparison must report.

use redstone::{Kind, ROW_BYTES, STATE_BYTES};

use crate::compare::{Alteration, Answer, Answers};
use crate::generate::Case;
use crate::lent::Lent;
use crate::probe::Probe;
use crate::refusals::REFUSED;
use crate::settling::{Call, Input, PROFILE, SIGNAL, STATE, STRONG, TABLE, WEAK};

pub const ALTERATIONS: [Alteration<Call>; 27] = [
    Alteration {
        function: "fresh",
        what: "no lamp is lit",
        alter: |_, _, answer| {
            if answer.refusal().is_none() {
                let rows = answer.buffers[STATE].entries.chunks_mut(STATE_BYTES);
                rows.for_each(|row| row[2] = 0);
            }
        },
    },
    Alteration {
        function: "settle",
        what: "a round more is counted from the fifth on",
        alter: |_, _, answer| {
            if (5..17).contains(&answer.number) {
                answer.number += 1;
            }
        },
    },
    Alteration {
        function: "settle",
        what: "a limit too low is answered with a number of rounds",
        alter: |_, _, answer| {
            if answer.refusal() == Some(8) {
                answer.number = 17;
            }
        },
    },
    Alteration {
        function: "settle",
        what: "weak power ends at 14",
        alter: |_, _, answer| {
            if answer.refusal().is_none() {
                let weak = answer.buffers[WEAK].entries.iter_mut();
                weak.for_each(|power| *power = (*power).min(14));
            }
        },
    },
    Alteration {
        function: "settle",
        what: "a refused call clears a column",
        alter: |_, _, answer| {
            if answer.refusal().is_some() {
                answer.buffers[STRONG].entries.fill(0);
            }
        },
    },
    Alteration {
        function: "settle",
        what: "the byte after a column is written",
        alter: |_, _, answer| {
            let signal = &mut answer.buffers[SIGNAL];
            signal.outside.push((signal.entries.len() as isize, 0));
        },
    },
    Alteration {
        function: "tick",
        what: "of many ticks only the first is done",
        alter: |case, call, answer| {
            if let (Input::Tick { state, tick, ticks: 2.. }, None) = (&call.input, answer.refusal()) {
                let input = Input::Tick { state: state.clone(), tick: *tick, ticks: 1 };
                *answer = Probe(case).answer(&Call { input, ..call.clone() });
            }
        },
    },
    Alteration {
        function: "tick",
        what: "the state stays as it was",
        alter: |_, call, answer| {
            if let Input::Tick { state, .. } = &call.input {
                let entries = answer.buffers[STATE].entries.iter_mut();
                entries.zip(state).for_each(|(entry, byte)| *entry = (*byte).into());
            }
        },
    },
    Alteration {
        function: "switch",
        what: "byte 14 stays as it was",
        alter: |case, _, answer| {
            let entries = answer.buffers[TABLE].entries.iter_mut();
            let bytes = entries.zip(&case.table).skip(14).step_by(ROW_BYTES);
            bytes.for_each(|(entry, byte)| *entry = (*byte).into());
        },
    },
    Alteration {
        function: "switch",
        what: "the state, which is only read, is cleared",
        alter: |_, _, answer| answer.buffers[STATE].entries.fill(0),
    },
    Alteration {
        function: "switch",
        what: "signals end at 14",
        alter: |_, _, answer| {
            if answer.refusal().is_none() {
                let signals = answer.buffers[SIGNAL].entries.iter_mut();
                signals.for_each(|signal| *signal = (*signal).min(14));
            }
        },
    },
    Alteration {
        function: "fresh",
        what: "comparators with a level above 15 are clipped",
        alter: |case, call, answer| {
            if answer.refusal() == Some(10) {
                *answer = Probe(&case.with_levels(|level| level.min(15))).answer(call);
            }
        },
    },
    Alteration {
        function: "settle",
        what: "device bytes above 15 are clipped",
        alter: |case, call, answer| {
            if let (Input::Settle { devices, limit }, Some(10)) = (&call.input, answer.refusal()) {
                let devices = devices.iter().map(|device| (*device).min(15)).collect();
                let input = Input::Settle { devices, limit: *limit };
                *answer = Probe(case).answer(&Call { input, ..call.clone() });
            }
        },
    },
    Alteration {
        function: "settle",
        what: "an overdriven column is a bad one",
        alter: |_, _, answer| {
            if answer.refusal() == Some(10) {
                answer.number -= 4 * i128::from(REFUSED);
            }
        },
    },
    Alteration {
        function: "tick",
        what: "an overdriven state is ticked",
        alter: |_, _, answer| {
            if answer.refusal() == Some(10) {
                answer.number = 2;
            }
        },
    },
    Alteration {
        function: "tick",
        what: "the row of an overdriven state is the next",
        alter: |_, _, answer| {
            if answer.refusal() == Some(10) {
                answer.number += 1;
            }
        },
    },
    Alteration {
        function: "switch",
        what: "an overdriven state has no row",
        alter: |_, _, answer| {
            if answer.refusal() == Some(10) {
                answer.number = 10 * i128::from(REFUSED);
            }
        },
    },
    Alteration {
        function: "fresh",
        what: "no torch charges the block above",
        alter: |case, call, answer| *answer = with_torch_charging(false, case, call),
    },
    Alteration {
        function: "settle",
        what: "every torch charges the block above",
        alter: |case, call, answer| *answer = with_torch_charging(true, case, call),
    },
    Alteration {
        function: "tick",
        what: "no torch charges the block above",
        alter: |case, call, answer| *answer = with_torch_charging(false, case, call),
    },
    Alteration {
        function: "switch",
        what: "every torch charges the block above",
        alter: |case, call, answer| *answer = with_torch_charging(true, case, call),
    },
    Alteration {
        function: "fresh",
        what: "no bulb had power",
        alter: |case, _, answer| each_bulb(case, answer, |bulb| bulb.state[9] = 0),
    },
    Alteration {
        function: "fresh",
        what: "a bulb is lit by its power",
        alter: |case, _, answer| each_bulb(case, answer, |bulb| bulb.state[2] = bulb.has_power.into()),
    },
    Alteration {
        function: "tick",
        what: "a bulb is lit by its power",
        alter: |case, _, answer| each_bulb(case, answer, |bulb| bulb.state[2] = bulb.has_power.into()),
    },
    Alteration {
        function: "tick",
        what: "a bulb that had power has had it ever since",
        alter: |case, call, answer| {
            if let Input::Tick { state, .. } = &call.input {
                each_bulb(case, answer, |bulb| bulb.state[9] |= u16::from(state[STATE_BYTES * bulb.row + 9]));
            }
        },
    },
    Alteration {
        function: "switch",
        what: "byte 9 of a bulb is written",
        alter: |case, _, answer| each_bulb(case, answer, |bulb| bulb.state[9] = bulb.has_power.into()),
    },
    Alteration {
        function: "settle",
        what: "a bulb takes no power",
        alter: |case, _, answer| {
            for row in bulbs(case, answer) {
                [WEAK, STRONG].iter().for_each(|column| answer.buffers[*column].entries[row] = 0);
            }
        },
    },
];

/// A bulb of an answer.
struct Bulb<'a> {
    row: usize,
    state: &'a mut [u16],
    has_power: bool,
}

/// The rows of the bulbs, if the call was not refused.
fn bulbs(case: &Case, answer: &Answer) -> Vec<usize> {
    let rows = case.table.chunks_exact(ROW_BYTES).enumerate();
    let bulbs = rows.filter(|(_, row)| row[12] == Kind::CopperBulb.code()).map(|(row, _)| row);
    if answer.refusal().is_none() { bulbs.collect() } else { Vec::new() }
}

fn each_bulb(case: &Case, answer: &mut Answer, change: impl Fn(Bulb)) {
    for row in bulbs(case, answer) {
        let has_power = [WEAK, STRONG].iter().any(|column| answer.buffers[*column].entries[row] > 0);
        let state = &mut answer.buffers[STATE].entries[STATE_BYTES * row..][..STATE_BYTES];
        change(Bulb { row, state, has_power });
    }
}

/// The answer with profile value 32 set or clear for the torch. The profile comes back as it was lent.
fn with_torch_charging(charges: bool, case: &Case, call: &Call) -> Answer {
    let mut answer = Probe(&case.with_torch_charging(charges)).answer(call);
    answer.buffers[PROFILE] = Lent::new(&case.profile).returned();
    answer
}
