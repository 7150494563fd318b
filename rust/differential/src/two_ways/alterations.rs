//! Wrong answers of one way, which its comparison with the other must report.

use crate::compare::{Alteration, Answer, Answers};
use crate::lent::Lent;
use crate::probe::Probe;
use crate::refusals::REFUSED;
use crate::settling::{Call, Input, LIMIT, PROFILE, SIGNAL, STATE, STRONG, TABLE, WEAK};

const fn alteration(
    what: &'static str,
    alter: fn(&crate::generate::Case, &Call, &mut Answer),
) -> Alteration<Call> {
    Alteration { function: "settle", what, alter }
}

pub const ALTERATIONS: [Alteration<Call>; 27] = [
    alteration("a round more is answered", |_, _, answer| {
        if answer.refusal().is_none() {
            answer.number += 1;
        }
    }),
    alteration("a round less is answered", |_, _, answer| {
        if answer.refusal().is_none() {
            answer.number -= 1;
        }
    }),
    alteration("17 rounds are answered as 16", |_, _, answer| {
        if answer.number == 17 {
            answer.number = 16;
        }
    }),
    alteration("the rounds are the limit's", |_, call, answer| {
        if let (Input::Settle { limit: ..=20, .. }, None) = (&call.input, answer.refusal()) {
            answer.number = limit(call);
        }
    }),
    alteration("a limit of as many rounds is too low", |case, call, answer| {
        if answer.number == limit(call) {
            *answer = call.refused(case, 8 * REFUSED);
        }
    }),
    alteration("a limit of one round less is enough", |case, call, answer| {
        if answer.refusal() == Some(8) {
            let more = with_limit(case, call, limit(call) as u32 + 1);
            if more.refusal().is_none() {
                *answer = more;
            }
        }
    }),
    alteration("a limit of 0 is none", |case, call, answer| {
        if answer.refusal() == Some(8) && limit(call) == 0 {
            *answer = with_limit(case, call, LIMIT);
        }
    }),
    alteration("the signal of the last row is a level less", |_, _, answer| last_less(answer, SIGNAL)),
    alteration("the weak power of the last row is a level less", |_, _, answer| last_less(answer, WEAK)),
    alteration("the strong power of the last row is a level less", |_, _, answer| last_less(answer, STRONG)),
    alteration("dust of level 1 has none", |_, _, answer| {
        if answer.refusal().is_none() {
            answer.buffers[SIGNAL].entries.iter_mut().for_each(|level| *level -= u16::from(*level == 1));
        }
    }),
    alteration("weak power of level 1 is none", |_, _, answer| {
        if answer.refusal().is_none() {
            answer.buffers[WEAK].entries.iter_mut().for_each(|level| *level -= u16::from(*level == 1));
        }
    }),
    alteration("weak and strong power are exchanged", |_, _, answer| answer.buffers.swap(WEAK, STRONG)),
    alteration("a row without weak power has its strong power", |_, _, answer| {
        if answer.refusal().is_none() {
            let strong = answer.buffers[STRONG].entries.clone();
            let weak = answer.buffers[WEAK].entries.iter_mut();
            weak.zip(strong).filter(|(weak, _)| **weak == 0).for_each(|(weak, strong)| *weak = strong);
        }
    }),
    alteration("a limit that is too low leaves the signals", |case, call, answer| {
        if answer.refusal() == Some(8) {
            let settled = with_limit(case, call, LIMIT);
            answer.buffers[SIGNAL] = settled.buffers[SIGNAL].clone();
        }
    }),
    alteration("a limit that is too low leaves the strong power", |case, call, answer| {
        if answer.refusal() == Some(8) {
            let settled = with_limit(case, call, LIMIT);
            answer.buffers[STRONG] = settled.buffers[STRONG].clone();
        }
    }),
    alteration("a limit that is too low clears the weak power", |_, _, answer| {
        if answer.refusal() == Some(8) {
            answer.buffers[WEAK].entries.fill(0);
        }
    }),
    alteration("a refused call clears the first byte of a column", |_, _, answer| {
        if answer.refusal().is_some() {
            answer.buffers[SIGNAL].entries.iter_mut().take(1).for_each(|byte| *byte = 0);
        }
    }),
    alteration("a column of a wrong length is written as far as it goes", |_, _, answer| {
        if answer.refusal() == Some(7) {
            answer.buffers[STRONG].entries.fill(0);
        }
    }),
    alteration("the byte before a column is written", |_, _, answer| {
        answer.buffers[WEAK].outside.push((-1, 0))
    }),
    alteration("the byte after a column is written", |_, _, answer| {
        let strong = &mut answer.buffers[STRONG];
        strong.outside.push((strong.entries.len() as isize, 0));
    }),
    alteration("the device column is written", |_, _, answer| add(answer, STATE)),
    alteration("the table is written", |_, _, answer| add(answer, TABLE)),
    alteration("the profile is written", |_, _, answer| add(answer, PROFILE)),
    alteration("overdriven devices are clipped", |case, call, answer| {
        if let (Input::Settle { devices, limit }, Some(10)) = (&call.input, answer.refusal()) {
            let input = Input::Settle {
                devices: devices.iter().map(|byte| (*byte).min(15)).collect(),
                limit: *limit,
            };
            let clipped = Probe(case).answer(&Call { input, ..call.clone() });
            *answer = Answer { number: clipped.number, ..answer.clone() };
        }
    }),
    alteration("the row at fault is 0", |_, _, answer| {
        if let Some(number) = answer.refusal() {
            answer.number = number * i128::from(REFUSED);
        }
    }),
    alteration("a torch charges nothing above it", |case, call, answer| {
        *answer = Probe(&case.with_torch_charging(false)).answer(call);
        answer.buffers[PROFILE] = Lent::new(&case.profile).returned();
    }),
];

fn limit(call: &Call) -> i128 {
    let Input::Settle { limit, .. } = call.input else { panic!("{call:?} has no limit") };
    limit.into()
}

/// The right answer at another limit.
fn with_limit(case: &crate::generate::Case, call: &Call, limit: u32) -> Answer {
    let Input::Settle { devices, .. } = &call.input else { panic!("{call:?} has no limit") };
    let input = Input::Settle { devices: devices.clone(), limit };
    Probe(case).answer(&Call { input, ..call.clone() })
}

fn last_less(answer: &mut Answer, column: usize) {
    if answer.refusal().is_none() {
        let last = answer.buffers[column].entries.last_mut();
        last.into_iter().for_each(|level| *level = level.saturating_sub(1));
    }
}

/// Changes the last byte of a buffer that is only read.
fn add(answer: &mut Answer, buffer: usize) {
    let last = answer.buffers[buffer].entries.last_mut();
    last.into_iter().for_each(|byte| *byte = (*byte + 1) % 256);
}
