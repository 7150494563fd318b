//! The refusals of profile and table: the proved check against the second reading of documents 01 and 02.

use redstone::{Kind, MOST_ROWS, ROW_BYTES};

use crate::compare::{Alteration, Answer, Answers, Compared, Query, Tally, compare};
use crate::generate::{BULB, Case, TORCH};
use crate::probe::{Probe, probe_check};
use crate::refusals::{self, REFUSED, Refusal};

#[derive(Debug)]
pub struct Check;

impl Query for Check {
    fn function(&self) -> &'static str {
        "check"
    }
}

struct Reading<'a>(&'a Case);

impl Answers<Check> for Reading<'_> {
    fn answer(&self, Check: &Check) -> Answer {
        let refusal = refusals::check(&self.0.profile, &self.0.table).err();
        refusal.map_or(0, Refusal::code).into()
    }
}

impl Answers<Check> for Probe<'_> {
    fn answer(&self, Check: &Check) -> Answer {
        probe_check(&self.0.profile, &self.0.table).into()
    }
}

pub fn compare_case(case: &Case, actual: &dyn Answers<Check>, tally: &mut Tally) -> Compared {
    compare([Check], &Reading(case), actual, tally)
}

pub const ALTERATIONS: [Alteration<Check>; 18] = [
    Alteration {
        function: "check",
        what: "a bad row's number is the next row's",
        alter: |_, _, answer| {
            if answer.refusal() == Some(4) {
                answer.number += 1;
            }
        },
    },
    Alteration {
        function: "check",
        what: "a misplaced row is a bad row",
        alter: |_, _, answer| {
            if answer.refusal() == Some(5) {
                answer.number -= i128::from(REFUSED);
            }
        },
    },
    Alteration {
        function: "check",
        what: "overdriven rows pass",
        alter: |_, _, answer| {
            if answer.refusal() == Some(10) {
                answer.number = 0;
            }
        },
    },
    Alteration {
        function: "check",
        what: "an overdriven row is a bad row",
        alter: |_, _, answer| {
            if answer.refusal() == Some(10) {
                answer.number -= 6 * i128::from(REFUSED);
            }
        },
    },
    Alteration {
        function: "check",
        what: "an overdriven row has no number",
        alter: |_, _, answer| {
            if answer.refusal() == Some(10) {
                answer.number = 10 * i128::from(REFUSED);
            }
        },
    },
    Alteration {
        function: "check",
        what: "a level of 16 passes",
        alter: |case, _, answer| {
            if answer.refusal() == Some(10) {
                *answer = with_levels(case, |level| if level == 16 { 15 } else { level });
            }
        },
    },
    Alteration {
        function: "check",
        what: "a level of 15 is overdriven",
        alter: |case, _, answer| {
            if answer.number == 0 {
                *answer = with_levels(case, |level| if level == 15 { 16 } else { level });
            }
        },
    },
    Alteration {
        function: "check",
        what: "a lever is overdriven, too",
        alter: |case, _, answer| {
            if answer.number == 0 {
                let mut case = case.clone();
                case.rows_of(Kind::Lever).for_each(|row| row[12] = Kind::Comparator.code());
                *answer = Probe(&case).answer(&Check);
            }
        },
    },
    Alteration {
        function: "check",
        what: "crowded tables pass",
        alter: |_, _, answer| {
            if answer.refusal() == Some(3) {
                answer.number = 0;
            }
        },
    },
    Alteration {
        function: "check",
        what: "1,024 rows are crowded",
        alter: |case, _, answer| {
            if case.table.len() == MOST_ROWS * ROW_BYTES && answer.number == 0 {
                answer.number = 3 * i128::from(REFUSED);
            }
        },
    },
    Alteration {
        function: "check",
        what: "the torch's byte ends at 31",
        alter: |case, _, answer| {
            if case.torch_charges_above() {
                answer.number = REFUSED.into();
            }
        },
    },
    Alteration {
        function: "check",
        what: "the torch's byte reaches 64",
        alter: |case, _, answer| {
            if case.profile.get(TORCH) == Some(&64) {
                *answer = with_profile(case, |profile| profile[TORCH] = 0);
            }
        },
    },
    Alteration {
        function: "check",
        what: "the lever's byte reaches 63, too",
        alter: |case, _, answer| {
            if let Some(32..=63) = case.profile.get(LEVER) {
                *answer = with_profile(case, |profile| profile[LEVER] = 0);
            }
        },
    },
    Alteration {
        function: "check",
        what: "the bulb's byte reaches 63, too",
        alter: |case, _, answer| {
            if let Some(32..=63) = case.profile.get(BULB) {
                *answer = with_profile(case, |profile| profile[BULB] = 0);
            }
        },
    },
    Alteration {
        function: "check",
        what: "the bulb's byte may be anything",
        alter: |case, _, answer| {
            if case.has_byte_of_the_bulb() {
                *answer = with_profile(case, |profile| profile[BULB] = 0);
            }
        },
    },
    Alteration {
        function: "check",
        what: "a bulb passes without a byte for it",
        alter: |case, _, answer| {
            if case.profile.len() == BULB {
                *answer = with_profile(case, |profile| profile.push(0));
            }
        },
    },
    Alteration {
        function: "check",
        what: "no bulb passes",
        alter: |case, _, answer| {
            if case.has_byte_of_the_bulb() && answer.refusal() != Some(1) {
                *answer = with_profile(case, |profile| profile.truncate(BULB));
            }
        },
    },
    Alteration {
        function: "check",
        what: "a profile may have 15 bytes",
        alter: |case, _, answer| {
            if case.profile.len() == 15 {
                *answer = with_profile(case, |profile| profile.truncate(14));
            }
        },
    },
];

fn with_profile(case: &Case, change: impl Fn(&mut Vec<u8>)) -> Answer {
    let mut case = case.clone();
    change(&mut case.profile);
    Probe(&case).answer(&Check)
}

fn with_levels(case: &Case, change: impl Fn(u8) -> u8) -> Answer {
    Probe(&case.with_levels(change)).answer(&Check)
}

const LEVER: usize = Kind::Lever.code() as usize;
