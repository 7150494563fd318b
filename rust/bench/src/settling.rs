//! The calls that settle, beside the original, beside the plain way and, where there is one, beside a library of before.

use std::fmt::{self, Display, Formatter};

use differential::compare::Answers;
use differential::generate::Case;
use differential::oracle::{Oracle, pos};
use differential::probe::{Probe, probe_settle_by_rounds};
use differential::redstone::{device_outputs, fresh_devices};
use differential::settling::{Call, Input, LIMIT, STATE};
use differential::table::Position;
use differential::two_ways::ByRounds;
use original::electrical::solve_instantaneous;
use original::sim::RedstoneTickSimulator;
use redstone::{Columns, Kind, Row, STATE_BYTES};

use crate::library::{Before, Library, Now};
use crate::tables::Timed;
use crate::timing::{Calls, Side, by_turns, side};

/// A switch's position, or else the first row's.
fn switched(rows: &[Row]) -> Position {
    let lever = rows.iter().find(|row| row.kind() == Kind::Lever);
    lever.or(rows.first()).map_or([0; 3], Row::position)
}

/// The ticks that are compared before they are timed, and those of a call with many.
const TICKS_COMPARED: u32 = 3;
const MANY_TICKS: u32 = 200;

pub fn assert_sides_agree(case: &Case) {
    let oracle = Oracle::new(case);
    let rows = oracle.rows.len();
    let ask = |input| {
        let call = Call { input, columns: [rows; 3] };
        let answer = oracle.answer(&call);
        assert_eq!(answer, Probe(case).answer(&call), "{}", case.sort);
        if let Input::Settle { .. } = call.input {
            assert_eq!(answer, ByRounds(case).answer(&call), "{}", case.sort);
        }
        answer.bytes(STATE)
    };
    let state = ask(Input::Fresh { state_bytes: STATE_BYTES * rows });
    ask(Input::Settle { devices: fresh_devices(&oracle), limit: LIMIT });
    ask(Input::Tick { state: state.clone(), tick: 0, ticks: TICKS_COMPARED });
    ask(Input::Switch { state, at: switched(&oracle.rows), powered: true });
}

/// Each call of the library of before answers and leaves what it does now.
pub fn assert_before_agrees(before: &Before, case: &Case) {
    let lent = Lent::of(&Oracle::new(case));
    for timing in [Timing::Settle, Timing::Fresh, Timing::Switch, Timing::Ticks(TICKS_COMPARED)] {
        let libraries: [&dyn Library; 2] = [before, &Now];
        let [one, other] = libraries.map(|library| {
            let mut lent = lent.clone();
            (timing.call(library, &mut lent), lent)
        });
        assert!(one == other, "{}", case.sort);
    }
}

/// What is timed one after the other, and then from the first on again.
struct Turns<T> {
    all: Vec<T>,
    next: usize,
}

impl<T> Turns<T> {
    fn new(all: impl Iterator<Item = T>) -> Self {
        Self { all: all.collect(), next: 0 }
    }

    fn next(&mut self) -> &mut T {
        let at = self.next;
        self.next = (at + 1) % self.all.len();
        &mut self.all[at]
    }
}

/// What the proved calls are given of a table, and write, run after run.
#[derive(Clone, PartialEq)]
struct Lent {
    profile: Vec<u8>,
    table: Vec<u8>,
    devices: Vec<u8>,
    state: Vec<u8>,
    levels: [Vec<u8>; 3],
    at: Position,
    powered: bool,
}

impl Lent {
    fn of(oracle: &Oracle) -> Self {
        let Case { profile, table, .. } = oracle.case;
        Self {
            profile: profile.clone(),
            table: table.clone(),
            devices: fresh_devices(oracle),
            state: oracle.started().packed(),
            levels: [(); 3].map(|()| vec![0; oracle.rows.len()]),
            at: switched(&oracle.rows),
            powered: false,
        }
    }
}

fn columns(levels: &mut [Vec<u8>; 3]) -> Columns<'_> {
    let [signal, weak, strong] = levels;
    Columns { signal, weak, strong }
}

#[derive(Clone, Copy)]
pub enum Timing {
    Settle,
    Fresh,
    Switch,
    Ticks(u32),
}

pub const TIMINGS: [(&str, Timing); 5] = [
    ("settle", Timing::Settle),
    ("fresh", Timing::Fresh),
    ("switch", Timing::Switch),
    ("tick", Timing::Ticks(1)),
    ("200 ticks, each", Timing::Ticks(MANY_TICKS)),
];

impl Timing {
    fn call(self, library: &dyn Library, lent: &mut Lent) -> u32 {
        let Lent { profile, table, devices, state, levels, at, powered } = lent;
        let columns = columns(levels);
        match self {
            Self::Settle => library.settle(profile, table, devices, columns),
            Self::Fresh => library.fresh(profile, table, state, columns),
            Self::Switch => {
                *powered = !*powered;
                library.switch(profile, table, state, (*at, *powered), columns)
            }
            Self::Ticks(ticks) => library.tick(profile, table, state, ticks, columns),
        }
    }

    fn by_library<'a>(self, library: &'a dyn Library, oracles: &[Oracle]) -> Side<'a> {
        let mut turns = Turns::new(oracles.iter().map(Lent::of));
        side(|| (), move |()| self.call(library, turns.next()))
    }

    /// The plain way has a call that settles, and no other.
    fn by_rounds<'a>(self, oracles: &[Oracle]) -> Option<Side<'a>> {
        let mut turns = Turns::new(oracles.iter().map(Lent::of));
        let call = move |()| {
            let Lent { profile, table, devices, levels: [signal, weak, strong], .. } = turns.next();
            probe_settle_by_rounds(profile, table, devices, LIMIT, signal, weak, strong)
        };
        matches!(self, Self::Settle).then(|| side(|| (), call))
    }

    /// The original makes single ticks.
    fn by_the_original<'a>(self, oracles: &'a [Oracle<'a>]) -> Side<'a> {
        match self {
            Self::Settle => of_settle(oracles),
            Self::Fresh => of_fresh(oracles),
            Self::Switch => of_switch(oracles),
            Self::Ticks(_) => of_tick(oracles),
        }
    }

    /// The ticks of a proved call, over which its time is divided.
    fn parts(self) -> f64 {
        match self {
            Self::Ticks(ticks) => ticks.into(),
            _ => 1.0,
        }
    }
}

fn of_settle<'a>(oracles: &'a [Oracle<'a>]) -> Side<'a> {
    let given = |oracle: &'a Oracle| (oracle.world(), device_outputs(&oracle.rows, &fresh_devices(oracle)));
    let mut turns = Turns::new(oracles.iter().map(given));
    let call = move |()| {
        let (world, outputs) = turns.next();
        solve_instantaneous(world, outputs, LIMIT as usize)
    };
    side(|| (), call)
}

fn of_fresh<'a>(oracles: &'a [Oracle<'a>]) -> Side<'a> {
    let mut worlds = Turns::new(oracles.iter().map(Oracle::world));
    side(move || worlds.next().clone(), RedstoneTickSimulator::new)
}

fn of_switch<'a>(oracles: &'a [Oracle<'a>]) -> Side<'a> {
    let given = |oracle: &'a Oracle| (oracle.started(), pos(switched(&oracle.rows)), false);
    let mut turns = Turns::new(oracles.iter().map(given));
    let call = move |()| {
        let (simulator, at, powered) = turns.next();
        *powered = !*powered;
        simulator.original().set_powered(*at, *powered)
    };
    side(|| (), call)
}

fn of_tick<'a>(oracles: &'a [Oracle<'a>]) -> Side<'a> {
    let mut turns = Turns::new(oracles.iter().map(Oracle::started));
    side(|| (), move |()| turns.next().original().advance_tick())
}

/// Nanoseconds of a call, or of a tick of it.
pub struct Times {
    pub original: f64,
    pub by_rounds: Option<f64>,
    pub before: Option<f64>,
    pub now: f64,
    pub runs: usize,
}

/// The heading of a table that begins with these columns, and the line under it.
pub fn heading(first: &str, is_there_before: bool) -> String {
    let [before, ratio] = if is_there_before { ["| before ", "| before / now "] } else { [""; 2] };
    let sides = format!("| original | round by round {before}| now ");
    let ratios = format!("| original / now | round by round / now {ratio}| runs ");
    let columns = format!("{first}{sides}{ratios}");
    let name =
        |column: &str| if ["table", "call", "kind"].contains(&column.trim()) { "|---" } else { "|---:" };
    let under: String = columns.split('|').skip(1).map(name).collect();
    format!("{columns}|\n{under}|")
}

/// The figures of a row.
impl Display for Times {
    fn fmt(&self, f: &mut Formatter<'_>) -> fmt::Result {
        let Self { original, by_rounds, before, now, runs } = *self;
        let figure = |time: Option<f64>| time.map_or(String::new(), microseconds);
        let ratio = |time: Option<f64>| time.map_or(String::new(), |time| grouped(time / now));
        write!(f, "| {} | {} ", microseconds(original), figure(by_rounds))?;
        if before.is_some() {
            write!(f, "| {} ", figure(before))?;
        }
        write!(f, "| {} | {} | {} ", microseconds(now), ratio(Some(original)), ratio(by_rounds))?;
        if before.is_some() {
            write!(f, "| {} ", ratio(before))?;
        }
        write!(f, "| {runs} |")
    }
}

fn microseconds(nanoseconds: f64) -> String {
    grouped(nanoseconds / 1e3)
}

/// A number with three figures at least.
fn grouped(number: f64) -> String {
    match number {
        ..10.0 => format!("{number:.2}"),
        10.0..100.0 => format!("{number:.1}"),
        _ => counted(number.round() as usize),
    }
}

/// A number below a million, with a comma after the thousands.
pub fn counted(number: usize) -> String {
    match (number / 1000, number % 1000) {
        (0, below) => below.to_string(),
        (thousands, below) => format!("{thousands},{below:03}"),
    }
}

pub fn times(timed: &Timed, timing: Timing, before: Option<&Before>, calls: Calls) -> Times {
    let oracles: Vec<_> = timed.cases.iter().map(Oracle::new).collect();
    let by_rounds = timing.by_rounds(&oracles);
    let before = before.map(|before| timing.by_library(before, &oracles));
    let is_there = [by_rounds.is_some(), before.is_some()];
    let both = [timing.by_the_original(&oracles), timing.by_library(&Now, &oracles)];
    let mut sides: Vec<_> = both.into_iter().chain(by_rounds).chain(before).collect();
    let (medians, runs) = by_turns(&mut sides, calls);
    let mut medians = medians.into_iter();
    let mut next = |is_there: bool| if is_there { medians.next() } else { None };
    let [original, now] = [(); 2].map(|()| next(true).expect("a median for each side"));
    let [by_rounds, before] = is_there.map(next);
    let parts = timing.parts();
    Times { original, by_rounds, before: before.map(|time| time / parts), now: now / parts, runs }
}

#[cfg(test)]
mod tests {
    use super::assert_sides_agree;
    use crate::tables::{sizes, tables};

    /// Of those that are timed by turns some.
    #[test]
    fn the_sides_agree_on_what_is_timed() {
        for timed in tables().iter().chain(&sizes()) {
            timed.cases.iter().take(3).for_each(assert_sides_agree);
        }
    }
}
