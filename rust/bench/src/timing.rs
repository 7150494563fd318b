//! Medians of sides that are run by turns.

use std::env;
use std::fmt::{self, Display, Formatter};
use std::time::Instant;

/// Nanoseconds of one call.
pub struct Medians {
    original: f64,
    proved: f64,
    runs: usize,
}

impl Display for Medians {
    fn fmt(&self, f: &mut Formatter<'_>) -> fmt::Result {
        let Self { original, proved, runs } = self;
        write!(f, "{} | {} | {:.2} | {runs}", time(*original), time(*proved), original / proved)
    }
}

impl Medians {
    /// How many tables a second, where a call is about so many.
    pub fn rates(&self, tables: usize) -> String {
        let Self { original, proved, runs } = self;
        let rate = |nanoseconds: &f64| tables as f64 * 1e9 / nanoseconds;
        format!("{:.0} | {:.0} | {:.2} | {runs}", rate(original), rate(proved), original / proved)
    }
}

fn time(nanoseconds: f64) -> String {
    match nanoseconds {
        0.0..1e3 => format!("{nanoseconds:.1} ns"),
        1e3..1e6 => format!("{:.2} µs", nanoseconds / 1e3),
        _ => format!("{:.2} ms", nanoseconds / 1e6),
    }
}

/// A run makes as many calls as take this long, so that the clock's own step does not show, and little of what the other sides
/// leave in the caches where there are several.
const RUN: f64 = 200e3;
/// Of runs that take a second or more three are enough.
const FEWEST_RUNS: [usize; 2] = [11, 3];
const MOST_RUNS: usize = 1001;

/// The slowest side's runs take about this long together, if that leaves a fair number of them: three seconds, or
/// BENCH_SECONDS.
fn all_runs() -> f64 {
    let seconds =
        env::var("BENCH_SECONDS").map_or(3.0, |seconds| seconds.parse().expect("a number of seconds"));
    1e9 * seconds
}

/// An odd number of runs, of which the slowest takes so many nanoseconds.
fn number_of_runs(slowest: f64) -> usize {
    let fewest = FEWEST_RUNS[usize::from(slowest >= 1e9)];
    ((all_runs() / slowest) as usize).clamp(fewest, MOST_RUNS) | 1
}

/// How many calls, each of so many nanoseconds, make a run.
fn calls_of_a_run(nanoseconds: f64) -> usize {
    (RUN / nanoseconds).clamp(1.0, 1e5) as usize
}

fn median(mut times: Vec<f64>) -> f64 {
    times.sort_by(f64::total_cmp);
    times[times.len() / 2]
}

/// A side that makes as many calls as it is asked for, and gives the nanoseconds of one.
pub type Side<'a> = Box<dyn FnMut(usize) -> f64 + 'a>;

/// The side of calls that take what `given` gives.
pub fn side<'a, G, A>(mut given: impl FnMut() -> G + 'a, mut call: impl FnMut(G) -> A + 'a) -> Side<'a> {
    Box::new(move |calls| nanoseconds((0..calls).map(|_| given()).collect(), &mut call))
}

/// How many calls each side makes in a run.
#[derive(Clone, Copy)]
pub enum Calls {
    One,
    /// As many as take it a run's time.
    Own,
    /// As many as take the fastest side a run's time.
    Equal,
}

impl Calls {
    /// Of sides of which a call takes so many nanoseconds.
    fn of_sides(self, once: &[f64]) -> Vec<usize> {
        let fastest = once.iter().copied().fold(f64::INFINITY, f64::min);
        let of_side = |nanoseconds: &f64| match self {
            Self::One => 1,
            Self::Own => calls_of_a_run(*nanoseconds),
            Self::Equal => calls_of_a_run(fastest),
        };
        once.iter().map(of_side).collect()
    }
}

/// The medians of the sides, and the number of runs.
pub fn by_turns(sides: &mut [Side], calls: Calls) -> (Vec<f64>, usize) {
    let once: Vec<_> = sides.iter_mut().map(|side| side(1).min(side(1))).collect();
    let calls = calls.of_sides(&once);
    let slowest = once.iter().zip(&calls).map(|(nanoseconds, calls)| nanoseconds * *calls as f64);
    let runs = number_of_runs(slowest.fold(0.0, f64::max));
    let mut times = vec![Vec::with_capacity(runs); sides.len()];
    for _ in 0..runs {
        for ((side, calls), times) in sides.iter_mut().zip(&calls).zip(&mut times) {
            times.push(side(*calls));
        }
    }
    (times.into_iter().map(median).collect(), runs)
}

/// The medians of calls of the original, which take what `given` gives, and of as many proved calls.
pub fn medians<G, A, B>(
    given: impl FnMut() -> G,
    original: impl FnMut(G) -> A,
    mut proved: impl FnMut() -> B,
) -> Medians {
    let mut sides = [side(given, original), side(|| (), move |()| proved())];
    let (medians, runs) = by_turns(&mut sides, Calls::Equal);
    Medians { original: medians[0], proved: medians[1], runs }
}

/// The time of one call of as many. What the calls give back is dropped after the clock has stopped.
fn nanoseconds<G, A>(given: Vec<G>, mut call: impl FnMut(G) -> A) -> f64 {
    let calls = given.len() as f64;
    let mut answers = Vec::with_capacity(given.len());
    let start = Instant::now();
    for given in given {
        answers.push(call(given));
    }
    let elapsed = start.elapsed();
    std::hint::black_box(answers);
    elapsed.as_secs_f64() * 1e9 / calls
}
