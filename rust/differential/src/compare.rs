//! One side's answers held against the other's.

use std::collections::BTreeMap;
use std::fmt::{self, Debug, Display, Formatter};

use redstone::ROW_BYTES;

use crate::generate::Case;
use crate::lent::Returned;
use crate::refusals::REFUSED;
use crate::suite::print;

/// What a function returns, and the buffers lent to it as they come back.
#[derive(Clone, Debug, Eq, PartialEq)]
pub struct Answer {
    pub number: i128,
    pub buffers: Vec<Returned>,
}

impl<N: Into<i128>> From<N> for Answer {
    fn from(number: N) -> Self {
        Self::with_buffers(number, [])
    }
}

impl Answer {
    pub fn with_buffers<const N: usize>(number: impl Into<i128>, buffers: [Returned; N]) -> Self {
        Self { number: number.into(), buffers: buffers.into() }
    }

    /// The refusal's number, of a function that refuses.
    pub fn refusal(&self) -> Option<i128> {
        let number = self.number / i128::from(REFUSED);
        (number > 0).then_some(number)
    }

    /// What a buffer of bytes came back with.
    pub fn bytes(&self, buffer: usize) -> Vec<u8> {
        self.buffers[buffer].entries.iter().map(|entry| *entry as u8).collect()
    }
}

/// The first thing in which an answer is not as expected.
pub fn difference(expected: &Answer, actual: &Answer) -> String {
    if expected.number != actual.number {
        return format!("expected {}, and not {}", expected.number, actual.number);
    }
    let buffers = expected.buffers.iter().zip(&actual.buffers).enumerate();
    let mut differences = buffers.filter(|(_, (expected, actual))| expected != actual);
    let (buffer, (expected, actual)) = differences.next().expect("answers that differ");
    let entries = expected.entries.iter().zip(&actual.entries);
    match entries.enumerate().find(|(_, (expected, actual))| expected != actual) {
        Some((at, (expected, actual))) => {
            format!("expected {expected} in entry {at} of buffer {buffer}, and not {actual}")
        }
        None => format!("wrote outside of buffer {buffer}: {:?}", actual.outside),
    }
}

/// The answer of an inner function, which the editor's call over it is to give, too.
pub fn same([inner, editors]: [Answer; 2]) -> Answer {
    assert_eq!(inner, editors, "the inner function's answer, and the editor's call's");
    inner
}

/// A call of a ported function, with everything that it takes beside the case's profile and table.
pub trait Query: Debug {
    fn function(&self) -> &'static str;

    /// The sort and number under which an answer is counted, if answers are.
    fn counted(_answer: &Answer) -> Option<(&'static str, i128)> {
        None
    }
}

/// A side of the comparison, made for one case.
pub trait Answers<Q> {
    fn answer(&self, query: &Q) -> Answer;
}

/// A wrong answer of one function, which a comparison must report.
pub struct Alteration<Q> {
    pub function: &'static str,
    pub what: &'static str,
    pub alter: fn(&Case, &Q, &mut Answer),
}

/// A side with an alteration.
pub struct Altered<'a, Q, A> {
    pub side: A,
    pub case: &'a Case,
    pub alteration: &'a Alteration<Q>,
}

impl<Q: Query, A: Answers<Q>> Answers<Q> for Altered<'_, Q, A> {
    fn answer(&self, query: &Q) -> Answer {
        let mut answer = self.side.answer(query);
        if query.function() == self.alteration.function {
            (self.alteration.alter)(self.case, query, &mut answer);
        }
        answer
    }
}

/// How much was compared.
#[derive(Default)]
pub struct Tally {
    pub tables: BTreeMap<&'static str, u64>,
    /// The tables whose profile has value 32 for the torch.
    pub charging: u64,
    /// The tables whose profile has a byte for the bulb.
    pub fourteen: u64,
    pub with_bulbs: u64,
    pub comparisons: BTreeMap<&'static str, u64>,
    pub answers: BTreeMap<(&'static str, i128), u64>,
}

impl Tally {
    pub fn count(&mut self, case: &Case) {
        *self.tables.entry(case.sort).or_default() += 1;
        self.charging += u64::from(case.torch_charges_above());
        self.fourteen += u64::from(case.has_byte_of_the_bulb());
        self.with_bulbs += u64::from(case.has_bulbs());
    }

    pub fn all_comparisons(&self) -> u64 {
        self.comparisons.values().sum()
    }

    pub fn print(&self, title: &str) {
        print(&format!("{title}: {self}"));
    }
}

impl Display for Tally {
    fn fmt(&self, f: &mut Formatter<'_>) -> fmt::Result {
        let Self { charging, fourteen, with_bulbs, .. } = self;
        let tables = format!(
            "tables, {charging} with value 32, {fourteen} with 14 bytes of profile, {with_bulbs} with bulbs"
        );
        for (what, counts) in [(&tables[..], &self.tables), ("comparisons", &self.comparisons)] {
            writeln!(f, "{} {what}", counts.values().sum::<u64>())?;
            for (name, count) in counts {
                writeln!(f, "  {count:>10} {name}")?;
            }
        }
        for ((sort, number), count) in &self.answers {
            writeln!(f, "  {count:>10} {sort} {number}")?;
        }
        Ok(())
    }
}

/// Two answers that differ.
#[derive(Debug)]
pub struct Mismatch {
    pub function: &'static str,
    pub query: String,
    pub expected: Answer,
    pub actual: Answer,
}

/// All answers agreed, or the first two that did not.
pub type Compared = Result<(), Box<Mismatch>>;

/// A mismatch on a case, and on the smallest table found by leaving rows out, if any could be.
#[derive(Debug)]
pub struct Report {
    pub case: Case,
    pub mismatch: Box<Mismatch>,
    pub smallest: Option<(Case, Box<Mismatch>)>,
}

impl Display for Mismatch {
    fn fmt(&self, f: &mut Formatter<'_>) -> fmt::Result {
        writeln!(f, "{} of {}", self.function, self.query)?;
        writeln!(f, "expected {:?}", self.expected)?;
        writeln!(f, "actual   {:?}", self.actual)
    }
}

impl Display for Report {
    fn fmt(&self, f: &mut Formatter<'_>) -> fmt::Result {
        write!(f, "{}{}", self.case, self.mismatch)?;
        match &self.smallest {
            Some((case, mismatch)) => write!(f, "on fewer rows: {case}{mismatch}"),
            None => Ok(()),
        }
    }
}

/// Puts each query to both sides.
pub fn compare<Q: Query>(
    queries: impl IntoIterator<Item = Q>,
    expected: &impl Answers<Q>,
    actual: &dyn Answers<Q>,
    tally: &mut Tally,
) -> Compared {
    for query in queries {
        let function = query.function();
        *tally.comparisons.entry(function).or_default() += 1;
        let (expected, actual) = (expected.answer(&query), actual.answer(&query));
        if let Some(counted) = Q::counted(&expected) {
            *tally.answers.entry(counted).or_default() += 1;
        }
        if expected != actual {
            return Err(Box::new(Mismatch { function, query: format!("{query:?}"), expected, actual }));
        }
    }
    Ok(())
}

/// Compares case after case, up to the first mismatch.
pub fn run(
    cases: impl IntoIterator<Item = Case>,
    compare_case: impl Fn(&Case, &mut Tally) -> Compared,
) -> Result<Tally, Box<Report>> {
    let mut tally = Tally::default();
    for case in cases {
        tally.count(&case);
        if let Err(mismatch) = compare_case(&case, &mut tally) {
            let smallest = smallest(&case, |case| compare_case(case, &mut Tally::default()).err());
            return Err(Box::new(Report { case, mismatch, smallest }));
        }
    }
    Ok(tally)
}

/// Leaves out rows, many at once and then fewer, where a mismatch stays.
fn smallest(case: &Case, mismatch: impl Fn(&Case) -> Option<Box<Mismatch>>) -> Option<(Case, Box<Mismatch>)> {
    let (mut smallest, mut found) = (case.clone(), None);
    let mut part = case.table.len().div_ceil(ROW_BYTES).next_power_of_two() * ROW_BYTES;
    while part >= ROW_BYTES {
        let mut at = 0;
        while at < smallest.table.len() {
            let mut fewer = smallest.clone();
            fewer.table.drain(at..smallest.table.len().min(at + part));
            match mismatch(&fewer) {
                Some(other) => (smallest, found) = (fewer, Some(other)),
                None => at += part,
            }
        }
        part /= 2;
    }
    found.map(|mismatch| (smallest, mismatch))
}
