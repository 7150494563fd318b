//! What is left of a table once all that would drop is gone.

/// What [`cleared`](crate::cleared) keeps of a table, and when each other row went.
#[derive(Clone, Debug, Eq, PartialEq)]
#[non_exhaustive]
pub struct Cleared {
    /// The rows that are kept: a packed table, which the calls accept under the same profile.
    pub kept: Vec<u8>,
    /// For each row of the table that was cleared the pass in which it went, from 1 on, or 0 where it is kept.
    pub passes: Vec<u16>,
}

impl Cleared {
    /// The numbers of the rows that went, each with its pass: pass after pass, and within one in the table's order.
    #[must_use]
    pub fn gone(&self) -> Vec<(usize, u16)> {
        let passes = self.passes.iter().copied().enumerate();
        let mut gone: Vec<_> = passes.filter(|(_, pass)| *pass != 0).collect();
        gone.sort_by_key(|(_, pass)| *pass);
        gone
    }
}
