//! Buffers that are lent to a call, of bytes or of 16-bit entries, between guards that show a write outside of them.

/// An entry of a buffer.
pub trait Entry: Copy + PartialEq + Into<u16> {
    /// What a buffer that a call is to fill has before.
    const UNTOUCHED: Self;

    /// What a guard has. No two of a side have the same, in no byte.
    fn guard(at: usize) -> Self;
}

impl Entry for u8 {
    const UNTOUCHED: Self = 0xc3;

    fn guard(at: usize) -> Self {
        0x5a ^ at as Self
    }
}

impl Entry for u16 {
    const UNTOUCHED: Self = 0xa5c3;

    fn guard(at: usize) -> Self {
        Self::from_le_bytes([u8::guard(at), !u8::guard(at)])
    }
}

/// Writes entries from the front on, as far as there is room.
pub fn fill<T>(out: &mut [T], entries: impl IntoIterator<Item = T>) {
    out.iter_mut().zip(entries).for_each(|(out, entry)| *out = entry);
}

/// So many bytes, of which no two that are near each other are the same.
pub fn unlike_bytes(count: usize) -> Vec<u8> {
    (0..count).map(unlike_byte).collect()
}

/// So many entries of 16 bits, of which no two that are near each other are the same.
pub fn unlike_entries(count: usize) -> Vec<u16> {
    (0..count).map(|at| u16::from_le_bytes([unlike_byte(at), !unlike_byte(at + 7)])).collect()
}

fn unlike_byte(at: usize) -> u8 {
    0xb5 ^ (29 * at) as u8
}

/// The guards on each side.
pub const GUARDS: usize = 16;

/// A buffer and its guards.
pub struct Lent<T> {
    all: Vec<T>,
}

/// A buffer as it came back.
#[derive(Clone, Debug, Eq, PartialEq)]
pub struct Returned {
    pub entries: Vec<u16>,
    /// Each guard that was written, counted from the buffer's first entry, and what it has now.
    pub outside: Vec<(isize, u16)>,
}

impl<T: Entry> Lent<T> {
    /// A buffer with these entries.
    pub fn new(entries: &[T]) -> Self {
        let guards: Vec<_> = (0..GUARDS).map(T::guard).collect();
        Self { all: [&guards, entries, &guards].concat() }
    }

    /// A buffer that a call is to fill.
    pub fn untouched(entries: usize) -> Self {
        Self::new(&vec![T::UNTOUCHED; entries])
    }

    /// What is lent.
    pub fn entries(&mut self) -> &mut [T] {
        let end = self.all.len() - GUARDS;
        &mut self.all[GUARDS..end]
    }

    /// What is lent, and the guards before and after it.
    pub fn with_guards(&mut self) -> &mut [T] {
        &mut self.all
    }

    pub fn returned(mut self) -> Returned {
        let entries = self.entries().iter().map(|entry| (*entry).into()).collect();
        Returned { entries, outside: self.outside() }
    }

    fn outside(&self) -> Vec<(isize, u16)> {
        let written = |first: usize| {
            let guards = self.all[first..].iter().take(GUARDS).enumerate();
            let written = guards.filter(|(at, guard)| **guard != T::guard(*at));
            written.map(move |(at, guard)| ((first + at) as isize - GUARDS as isize, (*guard).into()))
        };
        written(0).chain(written(self.all.len() - GUARDS)).collect()
    }
}
