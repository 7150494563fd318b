//! A table with its profile, state, tick number and columns, kept together.

use crate::{
    Cleared, Columns, Device, Feeder, Feeders, ROW_BYTES, Refusal, Rounds, Row, STATE_BYTES, cleared, find,
    fresh, redraw, settle, supports, switch, table, tick,
};

/// Why the rows of a circuit can be read: no call has refused them.
pub(crate) const ACCEPTED: &str = "a table and a state that the calls accepted are within the layout";

/// A table with its profile, its state, the number of the tick that it stands at, and what it settled to.
///
/// Everything in it comes from the calls: it is made by [`fresh`], and its methods are [`tick`], [`switch`],
/// [`settle`], [`redraw`], [`supports`], [`cleared`] and [`feeders`](crate::feeders) over its own buffers. After each the
/// figures are there by row and by position. A call that is refused changes nothing.
///
/// A lever on a lamp:
///
/// ```
/// use redstone::{BENCH_PROFILE, Circuit, Device, Kind, Row};
///
/// let (lamp, lever) = ([0, 0, 0], [0, 1, 0]);
/// let mut circuit = Circuit::new(&BENCH_PROFILE, [
///     Row::new(Kind::Lever, lever).with_support([0, -1, 0]),
///     Row::new(Kind::RedstoneLamp, lamp),
/// ])?;
/// let lit = |circuit: &Circuit| {
///     circuit.at(lamp).is_some_and(|block| matches!(block.device, Device::Lamp { lit: true, .. }))
/// };
/// assert!(!lit(&circuit));
///
/// circuit.switch(lever, true)?;
/// assert_eq!(circuit.at(lamp).map(|block| block.figures.strong), Some(15));
/// circuit.tick(1)?;
/// assert!(lit(&circuit));
/// # Ok::<(), redstone::Refusal>(())
/// ```
///
/// A button on a copper bulb, whose light flips each time that power arrives:
///
/// ```
/// use redstone::{BENCH_PROFILE_WITH_BULB, Circuit, Device, Kind, Row};
///
/// let (bulb, button) = ([0, 0, 0], [0, 1, 0]);
/// let mut circuit = Circuit::new(&BENCH_PROFILE_WITH_BULB, [
///     Row::new(Kind::Button, button).with_support([0, -1, 0]),
///     Row::new(Kind::CopperBulb, bulb),
/// ])?;
/// let mut lights = Vec::new();
/// for pressed in [true, true, false, true, false] {
///     circuit.switch(button, pressed)?;
///     circuit.tick(1)?;
///     let device = circuit.at(bulb).map(|block| block.device);
///     lights.push(matches!(device, Some(Device::Bulb { lit: true, .. })));
/// }
/// // Power that stays, and power that goes, flip nothing.
/// assert_eq!(lights, [true, true, true, false, false]);
/// # Ok::<(), redstone::Refusal>(())
/// ```
#[derive(Clone, Debug, Eq, PartialEq)]
pub struct Circuit {
    profile: Vec<u8>,
    table: Vec<u8>,
    state: Vec<u8>,
    tick: u32,
    settled: Settled,
}

/// A block of a circuit.
#[derive(Clone, Copy, Debug, Eq, Hash, PartialEq)]
#[non_exhaustive]
pub struct Block {
    /// The number of its row, from 0.
    pub number: usize,
    /// Its row of the table.
    pub row: Row,
    /// What it settled to.
    pub figures: Figures,
    /// What the state holds of it.
    pub device: Device,
}

/// What a row settled to: three figures, each from 0 to [`MOST_LEVEL`](crate::MOST_LEVEL).
#[derive(Clone, Copy, Debug, Eq, Hash, PartialEq)]
#[non_exhaustive]
pub struct Figures {
    /// The level that a source or device gives, or that dust has; 0 for other blocks.
    pub signal: u8,
    /// The power that dust, and strongly powered neighbours, give to the block.
    pub weak: u8,
    /// The power that levers, buttons, plates, repeaters, comparators, redstone blocks and, by the profile, torches give
    /// to the block.
    pub strong: u8,
}

/// What a table settled to: three columns of a byte for each row, from 0 to [`MOST_LEVEL`](crate::MOST_LEVEL).
#[derive(Clone, Debug, Eq, PartialEq)]
pub struct Settled {
    rounds: Rounds,
    signal: Vec<u8>,
    weak: Vec<u8>,
    strong: Vec<u8>,
}

impl Settled {
    /// What a call makes of columns for so many rows.
    fn by(rows: usize, call: impl FnOnce(Columns<'_>) -> Result<Rounds, Refusal>) -> Result<Self, Refusal> {
        let [mut signal, mut weak, mut strong] = [(); 3].map(|()| vec![0; rows]);
        let rounds = call(Columns { signal: &mut signal, weak: &mut weak, strong: &mut strong })?;
        Ok(Self { rounds, signal, weak, strong })
    }

    /// In how many rounds.
    #[must_use]
    pub fn rounds(&self) -> Rounds {
        self.rounds
    }

    /// The figures of a row; `None` past the last.
    #[must_use]
    pub fn figures(&self, row: usize) -> Option<Figures> {
        let (&signal, &weak, &strong) = (self.signal.get(row)?, self.weak.get(row)?, self.strong.get(row)?);
        Some(Figures { signal, weak, strong })
    }

    /// The signal of each row.
    #[must_use]
    pub fn signal(&self) -> &[u8] {
        &self.signal
    }

    /// The weak power of each row.
    #[must_use]
    pub fn weak(&self) -> &[u8] {
        &self.weak
    }

    /// The strong power of each row.
    #[must_use]
    pub fn strong(&self) -> &[u8] {
        &self.strong
    }
}

impl Circuit {
    /// The circuit of these rows, which it puts in the table's order, in its fresh state.
    ///
    /// # Errors
    ///
    /// Refusals 1, 3 to 5, and 10.
    pub fn new(profile: &[u8], rows: impl IntoIterator<Item = Row>) -> Result<Self, Refusal> {
        Self::from_table(profile, table(rows))
    }

    /// The circuit of a packed table, in its fresh state.
    ///
    /// # Errors
    ///
    /// Refusals 1 to 5, and 10.
    pub fn from_table(profile: &[u8], table: impl Into<Vec<u8>>) -> Result<Self, Refusal> {
        let table = table.into();
        let rows = table.len() / ROW_BYTES;
        let mut state = vec![0; STATE_BYTES * rows];
        let settled = Settled::by(rows, |columns| fresh(profile, &table, &mut state, columns))?;
        Ok(Self { profile: profile.to_vec(), table, state, tick: 0, settled })
    }

    /// The circuit of a packed table in a state that was kept, at the number of the tick that it stood at.
    ///
    /// # Errors
    ///
    /// Refusals 1 to 6, and 10.
    pub fn resume(
        profile: &[u8],
        table: impl Into<Vec<u8>>,
        state: impl Into<Vec<u8>>,
        tick_number: u32,
    ) -> Result<Self, Refusal> {
        let (table, mut state) = (table.into(), state.into());
        let rows = table.len() / ROW_BYTES;
        let settled =
            Settled::by(rows, |columns| tick(profile, &table, &mut state, tick_number, 0, columns))?;
        Ok(Self { profile: profile.to_vec(), table, state, tick: tick_number, settled })
    }

    /// Goes back to the fresh state, at tick 0. Switches stay as they were thrown.
    ///
    /// # Errors
    ///
    /// None: what a circuit holds is accepted. It hands on the call's answer.
    pub fn fresh(&mut self) -> Result<Rounds, Refusal> {
        let Self { profile, table, state, .. } = self;
        self.settled = Settled::by(table.len() / ROW_BYTES, |columns| fresh(profile, table, state, columns))?;
        self.tick = 0;
        Ok(self.rounds())
    }

    /// Moves on by so many ticks, of a tenth of a second each. Any number is run, however long it takes.
    ///
    /// # Errors
    ///
    /// Refusal 9 where the tick's number would pass 4,294,967,295.
    pub fn tick(&mut self, ticks: u32) -> Result<Rounds, Refusal> {
        let Self { profile, table, state, tick: number, .. } = self;
        self.settled = Settled::by(table.len() / ROW_BYTES, |columns| {
            tick(profile, table, state, *number, ticks, columns)
        })?;
        self.tick += ticks;
        Ok(self.rounds())
    }

    /// Sets whether the block at x, y, z is powered. Where there is none, nothing changes. No device changes before the
    /// next tick. With a [`redraw`](Self::redraw) it may come in either order.
    ///
    /// # Errors
    ///
    /// None, as for [`fresh`](Self::fresh).
    pub fn switch(&mut self, position: [i32; 3], on: bool) -> Result<Rounds, Refusal> {
        let Self { profile, table, state, .. } = self;
        self.settled = Settled::by(table.len() / ROW_BYTES, |columns| {
            switch(profile, table, state, position, on, columns)
        })?;
        Ok(self.rounds())
    }

    /// Draws the arms of every dust anew and settles the table with them. A second redraw changes nothing.
    ///
    /// A redraw and then a [`switch`](Self::switch) make the same circuit as that switch and then the redraw, in all that
    /// it holds: the table is the same, and the last of the two settles it with the same state. After the first of them
    /// figures may differ. The lamp at the end of this line has power by an arm that the redraw adds:
    ///
    /// ```
    /// use redstone::{BENCH_PROFILE, Circuit, Kind, Row};
    ///
    /// let (lever, lamp) = ([0, 0, 0], [2, 0, 0]);
    /// let mut one = Circuit::new(&BENCH_PROFILE, [
    ///     Row::new(Kind::Lever, lever),
    ///     Row::new(Kind::RedstoneWire, [1, 0, 0]),
    ///     Row::new(Kind::RedstoneLamp, lamp),
    /// ])?;
    /// let mut other = one.clone();
    /// let weak = |circuit: &Circuit| circuit.at(lamp).map(|block| block.figures.weak);
    ///
    /// one.redraw()?;
    /// one.switch(lever, true)?;
    /// assert_eq!(weak(&one), Some(15));
    ///
    /// other.switch(lever, true)?;
    /// assert_eq!(weak(&other), Some(0));
    /// other.redraw()?;
    /// assert_eq!(one, other);
    /// # Ok::<(), redstone::Refusal>(())
    /// ```
    ///
    /// # Errors
    ///
    /// None, as for [`fresh`](Self::fresh).
    pub fn redraw(&mut self) -> Result<Rounds, Refusal> {
        redraw(&self.profile, &mut self.table)?;
        self.tick(0)
    }

    /// What the table would settle to with other devices, in at most `limit` rounds. The circuit stays as it is.
    ///
    /// # Errors
    ///
    /// Refusals 6 and 10 on the device column, and 8 where the limit is too low, which one of [`Rounds::MOST`] never is.
    pub fn settle(&self, devices: &[u8], limit: u32) -> Result<Settled, Refusal> {
        Settled::by(self.len(), |columns| settle(&self.profile, &self.table, devices, limit, columns))
    }

    /// The numbers of the rows of dust, torches, repeaters, comparators and levers that nothing holds up.
    ///
    /// # Errors
    ///
    /// None, as for [`fresh`](Self::fresh).
    pub fn unsupported(&self) -> Result<Vec<usize>, Refusal> {
        let mut rows = vec![0; self.len()];
        let count = supports(&self.profile, &self.table, &mut rows)?;
        Ok(rows[..count].iter().copied().map(usize::from).collect())
    }

    /// What is left of the table once all that would drop is gone, and when each row went. The circuit stays as it is:
    /// the rows that are kept make another one, by [`from_table`](Self::from_table).
    ///
    /// # Errors
    ///
    /// None, as for [`fresh`](Self::fresh).
    pub fn cleared(&self) -> Result<Cleared, Refusal> {
        cleared(&self.profile, &self.table)
    }

    /// The dust that transmits into the dust at x, y, z, each with the rule by which it does, in the order of the rows;
    /// `None` where no dust is. Whether it has power does not matter; and levers, torches and other blocks that power the
    /// dust are not among them. The list of all rows is built for it: [`feeders`](Self::feeders) gives that.
    ///
    /// A lever, and a line of dust that climbs a block:
    ///
    /// ```
    /// use redstone::{BENCH_PROFILE, Circuit, DustTransfer, Kind, Row};
    ///
    /// let circuit = Circuit::new(&BENCH_PROFILE, [
    ///     Row::new(Kind::Lever, [0, 0, 0]),
    ///     Row::new(Kind::RedstoneWire, [1, 0, 0]),
    ///     Row::new(Kind::RedstoneWire, [2, 0, 0]),
    ///     Row::new(Kind::Solid, [3, 0, 0]),
    ///     Row::new(Kind::RedstoneWire, [3, 1, 0]),
    /// ])?;
    /// let fed: Vec<_> = circuit.feeders_of([2, 0, 0])?.into_iter().flatten().collect();
    /// assert_eq!((fed[0].position, fed[0].transfer), ([1, 0, 0], DustTransfer::Horizontal));
    /// assert_eq!((fed[1].position, fed[1].transfer), ([3, 1, 0], DustTransfer::FallThroughConductor));
    /// assert_eq!(circuit.feeders_of([3, 0, 0])?, None);
    /// # Ok::<(), redstone::Refusal>(())
    /// ```
    ///
    /// # Errors
    ///
    /// None, as for [`fresh`](Self::fresh).
    pub fn feeders_of(&self, position: [i32; 3]) -> Result<Option<Vec<Feeder>>, Refusal> {
        Ok(self.feeders()?.of(position))
    }

    /// The list of what dust transmits into each dust of the table, to ask of many of them. It has a copy of the profile and
    /// of the table as it is: a [`switch`](Self::switch) leaves it right, and after a [`redraw`](Self::redraw) it is that of
    /// the table before.
    ///
    /// ```
    /// use redstone::{BENCH_PROFILE, Circuit, Kind, Row};
    ///
    /// let line = [0, 1, 2].map(|x| Row::new(Kind::RedstoneWire, [x, 0, 0]));
    /// let feeders = Circuit::new(&BENCH_PROFILE, line)?.feeders()?;
    /// let fed_by = line.map(|dust| feeders.of(dust.position()).map(|fed| fed.len()));
    /// assert_eq!(fed_by, [Some(1), Some(2), Some(1)]);
    /// # Ok::<(), redstone::Refusal>(())
    /// ```
    ///
    /// # Errors
    ///
    /// None, as for [`fresh`](Self::fresh).
    pub fn feeders(&self) -> Result<Feeders, Refusal> {
        Feeders::from_table(&self.profile, &self.table[..])
    }

    /// The number of rows.
    #[must_use]
    pub fn len(&self) -> usize {
        self.table.len() / ROW_BYTES
    }

    /// Whether there is no row.
    #[must_use]
    pub fn is_empty(&self) -> bool {
        self.table.is_empty()
    }

    /// The block at x, y, z, if there is one.
    #[must_use]
    pub fn at(&self, position: [i32; 3]) -> Option<Block> {
        self.block(find(&self.table, position)?)
    }

    /// The block of a row's number; `None` past the last.
    #[must_use]
    pub fn block(&self, number: usize) -> Option<Block> {
        let (rows, states) = (self.table.as_chunks().0, self.state.as_chunks().0);
        let row = Row::try_from(rows.get(number)?).expect(ACCEPTED);
        let device = Device::read(&row, states.get(number)?).expect(ACCEPTED);
        Some(Block { number, row, figures: self.settled.figures(number)?, device })
    }

    /// All blocks, in the order of their rows.
    #[must_use]
    pub fn blocks(&self) -> impl DoubleEndedIterator<Item = Block> {
        (0..self.len()).filter_map(|number| self.block(number))
    }

    /// The rounds of the last settling.
    #[must_use]
    pub fn rounds(&self) -> Rounds {
        self.settled.rounds
    }

    /// What the table settled to last.
    #[must_use]
    pub fn settled(&self) -> &Settled {
        &self.settled
    }

    /// The number of the tick that the state stands at.
    #[must_use]
    pub fn tick_number(&self) -> u32 {
        self.tick
    }

    /// The device column of the state, to change and to [`settle`](Self::settle) with.
    #[must_use]
    pub fn devices(&self) -> Vec<u8> {
        self.blocks().map(|block| block.device.byte()).collect()
    }

    /// The profile.
    #[must_use]
    pub fn profile(&self) -> &[u8] {
        &self.profile
    }

    /// The packed table, with its switches as they were thrown.
    #[must_use]
    pub fn table(&self) -> &[u8] {
        &self.table
    }

    /// The state, to keep and to [`resume`](Self::resume) from.
    #[must_use]
    pub fn state(&self) -> &[u8] {
        &self.state
    }
}
