//! A hall on its way through the ticks.

use redstone::{Circuit, Refusal};

use crate::switch::Switch;

/// A circuit with the switches that are still to be set.
#[derive(Clone, Debug)]
pub struct Course {
    circuit: Circuit,
    /// In the order of their ticks, the next one last.
    switches: Vec<Switch>,
}

impl Course {
    /// From a circuit's state on, at which the switches of its tick are set.
    pub(crate) fn new(circuit: Circuit, switches: &[Switch]) -> Result<Self, Refusal> {
        let mut switches = switches.to_vec();
        switches.sort_by_key(|switch| switch.tick);
        switches.reverse();
        let mut course = Self { circuit, switches };
        course.set_due()?;
        Ok(course)
    }

    /// Moves on to a tick and sets the switches up to it. A tick that is past stays past.
    ///
    /// # Errors
    ///
    /// None: no call refuses what it has accepted.
    pub fn move_to(&mut self, tick: u32) -> Result<&Circuit, Refusal> {
        while let Some(next) = self.switches.last().map(|switch| switch.tick).filter(|next| *next <= tick) {
            self.run_to(next)?;
            self.set_due()?;
        }
        self.run_to(tick)?;
        Ok(&self.circuit)
    }

    fn run_to(&mut self, tick: u32) -> Result<(), Refusal> {
        match tick.saturating_sub(self.circuit.tick_number()) {
            0 => Ok(()),
            ticks => self.circuit.tick(ticks).map(drop),
        }
    }

    /// Sets the switches of the tick that the circuit stands at.
    fn set_due(&mut self) -> Result<(), Refusal> {
        let now = self.circuit.tick_number();
        while let Some(switch) = self.switches.pop_if(|switch| switch.tick <= now) {
            self.circuit.switch(switch.position, switch.on)?;
        }
        Ok(())
    }
}

#[cfg(test)]
mod tests {
    use crate::Hall;

    const HALL: &str = "0,0,0 Lever\n1,0,0 Repeater facing=East delay=2\n2,0,0 RedstoneLamp\n\
                        switch tick 7 0,0,0 off\nswitch tick 3 0,0,0 off\nswitch tick 3 0,0,0 on\n";

    /// However far a step is, and in whatever order the switches are given: those of one tick in the order of their lines.
    #[test]
    fn one_long_step_is_as_many_short_ones() {
        let hall = Hall::from_text("a.hall", HALL, None).expect("a hall");
        let mut single = hall.course().expect("a course");
        for tick in 0..20 {
            let mut long = hall.course().expect("a course");
            assert_eq!(
                long.move_to(tick).expect("a tick"),
                single.move_to(tick).expect("a tick"),
                "tick {tick}"
            );
        }
        let mut course = hall.course().expect("a course");
        let powered =
            |circuit: &redstone::Circuit| circuit.at([0, 0, 0]).and_then(|block| block.row.powered());
        assert_eq!(powered(course.move_to(3).expect("a tick")), Some(true));
        assert_eq!(powered(course.move_to(9).expect("a tick")), Some(false));
        assert_eq!(course.move_to(4).expect("a tick past").tick_number(), 9);
    }
}
