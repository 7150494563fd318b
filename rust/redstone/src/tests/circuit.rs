//! The circuit against the calls that it is made of.

use super::Lent;
use crate::{
    Arm, BENCH_PROFILE_WITH_BULB, Circuit, Device, Facing, Fault, Figures, Kind, PROFILE_BYTES_WITH_BULB,
    Rounds, Row, STATE_BYTES, cleared, fresh, redraw, settle, switch, table, tick,
};

const PROFILE: [u8; PROFILE_BYTES_WITH_BULB] = BENCH_PROFILE_WITH_BULB;
const LEVER: [i32; 3] = [0, 1, 0];

/// A lever on a block, dust beside the block, a repeater, a lamp and a bulb; and a torch that nothing holds up.
fn rows() -> Vec<Row> {
    let on_floor = |kind, position| Row::new(kind, position).with_support([0, -1, 0]);
    vec![
        on_floor(Kind::Lever, LEVER),
        Row::new(Kind::Solid, [0, 0, 0]),
        Row::new(Kind::Solid, [1, -1, 0]),
        on_floor(Kind::RedstoneWire, [1, 0, 0]),
        Row::new(Kind::Solid, [2, -1, 0]),
        on_floor(Kind::Repeater, [2, 0, 0]).with_facing(Facing::East).with_delay(2),
        Row::new(Kind::RedstoneLamp, [3, 0, 0]),
        Row::new(Kind::CopperBulb, [4, 0, 0]),
        on_floor(Kind::RedstoneTorch, [9, 9, 9]),
    ]
}

fn circuit() -> Circuit {
    Circuit::new(&PROFILE, rows()).expect("an accepted table")
}

/// The same by the calls: table, state and columns.
struct ByCalls {
    table: Vec<u8>,
    state: Vec<u8>,
    lent: Lent,
}

impl ByCalls {
    fn new() -> Self {
        let table = table(rows());
        let (mut state, mut lent) = (vec![0; STATE_BYTES * rows().len()], Lent::new(rows().len()));
        fresh(&PROFILE, &table, &mut state, lent.columns()).expect("an accepted table");
        Self { table, state, lent }
    }

    fn tick(&mut self, number: u32, ticks: u32) -> Rounds {
        let Self { table, state, lent } = self;
        tick(&PROFILE, table, state, number, ticks, lent.columns()).expect("an accepted state")
    }

    fn switch(&mut self, on: bool) -> Rounds {
        let Self { table, state, lent } = self;
        switch(&PROFILE, table, state, LEVER, on, lent.columns()).expect("an accepted state")
    }
}

/// Whether a circuit holds what the calls wrote.
fn assert_same(circuit: &Circuit, by_calls: &ByCalls) {
    let ByCalls { table, state, lent } = by_calls;
    assert_eq!((circuit.table(), circuit.state()), (&table[..], &state[..]));
    let settled = circuit.settled();
    assert_eq!(
        [settled.signal(), settled.weak(), settled.strong()],
        [&lent.signal[..], &lent.weak, &lent.strong]
    );
}

#[test]
fn a_circuit_holds_what_the_calls_write() {
    let (mut circuit, mut by_calls) = (circuit(), ByCalls::new());
    assert_same(&circuit, &by_calls);
    assert_eq!(circuit.switch(LEVER, true).expect("accepted"), by_calls.switch(true));
    assert_same(&circuit, &by_calls);
    for number in 0..4 {
        assert_eq!(circuit.tick_number(), number);
        assert_eq!(circuit.tick(1).expect("accepted"), by_calls.tick(number, 1));
        assert_eq!(circuit.rounds(), circuit.settled().rounds());
        assert_same(&circuit, &by_calls);
    }
    circuit.switch(LEVER, false).expect("accepted");
    by_calls.switch(false);
    circuit.tick(7).expect("accepted");
    by_calls.tick(4, 7);
    assert_eq!(circuit.tick_number(), 11);
    assert_same(&circuit, &by_calls);

    circuit.fresh().expect("accepted");
    by_calls = ByCalls::new();
    by_calls.switch(false);
    assert_eq!(circuit.tick_number(), 0);
    assert_same(&circuit, &by_calls);
}

#[test]
fn figures_and_devices_are_there_by_row_and_by_position() {
    let mut circuit = circuit();
    circuit.redraw().expect("accepted");
    circuit.switch(LEVER, true).expect("accepted");
    circuit.tick(2).expect("accepted");
    let at = |position| circuit.at(position).expect("a block");

    assert_eq!(at([0, 0, 0]).figures, Figures { signal: 0, weak: 15, strong: 15 });
    assert_eq!(at([1, 0, 0]).figures.signal, 15);
    assert_eq!(at([2, 0, 0]).device, Device::Repeater { powered: true, queue: 0b11 });
    assert_eq!(at([3, 0, 0]).device, Device::Lamp { lit: true, ticks_left: 0 });
    assert_eq!(at([4, 0, 0]).device, Device::Bulb { lit: true, had_power: true });
    assert_eq!(at([9, 9, 9]).device, Device::Torch { lit: true, toggles: 0, candidate: false });
    assert_eq!(at(LEVER).row, rows()[0].with_powered(true));
    assert_eq!(circuit.at([0, 0, 1]), None);

    let blocks: Vec<_> = circuit.blocks().collect();
    assert_eq!(blocks.len(), circuit.len());
    for (number, block) in blocks.into_iter().enumerate() {
        assert_eq!(block.number, number);
        assert_eq!(circuit.block(number), Some(block));
        assert_eq!(circuit.at(block.row.position()), Some(block));
        assert_eq!(circuit.settled().figures(number), Some(block.figures));
        assert_eq!(block.device.bytes(), circuit.state()[STATE_BYTES * number..][..STATE_BYTES]);
    }
    assert_eq!((circuit.block(circuit.len()), circuit.settled().figures(circuit.len())), (None, None));
}

#[test]
fn a_circuit_settles_with_other_devices_and_stays_as_it_is() {
    let circuit = circuit();
    let before = circuit.clone();
    let repeater = circuit.at([2, 0, 0]).expect("a repeater").number;
    let lamp = circuit.at([3, 0, 0]).expect("a lamp").number;
    let mut devices = circuit.devices();
    devices[repeater] = 1;

    let settled = circuit.settle(&devices, Rounds::MOST).expect("accepted");
    assert_eq!(settled.figures(lamp).map(|figures| figures.strong), Some(15));
    let mut lent = Lent::new(circuit.len());
    let rounds = settle(circuit.profile(), circuit.table(), &devices, Rounds::MOST, lent.columns());
    assert_eq!(rounds, Ok(settled.rounds()));
    assert_eq!((settled.signal(), settled.weak()), (&lent.signal[..], &lent.weak[..]));

    let refusal = circuit.settle(&devices, 1).expect_err("a limit of 1");
    assert_eq!(refusal.fault, Fault::Unsettled { limit: 1 });
    devices[lamp] = 1;
    assert_eq!(circuit.settle(&devices, Rounds::MOST).expect_err("a bad column").number, 6);
    assert_eq!(circuit, before);
}

#[test]
fn a_circuit_goes_on_from_where_it_was_kept() {
    let mut whole = circuit();
    whole.switch(LEVER, true).expect("accepted");
    whole.tick(1).expect("accepted");
    let kept = (whole.table().to_vec(), whole.state().to_vec(), whole.tick_number());
    let mut resumed = Circuit::resume(whole.profile(), kept.0, kept.1, kept.2).expect("accepted");
    assert_eq!(resumed, whole);
    whole.tick(3).expect("accepted");
    resumed.tick(3).expect("accepted");
    assert_eq!(resumed, whole);

    let refusal = Circuit::resume(&PROFILE, table(rows()), [0; STATE_BYTES], 0).expect_err("a short state");
    assert_eq!(refusal.number, 6);
}

#[test]
fn a_refused_tick_changes_nothing() {
    let circuit = circuit();
    let state = circuit.state().to_vec();
    let mut late =
        Circuit::resume(&PROFILE, circuit.table(), state, u32::MAX - 1).expect("an accepted state");
    late.tick(1).expect("one tick is left");
    let before = late.clone();
    assert_eq!(
        late.tick(1).expect_err("the clock's end").fault,
        Fault::ClockEnd { tick: u32::MAX, ticks: 1 }
    );
    assert_eq!(late, before);
}

#[test]
fn a_circuit_draws_its_arms_and_settles_with_them() {
    let mut circuit = circuit();
    let mut by_call = circuit.table().to_vec();
    redraw(&PROFILE, &mut by_call).expect("an accepted table");
    circuit.redraw().expect("an accepted table");
    assert_eq!(circuit.table(), by_call);
    let arms = circuit.at([1, 0, 0]).expect("dust").row.arms();
    assert_eq!(arms, Some([None, Some(Arm::Side), None, Some(Arm::Side)]));
    assert_eq!(circuit, Circuit::from_table(&PROFILE, by_call).expect("accepted"));
}

#[test]
fn a_circuit_lists_what_nothing_holds_up() {
    let circuit = circuit();
    let torch = circuit.at([9, 9, 9]).expect("a torch").number;
    assert_eq!(circuit.unsupported(), Ok(vec![torch]));
}

#[test]
fn a_circuit_tells_what_is_left_of_it_and_stays_as_it_is() {
    let circuit = circuit();
    let (before, torch) = (circuit.clone(), circuit.at([9, 9, 9]).expect("a torch").number);
    let left = circuit.cleared().expect("accepted");
    assert_eq!(left.gone(), [(torch, 1)]);
    assert_eq!(Ok(left), cleared(&PROFILE, circuit.table()));
    assert_eq!(circuit, before);
}

#[test]
fn an_empty_circuit_settles() {
    let mut circuit = Circuit::new(&PROFILE, []).expect("accepted");
    assert!(circuit.is_empty() && circuit.blocks().next().is_none());
    assert_eq!(circuit.rounds().get(), 1);
    assert_eq!(circuit.tick(3).map(Rounds::get), Ok(1));
    assert_eq!(circuit.unsupported(), Ok(Vec::new()));
    assert_eq!(circuit.cleared().map(|cleared| cleared.kept), Ok(Vec::new()));
}

#[test]
fn a_circuit_is_made_of_accepted_tables_alone() {
    assert_eq!(Circuit::new(&[], []).expect_err("no profile").fault, Fault::ProfileLength { length: 0 });
    assert_eq!(Circuit::from_table(&PROFILE, [0; 31]).expect_err("ragged").number, 2);
}

/// A state's row is read exactly where a call accepts it, and into what packs to its bytes again.
#[test]
fn devices_go_both_ways() {
    let kinds = Kind::ALL.iter().map(|&kind| Row::new(kind, [0; 3]));
    let delays = (0..6).map(|delay| Row::new(Kind::Repeater, [0; 3]).with_delay(delay));
    // Each device with all that it can have at once.
    let full = [
        &[][..],
        &[(0, 1), (1, 1)],
        &[(0, 1), (4, 1), (8, 1)],
        &[(0, 15)],
        &[(2, 1), (3, 2)],
        &[(2, 1), (9, 1)],
    ];
    let mut read = 0;
    for row in kinds.chain(delays) {
        for given in full {
            for (at, value) in (0..STATE_BYTES).flat_map(|at| (0..=u8::MAX).map(move |value| (at, value))) {
                let mut bytes = [0; STATE_BYTES];
                given.iter().for_each(|&(at, value)| bytes[at] = value);
                bytes[at] = value;
                let device = Device::read(&row, &bytes);
                let resumed = Circuit::resume(&PROFILE, row.bytes(), bytes, 0);
                assert_eq!(device.is_ok(), resumed.is_ok(), "{row:?}, {bytes:?}");
                if let Ok(device) = device {
                    assert_eq!(device.bytes(), bytes);
                    assert_eq!(device.byte(), bytes[0]);
                    read += 1;
                }
            }
        }
    }
    assert!(read > 1000, "{read}");
}

/// After all other fields, as the calls have it.
#[test]
fn a_comparators_level_is_read_up_to_15() {
    let row = Row::new(Kind::Comparator, [0; 3]);
    let mut bytes = [0; STATE_BYTES];
    bytes[0] = 15;
    assert_eq!(Device::read(&row, &bytes), Ok(Device::Comparator { level: 15 }));
    bytes[0] = 16;
    let message = |bytes: &_| Device::read(&row, bytes).expect_err("a level above 15").to_string();
    assert_eq!(message(&bytes), "device (byte 0) is 16; it may be from 0 to 15");
    bytes[9] = 1;
    assert_eq!(message(&bytes), "had power (byte 9) is 1; it must be 0, as the row is no bulb");
}
