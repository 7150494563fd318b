//! What the documentation says of filling in a table.

use crate::{
    BENCH_PROFILE_WITH_BULB, Circuit, Device, Facing, Kind, PROFILE_BYTES_WITH_BULB, Row, Shape,
    TORCH_CHARGES_ABOVE,
};

fn circuit(rows: impl IntoIterator<Item = Row>) -> Circuit {
    Circuit::new(&BENCH_PROFILE_WITH_BULB, rows).expect("an accepted table")
}

fn signal(circuit: &Circuit, position: [i32; 3]) -> u8 {
    circuit.at(position).expect("a block").figures.signal
}

fn strong(circuit: &Circuit, position: [i32; 3]) -> u8 {
    circuit.at(position).expect("a block").figures.strong
}

fn device(row: Row) -> Device {
    circuit([row]).block(0).expect("a block").device
}

#[test]
fn a_repeater_or_comparator_faces_its_output() {
    let lit = |kind, facing: Option<Facing>| {
        let device = Row::new(kind, [0, 0, 0]).with_powered(true).with_facing(facing);
        let lamps = [[1, 0, 0], [-1, 0, 0]].map(|position| Row::new(Kind::RedstoneLamp, position));
        let circuit = circuit([device].into_iter().chain(lamps));
        [[1, 0, 0], [-1, 0, 0]].map(|position| strong(&circuit, position))
    };
    for kind in [Kind::Repeater, Kind::Comparator] {
        assert_eq!(lit(kind, Some(Facing::East)), [15, 0]);
        assert_eq!(lit(kind, Some(Facing::West)), [0, 15]);
        assert_eq!(lit(kind, Some(Facing::Up)), [0, 0]);
        assert_eq!(lit(kind, None), [0, 0]);
    }
}

#[test]
fn a_lever_button_or_plate_powers_the_block_at_its_support_offset() {
    for kind in [Kind::Lever, Kind::Button, Kind::PressurePlate] {
        let source = Row::new(kind, [0, 1, 0]).with_powered(true);
        let others = [Row::new(Kind::Solid, [0, 0, 0]), Row::new(Kind::RedstoneWire, [1, 1, 0])];
        let with = |source| {
            let circuit = circuit([source].into_iter().chain(others));
            (strong(&circuit, [0, 0, 0]), signal(&circuit, [1, 1, 0]))
        };
        assert_eq!(with(source.with_support([0, -1, 0])), (15, 15));
        assert_eq!(with(source), (0, 15));
        assert_eq!(with(source.with_power_level(7).with_support([0, -1, 0])), (7, 7));
        assert_eq!(with(source.with_power_level(200).with_support([0, -1, 0])), (15, 15));
        assert_eq!(with(source.with_powered(None).with_support([0, -1, 0])), (0, 0));
    }
}

#[test]
fn fresh_devices_start_as_their_rows_say() {
    let of = |kind| Row::new(kind, [0, 0, 0]);
    let torch = |lit| Device::Torch { lit, toggles: 0, candidate: false };
    assert_eq!(device(of(Kind::RedstoneTorch)), torch(true));
    assert_eq!(device(of(Kind::RedstoneTorch).with_powered(false)), torch(false));
    let repeater = |powered, queue| Device::Repeater { powered, queue };
    assert_eq!(device(of(Kind::Repeater)), repeater(false, 0));
    assert_eq!(device(of(Kind::Repeater).with_powered(true)), repeater(true, 0b1));
    assert_eq!(device(of(Kind::Repeater).with_powered(true).with_delay(0)), repeater(true, 0b1));
    assert_eq!(device(of(Kind::Repeater).with_powered(true).with_delay(9)), repeater(true, 0b1111));
    let comparator = of(Kind::Comparator);
    assert_eq!(device(comparator), Device::Comparator { level: 0 });
    assert_eq!(device(comparator.with_powered(true)), Device::Comparator { level: 15 });
    for level in 0..=15 {
        for powered in [None, Some(false), Some(true)] {
            let row = comparator.with_powered(powered).with_power_level(level);
            assert_eq!(device(row), Device::Comparator { level });
        }
    }
    let bulb = |lit| Device::Bulb { lit, had_power: false };
    assert_eq!(device(of(Kind::CopperBulb)), bulb(false));
    assert_eq!(device(of(Kind::CopperBulb).with_powered(false)), bulb(false));
    assert_eq!(device(of(Kind::CopperBulb).with_powered(true)), bulb(true));
}

/// What a lever, button or plate has above 15 counts as 15, and to other kinds a level means nothing.
#[test]
fn no_level_is_too_large_but_a_comparators() {
    for &kind in Kind::ALL {
        for level in 0..=u8::MAX {
            let row = Row::new(kind, [0, 0, 0]).with_powered(true).with_power_level(level);
            let made = Circuit::new(&BENCH_PROFILE_WITH_BULB, [row]);
            if kind == Kind::Comparator && level > 15 {
                let refusal = made.expect_err("a comparator above 15");
                assert_eq!((refusal.number, refusal.row), (10, 0));
                continue;
            }
            let given = match kind {
                Kind::Lever | Kind::Button | Kind::PressurePlate | Kind::Comparator => level.min(15),
                Kind::RedstoneTorch | Kind::Repeater | Kind::RedstoneBlock => 15,
                _ => 0,
            };
            assert_eq!(made.expect("accepted").settled().signal(), [given], "{kind}, {level}");
        }
    }
}

/// Sources of every level about blocks, dust and comparators, over many ticks.
#[test]
fn no_figure_is_above_15() {
    let source = |level| {
        Row::new(Kind::PressurePlate, [0, 1, 0])
            .with_support([0, -1, 0])
            .with_powered(true)
            .with_power_level(level)
    };
    let comparator = Row::new(Kind::Comparator, [1, 0, 0]).with_facing(Facing::East);
    let others = [
        SOLID,
        comparator.with_power_level(15),
        comparator.with_position([1, 0, 1]).with_facing(Facing::North).with_power_level(15),
        SOLID.with_position([2, 0, 0]),
        Row::new(Kind::RedstoneWire, [2, 1, 0]),
        comparator.with_position([3, 0, 0]).with_subtract(true),
        Row::new(Kind::RedstoneLamp, [4, 0, 0]),
    ];
    let mut most = 0;
    for level in 0..=u8::MAX {
        let mut circuit = circuit(others.into_iter().chain([source(level)]));
        for _ in 0..6 {
            let settled = circuit.settled();
            let figures = [settled.signal(), settled.weak(), settled.strong()].concat();
            most = figures.into_iter().fold(most, u8::max);
            circuit.tick(1).expect("accepted");
        }
    }
    assert_eq!(most, 15);
}

/// The fresh figures are an instant, not the state of rest.
#[test]
fn a_torch_on_a_powered_block_is_lit_until_a_tick() {
    let mut circuit = circuit([
        Row::new(Kind::Lever, [0, 1, 0]).with_powered(true).with_support([0, -1, 0]),
        Row::new(Kind::Solid, [0, 0, 0]),
        Row::new(Kind::RedstoneTorch, [1, 0, 0]).with_support([-1, 0, 0]),
        Row::new(Kind::RedstoneTorch, [2, 0, 0]),
    ]);
    assert_eq!(signal(&circuit, [1, 0, 0]), 15);
    circuit.tick(1).expect("accepted");
    assert_eq!(signal(&circuit, [1, 0, 0]), 0);
    assert_eq!(signal(&circuit, [2, 0, 0]), 15);
}

/// y is up: dust climbs a block with dust on it, and power comes down a solid one alone.
#[test]
fn power_climbs_every_shape_and_comes_down_solid_ones() {
    let line = |shape, source: [i32; 3]| {
        let dust = [[1, 0, 0], [2, 1, 0]];
        let rows = dust.map(|position| Row::new(Kind::RedstoneWire, position));
        let block = Row::new(Kind::Solid, [2, 0, 0]).with_shape(shape);
        let circuit = circuit(rows.into_iter().chain([block, Row::new(Kind::RedstoneBlock, source)]));
        dust.map(|position| signal(&circuit, position))
    };
    for shape in [Shape::Plain, Shape::DoubleSlab] {
        assert_eq!(line(shape, [0, 0, 0]), [15, 14]);
        assert_eq!(line(shape, [3, 1, 0]), [14, 15]);
    }
    for shape in [Shape::TopSlab, Shape::TopStairs, Shape::Glass] {
        assert_eq!(line(shape, [0, 0, 0]), [15, 14]);
        assert_eq!(line(shape, [3, 1, 0]), [0, 15]);
    }
    for shape in [Shape::BottomSlab, Shape::BottomStairs] {
        assert_eq!(line(shape, [0, 0, 0]), [15, 0]);
    }
}

#[test]
fn strong_power_alone_drives_dust() {
    let below = |rows: &[Row]| {
        let block = Row::new(Kind::Solid, [1, 0, 0]);
        let dust = Row::new(Kind::RedstoneWire, [1, -1, 0]);
        let circuit = circuit(rows.iter().copied().chain([block, dust]));
        let block = circuit.at([1, 0, 0]).expect("a block").figures;
        (block.weak, block.strong, signal(&circuit, [1, -1, 0]))
    };
    let dust = [Row::new(Kind::RedstoneBlock, [0, 1, 0]), Row::new(Kind::RedstoneWire, [1, 1, 0])];
    assert_eq!(below(&dust), (15, 0, 0));
    let lever = Row::new(Kind::Lever, [1, 1, 0]).with_powered(true).with_support([0, -1, 0]);
    let (_, strong, level) = below(&[lever]);
    assert_eq!((strong, level), (15, 15));
}

/// The bench profile with these values for the torch.
fn with_torch(values: u8) -> [u8; PROFILE_BYTES_WITH_BULB] {
    let mut profile = BENCH_PROFILE_WITH_BULB;
    profile[usize::from(Kind::RedstoneTorch.code())] = values;
    profile
}

/// The strong power of a block over a torch.
fn over_torch(profile: &[u8], torch: Row, block: Row) -> u8 {
    let rows = [torch.with_position([0, 0, 0]), block.with_position([0, 1, 0])];
    strong(&Circuit::new(profile, rows).expect("an accepted table"), [0, 1, 0])
}

const TORCH: Row = Row::new(Kind::RedstoneTorch, [0, 0, 0]);
const SOLID: Row = Row::new(Kind::Solid, [0, 0, 0]);

/// Whatever else the torch's byte has, and whatever the torch's shape and support are.
#[test]
fn a_lit_torch_charges_the_block_above_by_its_value_of_the_profile() {
    for values in 0..=63 {
        let charged = if values & TORCH_CHARGES_ABOVE == 0 { 0 } else { 15 };
        let profile = with_torch(values);
        for &shape in Shape::ALL {
            for support in [None, Some([0, -1, 0]), Some([1, 0, 0]), Some([0, 1, 0])] {
                let torch = TORCH.with_shape(shape).with_support(support);
                assert_eq!(over_torch(&profile, torch, SOLID), charged, "{values}, {torch:?}");
                assert_eq!(over_torch(&profile, torch.with_powered(false), SOLID), 0, "{values}, {torch:?}");
            }
        }
    }
}

#[test]
fn a_torch_charges_what_receives_strong_power_alone() {
    for &kind in Kind::ALL {
        for values in 0..=31 {
            let mut profile = with_torch(TORCH_CHARGES_ABOVE);
            profile[usize::from(kind.code())] |= values;
            let receives = profile[usize::from(kind.code())] & 4 != 0;
            for &shape in Shape::ALL {
                let charged = match shape {
                    Shape::Plain => receives,
                    shape => shape == Shape::DoubleSlab,
                };
                let block = Row::new(kind, [0, 0, 0]).with_shape(shape);
                let strong = over_torch(&profile, TORCH, block);
                assert_eq!(strong, if charged { 15 } else { 0 }, "{values}, {block:?}");
            }
        }
    }
}

#[test]
fn a_torch_charges_no_other_place_than_the_one_above() {
    let steps = -2..=2;
    let places = steps.clone().flat_map(|x| steps.clone().flat_map(move |y| [-1, 0, 1].map(|z| [x, y, z])));
    let around: Vec<_> = places.filter(|place| *place != [0, 0, 0]).collect();
    let rows = around.iter().map(|place| SOLID.with_position(*place)).chain([TORCH]);
    let circuit = Circuit::new(&with_torch(TORCH_CHARGES_ABOVE), rows).expect("an accepted table");
    for place in around {
        assert_eq!(strong(&circuit, place), if place == [0, 1, 0] { 15 } else { 0 }, "{place:?}");
    }
}

/// Each torch stands on the block that the one below charges.
#[test]
fn a_torch_tower_turns_round_at_each_torch() {
    let lever = Row::new(Kind::Lever, [-1, 0, 0]).with_support([1, 0, 0]);
    let blocks = [0, 2, 4].map(|y| SOLID.with_position([0, y, 0]));
    let torches = [1, 3, 5].map(|y| TORCH.with_position([0, y, 0]).with_support([0, -1, 0]));
    let dust = [SOLID.with_position([0, 6, 0]), Row::new(Kind::RedstoneWire, [0, 7, 0])];
    let rows = [lever].into_iter().chain(blocks).chain(torches).chain(dust);
    let mut circuit = Circuit::new(&with_torch(TORCH_CHARGES_ABOVE), rows).expect("an accepted table");
    let mut at_rest = |on| {
        circuit.switch([-1, 0, 0], on).expect("accepted");
        circuit.tick(3).expect("accepted");
        ([1, 3, 5].map(|y| signal(&circuit, [0, y, 0])), signal(&circuit, [0, 7, 0]))
    };
    assert_eq!(at_rest(false), ([15, 0, 15], 15));
    assert_eq!(at_rest(true), ([0, 15, 0], 0));
}
