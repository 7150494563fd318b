//! A redraw twice, and a redraw and a switch in either order: which table they leave, what is refused, and of which table
//! the columns are.

use super::Lent;
use crate::{
    Arm, BENCH_PROFILE, BENCH_PROFILE_WITH_BULB, Circuit, Facing, Kind, ROW_BYTES, Refusal, Rounds, Row,
    STATE_BYTES, fresh, redraw, settle, switch, table, tick,
};

/// North, East, South, West.
type Arms = [Option<Arm>; 4];

const NO: Option<Arm> = None;
const SIDE: Option<Arm> = Some(Arm::Side);
const UP: Option<Arm> = Some(Arm::Up);

/// A row, and for dust the arms that it is to be drawn with.
type Drawn = (Row, Option<Arms>);

fn dust(position: [i32; 3], arms: Arms) -> Drawn {
    (Row::new(Kind::RedstoneWire, position), Some(arms))
}

fn block(kind: Kind, position: [i32; 3]) -> Drawn {
    (Row::new(kind, position), None)
}

/// A line that ends at a block.
fn line() -> Vec<Drawn> {
    vec![block(Kind::Lever, [0, 0, 0]), dust([1, 0, 0], [NO, SIDE, NO, SIDE]), block(Kind::Solid, [2, 0, 0])]
}

/// Rows in the table's order, with arms by hand.
fn drawings() -> [Vec<Drawn>; 5] {
    let lever = Row::new(Kind::Lever, [0, 0, 1]).with_powered(true);
    let repeater = Row::new(Kind::Repeater, [1, 0, 0]).with_facing(Facing::East).with_powered(false);
    let solid_with_arms = Row::new(Kind::Solid, [1, 0, 0]).with_arms([UP, SIDE, Some(Arm::None), NO]);
    [
        line(),
        // Dust that stands alone, beside a block with arms, which stay.
        vec![dust([0, 0, 0], [NO; 4]), (solid_with_arms, None)],
        // A corner: no arm is alone.
        vec![dust([0, 0, 0], [NO, SIDE, SIDE, NO]), (lever, None), block(Kind::RedstoneTorch, [1, 0, 0])],
        // Dust that climbs a block.
        vec![
            dust([0, 0, 0], [NO, UP, NO, SIDE]),
            block(Kind::Solid, [1, 0, 0]),
            dust([1, 1, 0], [NO, SIDE, NO, SIDE]),
        ],
        // Dust behind a repeater, and before it.
        vec![
            dust([0, 0, 0], [NO, SIDE, NO, SIDE]),
            (repeater, None),
            dust([2, 0, 0], [NO, SIDE, NO, SIDE]),
            block(Kind::RedstoneLamp, [3, 0, 0]),
        ],
    ]
}

/// No arms, and all that can be stored.
fn all_stored() -> impl Iterator<Item = Option<Arms>> {
    let entries = [None, Some(Arm::None), SIDE, UP];
    let arms = move |number: usize| [0, 2, 4, 6].map(|shift| entries[number >> shift & 3]);
    [None].into_iter().chain((0..256).map(move |number| Some(arms(number))))
}

/// The table whose dust has these arms.
fn with_stored(drawing: &[Drawn], stored: Option<Arms>) -> Vec<u8> {
    table(drawing.iter().map(|&(row, drawn)| if drawn.is_some() { row.with_arms(stored) } else { row }))
}

/// The rows whose dust has its arms as drawn by hand.
fn by_hand(drawing: &[Drawn]) -> impl Iterator<Item = Row> {
    drawing.iter().map(|&(row, drawn)| if drawn.is_some() { row.with_arms(drawn) } else { row })
}

/// The same with the block at a position switched, if there is one.
fn switched_by_hand(drawing: &[Drawn], position: [i32; 3], on: bool) -> Vec<u8> {
    table(by_hand(drawing).map(|row| if row.position() == position { row.with_powered(on) } else { row }))
}

fn row_count(table: &[u8]) -> usize {
    table.len() / ROW_BYTES
}

/// The state in which every device is off.
fn all_off(table: &[u8]) -> Vec<u8> {
    vec![0; STATE_BYTES * row_count(table)]
}

fn fresh_state(table: &[u8]) -> Vec<u8> {
    let mut state = all_off(table);
    fresh(&BENCH_PROFILE, table, &mut state, Lent::new(row_count(table)).columns())
        .expect("an accepted table");
    state
}

/// A switch, and what it is lent beside the table.
#[derive(Clone, Copy)]
struct Switch<'a> {
    profile: &'a [u8],
    state: &'a [u8],
    position: [i32; 3],
    on: bool,
    /// The lengths of its columns.
    columns: [usize; 3],
}

/// What a redraw and a switch leave.
struct Left {
    table: Vec<u8>,
    redraw: Result<(), Refusal>,
    switch: Result<Rounds, Refusal>,
    /// The columns of the switch.
    lent: Lent,
}

impl<'a> Switch<'a> {
    fn new(table: &[u8], state: &'a [u8], position: [i32; 3], on: bool) -> Self {
        Self { profile: &BENCH_PROFILE, state, position, on, columns: [row_count(table); 3] }
    }

    fn call(&self, table: &mut [u8]) -> (Result<Rounds, Refusal>, Lent) {
        let mut lent = Lent::of_lengths(self.columns);
        let answer = switch(self.profile, table, self.state, self.position, self.on, lent.columns());
        (answer, lent)
    }

    fn after_redraw(&self, table: &[u8]) -> Left {
        let mut table = table.to_vec();
        let redraw = redraw(self.profile, &mut table);
        let (switch, lent) = self.call(&mut table);
        Left { table, redraw, switch, lent }
    }

    fn before_redraw(&self, table: &[u8]) -> Left {
        let mut table = table.to_vec();
        let (switch, lent) = self.call(&mut table);
        let redraw = redraw(self.profile, &mut table);
        Left { table, redraw, switch, lent }
    }
}

#[test]
fn redrawing_twice_is_redrawing_once() {
    for drawing in drawings() {
        for stored in all_stored() {
            let mut drawn = with_stored(&drawing, stored);
            for _ in 0..2 {
                assert_eq!(redraw(&BENCH_PROFILE, &mut drawn), Ok(()));
                assert_eq!(drawn, table(by_hand(&drawing)), "{stored:?}");
            }
        }
    }
}

#[test]
fn a_refused_redraw_is_refused_again() {
    let lone = Row::new(Kind::RedstoneWire, [0, 0, 0]);
    let misplaced = table([lone, lone]);
    let mut drawn = misplaced.clone();
    for _ in 0..2 {
        let refusal = redraw(&BENCH_PROFILE, &mut drawn).expect_err("a position twice");
        assert_eq!((refusal.number, refusal.row), (5, 1));
        assert_eq!(drawn, misplaced);
    }
}

/// Each of the two switches has a state of its own.
fn assert_same_table(drawing: &[Drawn], stored: Option<Arms>, position: [i32; 3], on: bool) {
    let given = with_stored(drawing, stored);
    let [one, other] = [all_off(&given), fresh_state(&given)];
    for left in [
        Switch::new(&given, &one, position, on).after_redraw(&given),
        Switch::new(&given, &other, position, on).before_redraw(&given),
    ] {
        assert!(left.redraw.is_ok() && left.switch.is_ok());
        assert_eq!(left.table, switched_by_hand(drawing, position, on), "{stored:?}, {position:?}, {on}");
    }
}

#[test]
fn a_switch_before_the_redraw_or_after_it_leaves_the_same_table() {
    const EMPTY: [i32; 3] = [0, 7, 0];
    for drawing in drawings() {
        for position in drawing.iter().map(|(row, _)| row.position()).chain([EMPTY]) {
            for stored in all_stored() {
                assert_same_table(&drawing, stored, position, false);
                assert_same_table(&drawing, stored, position, true);
            }
        }
    }
}

/// By 1 to 5 both calls are refused, and by 6 and 7 the switch alone.
#[test]
fn what_is_refused_is_refused_in_either_order() {
    let drawing = line();
    let given = with_stored(&drawing, Some([UP, NO, SIDE, Some(Arm::None)]));
    let drawn = table(by_hand(&drawing));
    let misplaced = [&given[..], &given[..ROW_BYTES]].concat();
    let off = all_off(&given);
    let solid_on = [&off[..2 * STATE_BYTES], &[1], &[0; STATE_BYTES - 1]].concat();
    let good = Switch::new(&given, &off, [0, 0, 0], true);
    let cases = [
        (Switch { profile: &BENCH_PROFILE[1..], ..good }, &given, (1, 0)),
        (good, &misplaced, (5, 3)),
        (Switch { state: &off[1..], ..good }, &given, (6, 0)),
        (Switch { state: &solid_on, ..good }, &given, (6, 2)),
        (Switch { columns: [3, 4, 3], ..good }, &given, (7, 0)),
    ];
    for (switch, given, refused) in cases {
        let [one, other] = [switch.after_redraw(given), switch.before_redraw(given)];
        assert_eq!((one.redraw, one.switch), (other.redraw, other.switch));
        for left in [one, other] {
            let refusal = left.switch.expect_err("a refused switch");
            assert_eq!((refusal.number, refusal.row), refused);
            let is_of_both = refusal.number <= 5;
            assert_eq!(left.redraw, if is_of_both { Err(refusal) } else { Ok(()) });
            assert_eq!(&left.table, if is_of_both { given } else { &drawn });
            assert!(left.lent.untouched());
        }
    }
}

/// By the redraw a block gains power where a lone arm gains its opposite, and loses it where a stored arm goes.
#[test]
fn the_columns_of_the_switch_are_those_of_the_table_it_is_given() {
    let ends_at_block = with_stored(&line(), None);
    let [north, south] = [[0, 0, -1], [0, 0, 1]].map(|position| Row::new(Kind::Lever, position));
    let past_block = table([
        north,
        Row::new(Kind::RedstoneWire, [0, 0, 0]).with_arms([NO, SIDE, NO, NO]),
        south,
        Row::new(Kind::Solid, [1, 0, 0]),
    ]);
    let cases = [
        (ends_at_block, [0, 0, 0], vec![0, 0, 0], vec![0, 0, 15]),
        (past_block, north.position(), vec![0, 0, 0, 15], vec![0, 0, 0, 0]),
    ];
    for (given, lever, weak, weak_when_drawn) in cases {
        let state = fresh_state(&given);
        let switch = Switch::new(&given, &state, lever, true);
        let [one, other] = [switch.after_redraw(&given), switch.before_redraw(&given)];
        assert_eq!((&one.lent.weak, &other.lent.weak), (&weak_when_drawn, &weak));

        let (mut state, mut lent) = (state.clone(), Lent::new(row_count(&given)));
        let rounds = tick(&BENCH_PROFILE, &other.table, &mut state, 0, 0, lent.columns());
        assert!(rounds == one.switch && lent == one.lent, "settled after the last of the two");
    }
}

/// What a table settles to after so many redraws, with a limit.
fn settled_after(redraws: usize, table: &[u8], limit: u32) -> (Result<Rounds, Refusal>, Lent) {
    let (mut table, mut lent) = (table.to_vec(), Lent::new(row_count(table)));
    for _ in 0..redraws {
        redraw(&BENCH_PROFILE, &mut table).expect("an accepted table");
    }
    let answer = settle(&BENCH_PROFILE, &table, &vec![0; row_count(&table)], limit, lent.columns());
    (answer, lent)
}

#[test]
fn a_table_settles_after_two_redraws_as_after_one() {
    let lever = Row::new(Kind::Lever, [0, 0, 0]).with_powered(true);
    let given = table([lever].into_iter().chain(line()[1..].iter().map(|(row, _)| *row)));
    let weak = |redraws| settled_after(redraws, &given, Rounds::MOST).1.weak[2];
    assert_eq!([0, 1, 2].map(weak), [0, 15, 15]);
    assert_eq!(settled_after(2, &given, 1).0.map_err(|refusal| refusal.number), Err(8));
    for limit in 0..=Rounds::MOST {
        let [once, twice] = [1, 2].map(|redraws| settled_after(redraws, &given, limit));
        assert!(once == twice, "{limit}");
    }
}

/// In table, state, tick, columns and rounds. The repeater is on, and power has yet to arrive at the bulb.
#[test]
fn a_circuit_is_the_same_in_either_order() {
    let (lever, bulb) = ([0, 0, 0], [4, 0, 0]);
    let repeater = Row::new(Kind::Repeater, [2, 0, 0]).with_facing(Facing::East).with_powered(true);
    let drawing = [
        block(Kind::Lever, lever),
        dust([1, 0, 0], [NO, SIDE, NO, SIDE]),
        (repeater, None),
        dust([3, 0, 0], [NO, SIDE, NO, SIDE]),
        block(Kind::CopperBulb, bulb),
    ];
    let fresh = Circuit::from_table(&BENCH_PROFILE_WITH_BULB, with_stored(&drawing, None)).expect("accepted");
    let at_tick_3 =
        |table| Circuit::resume(&BENCH_PROFILE_WITH_BULB, table, fresh.state(), 3).expect("accepted");
    let circuit = at_tick_3(fresh.table().to_vec());
    let weak = |circuit: &Circuit| circuit.at(bulb).expect("a bulb").figures.weak;

    for position in drawing.map(|(row, _)| row.position()).into_iter().chain([[0, 7, 0]]) {
        for on in [false, true] {
            let [mut one, mut other] = [circuit.clone(), circuit.clone()];
            one.redraw().expect("accepted");
            let rounds = one.switch(position, on);
            other.switch(position, on).expect("accepted");
            assert_eq!([weak(&one), weak(&other)], [15, 0]);
            assert_eq!(other.redraw(), rounds);
            assert_eq!(one, at_tick_3(switched_by_hand(&drawing, position, on)));
            assert_eq!(other, one);
            assert_eq!(other.redraw(), rounds);
            assert_eq!(other, one, "redrawn twice");
        }
    }
}
