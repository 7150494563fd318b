//! The calls by hand: what they answer and write, and that each refusal comes through.

use super::{Lent, UNTOUCHED};
use crate::{
    Arm, BENCH_PROFILE, BENCH_PROFILE_WITH_BULB, Device, FARTHEST_OFFSET, Facing, Kind, MERGE_BYTES,
    MOST_FEEDERS, MOST_ROWS, ROW_BYTES, Refusal, Rounds, Row, STATE_BYTES, clear, feeders, fresh, merge,
    redraw, replace, rows, settle, supports, switch, table, tick,
};

/// The number and the row of a refusal.
type Refused = Option<(u32, usize)>;

fn refused<T>(answer: Result<T, Refusal>) -> Refused {
    answer.err().map(|refusal| (refusal.number, refusal.row))
}

fn rounds(answer: Result<Rounds, Refusal>) -> u32 {
    answer.unwrap_or_else(|refusal| panic!("{refusal}")).get()
}

/// A lamp with a lever on it.
fn lamp(powered: bool) -> Vec<u8> {
    let lever = Row::new(Kind::Lever, [0, 1, 0]).with_support([0, -1, 0]).with_powered(powered);
    table([lever, Row::new(Kind::RedstoneLamp, [0, 0, 0])])
}

/// Tests 1, 2 and 5 of the book.
#[test]
fn the_smallest_tables_settle() {
    let settled = |table: &[u8], devices: &[u8], limit| {
        let mut lent = Lent::new(table.len() / ROW_BYTES);
        (settle(&BENCH_PROFILE, table, devices, limit, lent.columns()), lent.signal)
    };
    assert_eq!(rounds(settled(&[], &[], 128).0), 1);
    assert_eq!(refused(settled(&[], &[], 0).0), Some((8, 0)));
    assert_eq!(rounds(settled(&table([Row::new(Kind::Solid, [0; 3])]), &[0], 128).0), 2);
    let (answer, signal) = settled(&table([Row::new(Kind::RedstoneBlock, [0; 3])]), &[0], 128);
    assert_eq!((rounds(answer), signal), (1, vec![15]));
    let comparator = Row::new(Kind::Comparator, [0, 1, 0]).with_facing(Facing::East).with_power_level(15);
    let table = table([comparator, Row::new(Kind::RedstoneWire, [1, 1, 0])]);
    let (answer, signal) = settled(&table, &[15, 0], 128);
    assert_eq!((rounds(answer), signal), (2, vec![15, 15]));
}

#[test]
fn a_lever_is_thrown_and_its_lamp_goes_out() {
    let (mut table, mut state) = (lamp(true), vec![UNTOUCHED; 2 * STATE_BYTES]);
    let mut lent = Lent::new(2);
    rounds(fresh(&BENCH_PROFILE, &table, &mut state, lent.columns()));
    assert_eq!((state[2], &lent.strong[..]), (1, &[15, 0][..]));

    rounds(switch(&BENCH_PROFILE, &mut table, &state, [0, 1, 0], false, lent.columns()));
    assert_eq!((&table, &lent.strong[..]), (&lamp(false), &[0, 0][..]));

    let lit = |ticks| {
        let (mut later, mut lent) = (state.clone(), Lent::new(2));
        rounds(tick(&BENCH_PROFILE, &table, &mut later, 0, ticks, lent.columns()));
        later[2]
    };
    assert_eq!([0, 1, 2, 3].map(lit), [1, 1, 1, 0]);
}

#[test]
fn each_refusal_has_its_word_and_writes_nothing() {
    let good = lamp(true);
    let bad_row = [&good[..ROW_BYTES], &[0; ROW_BYTES]].concat();
    let misplaced = [&good[..ROW_BYTES], &good[..ROW_BYTES]].concat();
    let crowded = vec![0; (MOST_ROWS + 1) * ROW_BYTES];
    let comparator = Row::new(Kind::Comparator, [1, 0, 0]).with_power_level(16);
    let overdriven = [&good[..], &comparator.bytes()].concat();
    let settled = |profile: &[u8], table: &[u8], devices: &[u8], limit, rows| {
        let mut lent = Lent::new(rows);
        let answer = settle(profile, table, devices, limit, lent.columns());
        assert!(lent.untouched());
        answer
    };
    let ticked = |mut state: Vec<u8>, tick_number, ticks| {
        let (mut lent, before) = (Lent::new(2), state.clone());
        let answer = tick(&BENCH_PROFILE, &good, &mut state, tick_number, ticks, lent.columns());
        assert!(lent.untouched() && state == before);
        answer
    };
    let merged_with = |other: &[u8], offset| {
        let mut out = vec![UNTOUCHED; MERGE_BYTES];
        let answer = merge(&good, other, offset, &mut out);
        assert!(out.iter().all(|byte| *byte == UNTOUCHED));
        answer.map(|_| panic!("a merge that is refused"))
    };
    let bench = &BENCH_PROFILE;
    let answers = [
        (settled(&bench[..12], &good, &[0; 2], 17, 2), 1, 0, "profile"),
        (settled(bench, &good[..63], &[0; 2], 17, 2), 2, 0, "ragged"),
        (settled(bench, &crowded, &[0; 2], 17, 2), 3, 0, "crowded"),
        (settled(bench, &bad_row, &[0; 2], 17, 2), 4, 1, "bad row"),
        (settled(bench, &misplaced, &[0; 2], 17, 2), 5, 1, "misplaced"),
        (settled(bench, &good, &[0, 1], 17, 2), 6, 1, "bad state"),
        (settled(bench, &good, &[0; 2], 17, 3), 7, 0, "column"),
        (settled(bench, &good, &[0; 2], 1, 2), 8, 0, "unsettled"),
        (ticked(vec![0; 2 * STATE_BYTES], u32::MAX, 1), 9, 0, "clock end"),
        (settled(bench, &overdriven, &[0; 3], 17, 3), 10, 2, "overdriven"),
        (ticked(vec![0; STATE_BYTES], 0, 1), 6, 0, "bad state"),
        (merged_with(&good, [FARTHEST_OFFSET, 0, 0]), 11, 0, "off ground"),
        (merged_with(&lamp(false), [0; 3]), 12, 0, "clash"),
    ];
    for (answer, number, row, word) in answers {
        let refusal = answer.expect_err(word);
        assert_eq!((refusal.number, refusal.row), (number, row));
        assert_eq!(refusal.kind().to_string(), word);
        assert!(refusal.to_string().starts_with(&format!("refusal {number}, {word}: ")), "{refusal}");
    }
}

/// All that the calls are lent.
#[derive(Clone, PartialEq)]
struct Buffers {
    table: Vec<u8>,
    devices: Vec<u8>,
    state: Vec<u8>,
    lent: Lent,
    list: Vec<u16>,
    kept: Vec<u8>,
    passes: Vec<u16>,
    feeders: Vec<u16>,
}

const DUST: Row = Row::new(Kind::RedstoneWire, [1, 0, 0]);
/// The row of the comparator.
const COMPARATOR: usize = 3;

impl Buffers {
    /// A lamp with a lever on it, about to go out, dust that nothing holds up, and a comparator. Each call writes some of it.
    fn new() -> Self {
        let comparator = Row::new(Kind::Comparator, [2, 0, 0]).with_power_level(0);
        let table = [&lamp(true)[..], &DUST.bytes(), &comparator.bytes()].concat();
        let devices = [
            Device::Lamp { lit: true, ticks_left: 2 },
            Device::None,
            Device::None,
            Device::Comparator { level: 0 },
        ];
        Self {
            kept: vec![UNTOUCHED; table.len()],
            table,
            devices: devices.map(|device| device.byte()).to_vec(),
            state: devices.map(|device| device.bytes()).concat(),
            lent: Lent::new(devices.len()),
            list: vec![u16::MAX; devices.len()],
            passes: vec![u16::MAX; devices.len()],
            feeders: vec![0; MOST_FEEDERS * devices.len()],
        }
    }
}

/// A call under a profile. One that is not refused writes.
type Call = fn(&[u8], &mut Buffers) -> Refused;

/// Fresh, settle, tick, switch, redraw, supports, clear, feeders and replace.
const CALLS: [Call; 9] = [
    |profile, of| refused(fresh(profile, &of.table, &mut of.state, of.lent.columns())),
    |profile, of| refused(settle(profile, &of.table, &of.devices, 17, of.lent.columns())),
    |profile, of| refused(tick(profile, &of.table, &mut of.state, 0, 1, of.lent.columns())),
    |profile, of| refused(switch(profile, &mut of.table, &of.state, [0, 1, 0], false, of.lent.columns())),
    |profile, of| refused(redraw(profile, &mut of.table)),
    |profile, of| refused(supports(profile, &of.table, &mut of.list)),
    |profile, of| refused(clear(profile, &of.table, &mut of.kept, &mut of.passes)),
    |profile, of| refused(feeders(profile, &of.table, &mut of.feeders)),
    |profile, of| {
        let new_row = DUST.with_kind(Kind::Solid).bytes();
        refused(replace(profile, &mut of.table, 2, &new_row, &mut of.feeders))
    },
];

/// That each call answers so, and writes exactly where it is not refused.
fn assert_each(profile: &[u8], buffers: &Buffers, refused: [Refused; 9]) {
    for (call, refused) in CALLS.into_iter().zip(refused) {
        let mut lent = buffers.clone();
        assert_eq!(call(profile, &mut lent), refused, "{profile:?}");
        assert_eq!(refused.is_some(), lent == *buffers, "{profile:?}");
    }
}

/// In a row by every call, in the device column by settle, in the state by tick and switch.
#[test]
fn a_comparators_level_is_refused_exactly_above_15() {
    for level in 0..=u8::MAX {
        let overdriven = (level > 15).then_some((10, COMPARATOR));
        let mut buffers = Buffers::new();
        buffers.table[COMPARATOR * ROW_BYTES + 16] = level;
        assert_each(&BENCH_PROFILE, &buffers, [overdriven; 9]);

        let mut buffers = Buffers::new();
        buffers.devices[COMPARATOR] = level;
        assert_each(&BENCH_PROFILE, &buffers, [None, overdriven, None, None, None, None, None, None, None]);

        let mut buffers = Buffers::new();
        buffers.state[COMPARATOR * STATE_BYTES] = level;
        assert_each(
            &BENCH_PROFILE,
            &buffers,
            [None, None, overdriven, overdriven, None, None, None, None, None],
        );
    }
}

/// Air's byte may be 0, the torch's at most 63, and each other at most 31.
#[test]
fn a_profile_byte_is_refused_exactly_above_its_limit() {
    let limits = [0, 31, 31, 31, 63, 31, 31, 31, 31, 31, 31, 31, 31, 31];
    for bench in [&BENCH_PROFILE[..], &BENCH_PROFILE_WITH_BULB] {
        for (kind, most) in limits.into_iter().take(bench.len()).enumerate() {
            for value in 0..=u8::MAX {
                let mut profile = bench.to_vec();
                profile[kind] = value;
                assert_each(&profile, &Buffers::new(), [(value > most).then_some((1, 0)); 9]);
            }
        }
    }
}

#[test]
fn a_profile_has_13_or_14_bytes() {
    for length in 0..=64 {
        let is_good = length == 13 || length == 14;
        assert_each(&vec![0; length], &Buffers::new(), [(!is_good).then_some((1, 0)); 9]);
    }
}

#[test]
fn fresh_and_switch_refuse_what_they_are_lent() {
    let mut table = lamp(true);
    let (mut state, mut lent) = (vec![UNTOUCHED; 2 * STATE_BYTES + 1], Lent::new(2));
    let answer = fresh(&BENCH_PROFILE, &table, &mut state, lent.columns());
    assert_eq!(refused(answer), Some((7, 0)));
    let answer = switch(&BENCH_PROFILE, &mut table, &state, [0, 1, 0], false, lent.columns());
    assert_eq!(refused(answer), Some((6, 0)));
    assert!(lent.untouched() && state.iter().all(|byte| *byte == UNTOUCHED) && table == lamp(true));
}

#[test]
fn a_redraw_stores_every_arm() {
    let dust = Row::new(Kind::RedstoneWire, [0, 0, 0]);
    let mut drawn = table([dust, Row::new(Kind::Lever, [1, 0, 0])]);
    redraw(&BENCH_PROFILE, &mut drawn).expect("an accepted table");
    let arms = Some([None, Some(Arm::Side), None, Some(Arm::Side)]);
    assert_eq!(rows(&drawn).expect("an accepted table")[0].arms(), arms);

    let mut bad = table([dust, dust]);
    let before = bad.clone();
    assert_eq!(refused(redraw(&BENCH_PROFILE, &mut bad)), Some((5, 1)));
    assert_eq!(bad, before);
}

#[test]
fn the_support_list_is_at_the_front() {
    let lever = Row::new(Kind::Lever, [0, 1, 0]).with_support([0, -1, 0]);
    let solid = Row::new(Kind::Solid, [0, 0, 0]);
    let table = table([solid, lever, lever.with_position([0, 5, 0]), lever.with_position([0, 9, 0])]);
    let mut list = [u16::MAX; 4];
    assert_eq!(supports(&BENCH_PROFILE, &table, &mut list).expect("an accepted table"), 2);
    assert_eq!(list, [2, 3, u16::MAX, u16::MAX]);

    let mut longer = [u16::MAX; 5];
    assert_eq!(refused(supports(&BENCH_PROFILE, &table, &mut longer)), Some((7, 0)));
    assert_eq!(longer, [u16::MAX; 5]);
}
