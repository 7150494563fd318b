//! A write outside of a lent buffer is noticed, be its entries bytes or of 16 bits.

use std::fmt::Debug;

use differential::generate::{BENCH_PROFILE, Case};
use differential::lent::{Entry, GUARDS, Lent};
use differential::merge::OUT_BYTES;
use differential::probe::{
    probe_settle_by_rounds, probe_support_issues, redstone_clear, redstone_feeders, redstone_merge,
    redstone_replace,
};
use redstone::{Columns, Kind, Row};

/// Writes each of these values for an entry to every place in and around buffers of some lengths.
fn assert_each_write_is_noticed<T: Entry + Debug>(others: impl Fn(T) -> Vec<T>) {
    for (entries, place) in
        [0, 1, 5].into_iter().flat_map(|entries| places(entries).map(move |at| (entries, at)))
    {
        let guard = Lent::<T>::untouched(entries).with_guards()[place];
        for other in others(guard) {
            let mut lent = Lent::untouched(entries);
            lent.with_guards()[place] = other;
            let returned = lent.returned();
            match place.checked_sub(GUARDS).filter(|at| *at < entries) {
                Some(at) => assert_eq!((returned.entries[at], returned.outside), (other.into(), vec![])),
                None => assert_eq!(returned.outside, [(place as isize - GUARDS as isize, other.into())]),
            }
        }
    }
}

fn places(entries: usize) -> std::ops::Range<usize> {
    0..entries + 2 * GUARDS
}

#[test]
fn a_write_of_any_bit_is_noticed() {
    assert_each_write_is_noticed(|entry: u8| (0..8).map(|bit| entry ^ 1 << bit).collect());
    assert_each_write_is_noticed(|entry: u16| (0..16).map(|bit| entry ^ 1 << bit).collect());
}

/// A proved settling.
type Settle = fn(&Case, &[u8], Columns) -> u32;

fn in_one_pass(case: &Case, devices: &[u8], columns: Columns) -> u32 {
    redstone::settle(&case.profile, &case.table, devices, 128, columns).expect("the line settles").get()
}

fn by_rounds(case: &Case, devices: &[u8], Columns { signal, weak, strong }: Columns) -> u32 {
    probe_settle_by_rounds(&case.profile, &case.table, devices, 128, signal, weak, strong)
}

/// The settling, over a signal column that begins so many entries late or ends so many early.
fn signal_outside(settle: Settle, late: usize, early: usize) -> Vec<(isize, u16)> {
    let case = Case::line("line", 2);
    let rows = case.rows();
    let mut signal = Lent::untouched(rows - late - early);
    let [mut weak, mut strong] = [(); 2].map(|()| Lent::untouched(rows));
    let columns = Columns {
        signal: &mut signal.with_guards()[GUARDS - late..][..rows],
        weak: weak.entries(),
        strong: strong.entries(),
    };
    assert_eq!(settle(&case, &vec![0; rows], columns), 4);
    assert!([weak, strong].into_iter().all(|column| column.returned().outside.is_empty()));
    signal.returned().outside
}

#[test]
fn a_call_that_writes_a_byte_outside_is_noticed() {
    for settle in [in_one_pass, by_rounds] {
        assert_eq!(signal_outside(settle, 0, 0), []);
        assert_eq!(signal_outside(settle, 1, 0), [(-1, 15)]);
        assert_eq!(signal_outside(settle, 0, 1), [(4, 14)]);
    }
}

/// The same of the support list of three dust in the air.
fn listed_outside(late: usize, early: usize) -> Vec<(isize, u16)> {
    let dust = [0, 1, 2].map(|x| Row::new(Kind::RedstoneWire, [x, 0, 0]));
    let case = Case::new("dust in the air", BENCH_PROFILE, dust);
    let mut column = Lent::untouched(3 - late - early);
    let lent = &mut column.with_guards()[GUARDS - late..][..3];
    assert_eq!(probe_support_issues(&case.profile, &case.table, lent), 3);
    column.returned().outside
}

#[test]
fn a_call_that_writes_16_bits_outside_is_noticed() {
    assert_eq!(listed_outside(0, 0), []);
    assert_eq!(listed_outside(1, 0), [(-1, 0)]);
    assert_eq!(listed_outside(0, 2), [(1, 1), (2, 2)]);
}

/// The same of two tables in one that fill the output.
fn merged_outside(late: usize, early: usize) -> Vec<(isize, u16)> {
    let [first, second] =
        [0..512, 512..1_024].map(|places| redstone::table(places.map(|x| Row::new(Kind::Solid, [x, 0, 0]))));
    let mut out = Lent::untouched(OUT_BYTES - late - early);
    let lent = &mut out.with_guards()[GUARDS - late..][..OUT_BYTES];
    assert_eq!(redstone_merge(&first, &second, 0, 0, 0, lent), 1_024);
    out.returned().outside
}

#[test]
fn a_merge_that_writes_outside_is_noticed() {
    assert_eq!(merged_outside(0, 0), []);
    assert_eq!(merged_outside(1, 0), [(-1, 0)]);
    assert_eq!(merged_outside(0, 2), [(32_766, 0), (32_767, 0)]);
}

/// The same of both buffers of a clearing that keeps the second of two rows: of its table and of its passes.
fn cleared_outside(late: usize, early: usize) -> [Vec<(isize, u16)>; 2] {
    let rows = [Row::new(Kind::Lever, [0; 3]), Row::new(Kind::Solid, [1, 0, 0])];
    let case = Case::new("a lever in the air", BENCH_PROFILE, rows);
    let mut kept = Lent::untouched(64 - late - early);
    let mut passes = Lent::untouched(2 - late - early);
    let lent_kept = &mut kept.with_guards()[GUARDS - late..][..64];
    let lent_passes = &mut passes.with_guards()[GUARDS - late..][..2];
    assert_eq!(redstone_clear(&case.profile, &case.table, lent_kept, lent_passes), 1);
    [kept.returned().outside, passes.returned().outside]
}

#[test]
fn a_clearing_that_writes_outside_is_noticed() {
    assert_eq!(cleared_outside(0, 0), [vec![], vec![]]);
    assert_eq!(cleared_outside(1, 0), [vec![(-1, 1)], vec![(-1, 1)]]);
    assert_eq!(cleared_outside(0, 1), [vec![], vec![(1, 0)]]);
    assert_eq!(cleared_outside(2, 0), [vec![(-2, 1), (-1, 0)], vec![(-2, 1), (-1, 0)]]);
}

/// The same of the list of two dust, where it is built and where the second becomes a block.
fn fed_outside(late: usize, early: usize) -> [Vec<(isize, u16)>; 2] {
    let [dust, more_dust] = [0, 1].map(|x| Row::new(Kind::RedstoneWire, [x, 0, 0]));
    let Case { profile, mut table, .. } = Case::new("two dust", BENCH_PROFILE, [dust, more_dust]);
    let [mut built, mut replaced] = [(); 2].map(|()| Lent::untouched(24 - late - early));
    let [lent, lent_again] =
        [&mut built, &mut replaced].map(|list| &mut list.with_guards()[GUARDS - late..][..24]);
    assert_eq!(redstone_feeders(&profile, &table, lent), 2);
    let block = more_dust.with_kind(Kind::Solid).bytes();
    assert_eq!(redstone_replace(&profile, &mut table, 1, &block, lent_again), 2);
    [built, replaced].map(|list| list.returned().outside)
}

#[test]
fn a_list_of_feeders_that_is_written_outside_is_noticed() {
    assert_eq!(fed_outside(0, 0), [vec![], vec![]]);
    assert_eq!(fed_outside(1, 0), [vec![(-1, 1)], vec![(-1, 65_535)]]);
    assert_eq!(fed_outside(0, 2), [(); 2].map(|()| vec![(22, 65_535), (23, 65_535)]));
}
