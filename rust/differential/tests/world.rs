//! blocks and world.rs on accepted and damaged tables.

#[cfg(no_original)]
#[test]
fn the_original_was_not_found() {
    differential::suite::say_original_not_found("world");
}

#[cfg(not(no_original))]
mod compared {
    use differential::generate::{BENCH_PROFILE_WITH_BULB, Case};
    use differential::probe::probe_offset;
    use differential::suite::{assert_agrees, assert_alterations_reported, good_cases, panics, with_damaged};
    use differential::world::{ALTERATIONS, compare_case};
    use original::world::Pos;
    use redstone::{Kind, Row, Shape};

    #[test]
    fn world_agrees_with_the_original() {
        assert_agrees("world", with_damaged(good_cases(100_000)), compare_case);
    }

    #[test]
    fn traits_of_every_kind_shape_and_profile_byte() {
        let shapes =
            |kind: &'static Kind| Shape::ALL.iter().map(|shape| Row::new(*kind, [0; 3]).with_shape(*shape));
        let rows = Kind::ALL.iter().flat_map(shapes);
        let cases = rows.flat_map(|row| (0..=most(row.kind())).flat_map(move |bits| one_row(row, bits)));
        assert_agrees("single blocks", cases, compare_case);
    }

    /// The largest byte that a profile may have for a kind.
    fn most(kind: Kind) -> u8 {
        if kind == Kind::RedstoneTorch { 63 } else { 31 }
    }

    /// With a byte for the bulb, and without where the row is no bulb.
    fn one_row(row: Row, bits: u8) -> Vec<Case> {
        let mut profile = BENCH_PROFILE_WITH_BULB;
        profile[usize::from(row.kind().code())] = bits;
        let lengths = if row.kind() == Kind::CopperBulb { &[14][..] } else { &[13, 14] };
        lengths.iter().map(|length| Case::new("one block", &profile[..*length], [row])).collect()
    }

    /// The original's sum overflows: it panics, or wraps where overflow is not checked.
    #[test]
    fn an_offset_past_32_bits_stops_at_the_end() {
        for (from, by) in [(i32::MAX, 1), (i32::MAX, i32::MAX), (i32::MIN, -1), (i32::MIN, i32::MIN)] {
            let stopped = [0, 1, 2].map(|axis| probe_offset(from, from, from, by, by, by, axis));
            assert_eq!(stopped, [from; 3], "moved by {by}");
        }
        let overflows = || Pos::new(i32::MAX, 0, 0).offset(1, 0, 0).x;
        assert!(panics(overflows) || overflows() == i32::MIN);
    }

    #[test]
    fn altered_answers_are_reported() {
        assert_alterations_reported(&ALTERATIONS, compare_case);
    }
}
