//! wire.rs on accepted and damaged tables.

#[cfg(no_original)]
#[test]
fn the_original_was_not_found() {
    differential::suite::say_original_not_found("wire");
}

#[cfg(not(no_original))]
mod compared {
    use differential::generate::{BENCH_PROFILE, Case};
    use differential::oracle::{Oracle, connection_number};
    use differential::probe::{probe_infer, probe_resolved};
    use differential::suite::{assert_agrees, assert_alterations_reported, good_cases, panics, with_damaged};
    use differential::wire::{ALTERATIONS, compare_case};
    use original::wire::infer_wire_connection;
    use original::world::{Facing, Pos, WireConnection};
    use redstone::{Kind, Row};

    #[test]
    fn wire_agrees_with_the_original() {
        assert_agrees("wire", with_damaged(good_cases(100_000)), compare_case);
    }

    /// The original panics along Up and Down, and knows no other facing.
    #[test]
    fn an_arm_along_no_horizontal_facing_is_none() {
        let dust = [-1, 0, 1].map(|y| Row::new(Kind::RedstoneWire, [0, y, 0]));
        let case = Case::new("three dust", BENCH_PROFILE, dust);
        let Case { profile, table, .. } = &case;
        for facing in [0, 5, 6, 7, 255, 257, u32::MAX] {
            let inferred = probe_infer(profile, table, 0, 0, 0, facing);
            let resolved = probe_resolved(profile, table, 0, 0, 0, facing);
            assert_eq!([inferred, resolved], [connection_number(WireConnection::None); 2], "{facing}");
        }
        let oracle = Oracle::new(&case);
        let world = oracle.world();
        assert!(panics(|| infer_wire_connection(world, Pos::new(0, 0, 0), Facing::Up)));
    }

    #[test]
    fn altered_answers_are_reported() {
        assert_alterations_reported(&ALTERATIONS, compare_case);
    }
}
