//! The program `settle` on accepted and damaged inputs.

#[cfg(no_original)]
#[test]
fn the_original_was_not_found() {
    differential::suite::say_original_not_found("program");
}

#[cfg(not(no_original))]
mod compared {
    use differential::generate::{BENCH_PROFILE_WITH_BULB, BULB, Case, TORCH};
    use differential::program::{find, run};
    use differential::settle::expected;
    use differential::suite::{good_cases, print, with_damaged};
    use redstone::{Kind, Row};

    /// Asserts that the program writes for each input what documents 01 and 02 say, and gives that back.
    fn assert_agrees(inputs: impl Iterator<Item = Vec<u8>>) -> Vec<String> {
        let program = find("settle").unwrap_or_else(|sentence| panic!("{sentence}"));
        let agreed = |input: Vec<u8>| {
            let written = run(&program, &input).unwrap_or_else(|error| panic!("{error}, on {input:02x?}"));
            assert_eq!(written.output, expected(&input), "on the input {input:02x?}");
            written.output
        };
        inputs.map(agreed).collect()
    }

    fn input(case: Case) -> Vec<u8> {
        [case.profile, case.table].concat()
    }

    #[test]
    fn the_program_agrees_with_the_original() {
        let cases: Vec<_> = with_damaged(good_cases(2_000)).collect();
        let count = |has: fn(&Case) -> bool| cases.iter().filter(|case| has(case)).count();
        let charging = count(Case::torch_charges_above);
        let [fourteen, with_bulbs] = [count(Case::has_byte_of_the_bulb), count(Case::has_bulbs)];
        let outputs = assert_agrees(cases.into_iter().map(input));
        let refused = outputs.iter().filter(|output| output.starts_with("refusal=")).count();
        let counts = format!(
            "{} inputs, {charging} with value 32, {fourteen} with 14 bytes of profile, {with_bulbs} with bulbs, {refused} refused",
            outputs.len()
        );
        print(&format!("program: {counts}"));
    }

    /// Good profiles, and bad ones.
    const PROFILES: [[u8; 14]; 6] = [
        BENCH_PROFILE_WITH_BULB,
        [0, 31, 31, 31, 63, 31, 31, 31, 31, 31, 31, 31, 31, 31],
        [1, 31, 1, 0, 0, 0, 0, 0, 0, 0, 31, 1, 0, 7],
        [0, 31, 1, 0, 64, 0, 0, 0, 0, 0, 31, 1, 0, 7],
        [0, 31, 1, 0, 0, 0, 0, 0, 0, 0, 31, 1, 32, 7],
        [0, 31, 1, 0, 0, 0, 0, 0, 0, 0, 31, 1, 0, 32],
    ];

    fn is_good(profile: &[u8]) -> bool {
        PROFILES[..2].iter().any(|good| good.starts_with(profile))
    }

    /// The first line of what is to be written for an input that begins with such a profile and goes on with good rows.
    fn first_line(profile: &[u8], length: usize) -> String {
        match (length, length % 32) {
            (..13, _) => "refusal=1".to_owned(),
            (32_783.., _) => "refusal=3".to_owned(),
            (_, 13 | 14) if is_good(profile) => format!("blocks={}", length / 32),
            (_, 13 | 14) => "refusal=1".to_owned(),
            _ => "refusal=2".to_owned(),
        }
    }

    /// By each profile, of which an input has 13 bytes or 14 as its length says, and where that says neither each.
    #[test]
    fn inputs_of_every_length_about_the_ends() {
        let rows = redstone::table((0..2_050).map(|x| Row::new(Kind::Solid, [x, 0, 0])));
        let mut inputs = 0;
        for length in (0..=100).chain(32_736..=32_832).chain([33_000, 65_536, 65_549, 65_550]) {
            let profile_bytes = match length % 32 {
                bytes @ (13 | 14) => vec![bytes],
                _ => vec![13, 14],
            };
            for bytes in profile_bytes {
                for profile in PROFILES {
                    let input = [&profile[..bytes], &rows].concat()[..length].to_vec();
                    let written = assert_agrees([input].into_iter()).concat();
                    let expected = first_line(&profile[..bytes], length);
                    assert_eq!(written.lines().next(), Some(&expected[..]), "{length} bytes by {profile:?}");
                    inputs += 1;
                }
            }
        }
        assert_agrees([1_000_000, 1_000_013, 1_000_014].into_iter().map(|length| vec![0; length]));
        print(&format!("program: {inputs} inputs of lengths about the ends"));
    }

    /// Solid blocks, and among them one bulb.
    #[test]
    fn a_bulb_in_any_row_by_13_bytes_and_by_14() {
        for rows in [1, 2, 3, 1_023, 1_024] {
            for bulb in [0, rows / 2, rows - 1] {
                let kind = |x| if x == bulb { Kind::CopperBulb } else { Kind::Solid };
                let table = redstone::table((0..rows).map(|x| Row::new(kind(x), [x, 0, 0])));
                for (bytes, first) in
                    [(13, format!("refusal=4\nplace={bulb}\n")), (14, format!("blocks={rows}\n"))]
                {
                    let input = [&BENCH_PROFILE_WITH_BULB[..bytes], &table].concat();
                    let written = assert_agrees([input].into_iter()).concat();
                    assert!(
                        written.starts_with(&first),
                        "{bytes} bytes of profile: {first}is not\n{written}"
                    );
                }
            }
        }
    }

    /// A bulb under a lever has its power, by a profile that says so.
    #[test]
    fn the_power_of_a_bulb() {
        let lever = Row::new(Kind::Lever, [0, 1, 0]).with_powered(true).with_support([0, -1, 0]);
        let table = redstone::table([Row::new(Kind::CopperBulb, [0; 3]), lever]);
        for byte in 0..=31 {
            let mut profile = BENCH_PROFILE_WITH_BULB;
            profile[BULB] = byte;
            let written = assert_agrees([[&profile[..], &table].concat()].into_iter()).concat();
            let strong = if byte & 4 != 0 { 15 } else { 0 };
            assert!(written.contains(&format!("\nrow=0,0,0,0,0,{strong}\n")), "{byte}: {written}");
        }
    }

    /// A torch, a block over it and dust on that, by profiles of 13 bytes and of 14 with these bytes for each kind.
    #[test]
    fn profile_bytes_about_the_ends() {
        let kinds = [Kind::RedstoneTorch, Kind::Solid, Kind::RedstoneWire];
        let table = redstone::table((0..).zip(kinds).map(|(y, kind)| Row::new(kind, [0, y, 0])));
        for (bytes, kind) in [13, 14].into_iter().flat_map(|bytes| (0..bytes).map(move |kind| (bytes, kind)))
        {
            let most = match kind {
                0 => 0,
                TORCH => 63,
                _ => 31,
            };
            for byte in [0, 31, 32, 33, 63, 64, 96, 255] {
                let mut profile = BENCH_PROFILE_WITH_BULB;
                profile[kind] = byte;
                let written = assert_agrees([[&profile[..bytes], &table].concat()].into_iter()).concat();
                let is_refused = written == "refusal=1\nplace=0\n";
                assert_eq!(is_refused, byte > most, "{byte} for kind {kind}");
                let is_charged = written.contains("\nrow=0,1,0,0,15,15\n");
                assert_eq!(is_charged, kind == TORCH && !is_refused && byte > 31, "{byte} for kind {kind}");
            }
        }
    }

    /// Test 3 of the book.
    #[test]
    fn the_line_of_the_book() {
        let outputs = assert_agrees([input(Case::line("test 3", 2))].into_iter());
        let lines = "blocks=5\nrounds=4\nrow=0,1,0,15,0,0\nrow=1,0,0,0,15,0\nrow=1,1,0,15,0,0\n\
                     row=2,0,0,0,14,0\nrow=2,1,0,14,0,0\n";
        assert_eq!(outputs, [lines]);
    }
}
