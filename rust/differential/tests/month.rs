//! The program `month` on streams of tables.

#[cfg(no_original)]
#[test]
fn the_original_was_not_found() {
    differential::suite::say_original_not_found("month");
}

#[cfg(not(no_original))]
mod compared {
    use std::env::temp_dir;
    use std::ffi::OsString;
    use std::fs::{File, create_dir_all, remove_dir_all, write};
    use std::io::Write;
    use std::os::fd::OwnedFd;
    use std::os::unix::net::UnixStream;
    use std::path::Path;
    use std::process::{Command, Stdio};

    use differential::generate::{BENCH_PROFILE, BENCH_PROFILE_WITH_BULB, Case, TORCH};
    use differential::month::{Ended, Figures, MOST_TABLES, Month, expected, stream};
    use differential::program::{find, run, run_bytewise};
    use differential::suite::{at_least_good_cases, good_cases, print, with_damaged};
    use redstone::{Kind, MOST_ROWS, PROFILE_BYTES, ROW_BYTES, Row};

    fn program() -> OsString {
        find("month").unwrap_or_else(|sentence| panic!("{sentence}"))
    }

    fn written(stream: &[u8]) -> String {
        run(&program(), stream).expect("the program runs").output
    }

    fn assert_same(written: &str, expected: &str, stream: &[u8]) {
        let length = stream.len();
        assert!(
            written == expected,
            "for a stream of {length} bytes it wrote\n{written}and is to write\n{expected}"
        );
    }

    /// Asserts that the program writes for a stream what document 02 says, and gives that back.
    fn assert_agrees(stream: &[u8]) -> String {
        let written = written(stream);
        assert_same(&written, &expected(stream), stream);
        written
    }

    /// The same, and that it speaks of so many tables settled and refused, and of such an end.
    fn assert_ends(stream: &[u8], settled: usize, refused: usize, ended: &str) {
        let written = assert_agrees(stream);
        let first = format!("tables={settled}\nrefused={refused}\n");
        let last = format!("\nended={ended}\n");
        let length = stream.len();
        assert!(
            written.starts_with(&first) && written.ends_with(&last),
            "{length} bytes: {first}..{last}is not\n{written}"
        );
    }

    /// The tables of these cases and of damaged copies, as far as a row count can lead them.
    fn tables(cases: &[Case]) -> Vec<Vec<u8>> {
        let tables = with_damaged(cases.iter().cloned()).map(|case| case.table);
        let has_count =
            |table: &Vec<u8>| table.len().is_multiple_of(ROW_BYTES) && table.len() <= MOST_ROWS * ROW_BYTES;
        tables.filter(has_count).collect()
    }

    /// A stream takes the tables of so many cases.
    const CASES_OF_A_STREAM: usize = 50;

    /// The first 13 bytes of the first's: the month count has no more.
    fn profile(cases: &[Case]) -> &[u8] {
        &cases[0].profile[..PROFILE_BYTES]
    }

    /// Every number of rounds, every level and a refused table are among them.
    #[test]
    fn the_figures_are_the_sums_by_the_original() {
        let cases: Vec<_> = at_least_good_cases(9_000).collect();
        let (mut streams, mut charging, mut sum) = (0, 0, Figures::default());
        for cases in cases.chunks(CASES_OF_A_STREAM) {
            let stream = stream(profile(cases), tables(cases));
            let month = Month::of(&stream).expect("a good profile");
            assert_same(&written(&stream), &month.to_string(), &stream);
            assert_eq!(month.ended, Ended::Whole);
            sum.add(&month.figures, 1);
            streams += 1;
            charging += usize::from(cases[0].torch_charges_above());
        }
        let Figures { tables, refused, rounds, levels } = sum;
        print(&format!(
            "month: {streams} streams, {charging} with value 32, {tables} tables settled, {refused} refused\n  \
             rounds {rounds:?}\n  levels {levels:?}"
        ));
        assert!(refused > 0, "no table was refused");
        assert!((1..streams).contains(&charging), "value 32 in {charging} of {streams} streams");
        assert!(!rounds.contains(&0), "a number of rounds is missing: {rounds:?}");
        assert!(!levels.contains(&0), "a level is missing: {levels:?}");
    }

    /// A redstone block and dust beside it, in so many rows.
    fn source_and_dust(rows: u32) -> Vec<u8> {
        let kind = |x| if x == 0 { Kind::RedstoneBlock } else { Kind::RedstoneWire };
        redstone::table((0..rows).map(|x| Row::new(kind(x), [x as i32, 0, 0])))
    }

    /// A row of dust whose two last bytes are not 0.
    fn bad_row() -> Vec<u8> {
        let mut table = redstone::table([Row::new(Kind::RedstoneWire, [0; 3])]);
        table[30..].fill(1);
        table
    }

    /// Two rows of dust at one position.
    fn misplaced() -> Vec<u8> {
        redstone::table([Row::new(Kind::RedstoneWire, [0; 3])]).repeat(2)
    }

    /// Settled and refused tables, with and without rows.
    fn short_tables() -> Vec<Vec<u8>> {
        vec![Case::line("", 2).table, bad_row(), Vec::new(), misplaced(), source_and_dust(3)]
    }

    /// Its profile has no byte for the bulb.
    #[test]
    fn a_table_with_a_bulb_is_refused() {
        let bulb = redstone::table([Row::new(Kind::CopperBulb, [0; 3])]);
        for tables in [vec![&bulb], vec![&bulb; 3]] {
            assert_ends(&stream(&BENCH_PROFILE, &tables), 0, tables.len(), "whole");
        }
        assert_ends(&stream(&BENCH_PROFILE, [source_and_dust(2), bulb, source_and_dust(3)]), 2, 1, "whole");
        // The byte after the thirteenth is the low one of a row count.
        assert_ends(&stream(&BENCH_PROFILE_WITH_BULB, [[0; 0]]), 0, 0, "cut");
        assert_ends(&[&BENCH_PROFILE[..], &[0; 4]].concat(), 1, 0, "whole");
    }

    #[test]
    fn a_stream_that_ends_at_each_byte() {
        let tables = short_tables();
        let whole = stream(&BENCH_PROFILE, &tables);
        let ends: Vec<_> =
            (0..=tables.len()).map(|read| stream(&BENCH_PROFILE, &tables[..read]).len()).collect();
        for length in 0..=whole.len() {
            let written = assert_agrees(&whole[..length]);
            let last = match length {
                0..PROFILE_BYTES => "place=0",
                _ if ends.contains(&length) => "ended=whole",
                _ => "ended=cut",
            };
            assert_eq!(written.lines().last(), Some(last), "{length} bytes");
        }
        assert_ends(&whole, 3, 2, "whole");
    }

    #[test]
    fn a_stream_that_comes_a_byte_at_a_time() {
        let stream = stream(&BENCH_PROFILE, short_tables());
        let written = run_bytewise(&program(), &stream).expect("the program runs").output;
        assert_same(&written, &expected(&stream), &stream);
    }

    /// Each row count stands first, and after a table.
    #[test]
    fn row_counts_about_the_most_and_about_the_ends_of_words() {
        for before in [vec![], vec![source_and_dust(2)]] {
            let start = stream(&BENCH_PROFILE, &before);
            let led = |rows: u32, after: &[u8]| [&start, &rows.to_le_bytes()[..], after].concat();
            let settled = before.len();
            assert_ends(&led(0, &[]), settled + 1, 0, "whole");
            assert_ends(&led(0, &[0; 3]), settled + 1, 0, "cut");
            for rows in [1, 1_023, 1_024] {
                let table = source_and_dust(rows);
                assert_ends(&led(rows, &[]), settled, 0, "cut");
                assert_ends(&led(rows, &table[..3]), settled, 0, "cut");
                assert_ends(&led(rows, &table[..table.len() - 1]), settled, 0, "cut");
                assert_ends(&led(rows, &table), settled + 1, 0, "whole");
                let twice = [&led(rows, &table)[..], &stream(&[], [&table])].concat();
                assert_ends(&twice, settled + 2, 0, "whole");
            }
            for rows in [1_025, 65_536, 1 << 31, u32::MAX] {
                let table = source_and_dust(rows.min(65_536));
                for after in [&[][..], &[0; 3], &stream(&[], [source_and_dust(2)]), &table] {
                    assert_ends(&led(rows, after), settled, 0, "count");
                }
            }
        }
    }

    /// A stream of so many tables, without rows but for those of these numbers, which are refused.
    fn many(tables: usize, refused: &[usize]) -> Vec<u8> {
        let bad = bad_row();
        let table = |number| if refused.contains(&number) { &bad[..] } else { &[] };
        stream(&BENCH_PROFILE, (0..tables).map(table))
    }

    /// Each prefix of 1,000,002 tables that has 999,999, 1,000,000 or 1,000,001 of them and none, one, three or four
    /// bytes more.
    #[test]
    fn a_million_tables_and_a_few_bytes() {
        let long = many(MOST_TABLES + 2, &[]);
        for tables in [MOST_TABLES - 1, MOST_TABLES, MOST_TABLES + 1] {
            // Four bytes are one table more.
            for more in [0, 1, 3] {
                let (settled, ended) = match (tables, more) {
                    (..MOST_TABLES, 0) | (MOST_TABLES, 0) => (tables, "whole"),
                    (..MOST_TABLES, _) => (tables, "cut"),
                    _ => (MOST_TABLES, "count"),
                };
                assert_ends(&long[..PROFILE_BYTES + 4 * tables + more], settled, 0, ended);
            }
        }
        assert_ends(&long, MOST_TABLES, 0, "count");
    }

    /// Whatever follows the last of a million tables, and wherever among them refused ones stand.
    #[test]
    fn a_million_tables_with_refused_ones() {
        let last = MOST_TABLES - 1;
        for refused in [0, MOST_TABLES / 2, last] {
            let stream = [many(MOST_TABLES, &[refused]), vec![255]].concat();
            assert_ends(&stream, last, 1, "count");
        }
        let stream = many(MOST_TABLES, &[0, MOST_TABLES / 2, last]);
        assert_ends(&stream, MOST_TABLES - 3, 3, "whole");
        assert_ends(&[&stream[..], &1_025u32.to_le_bytes()].concat(), MOST_TABLES - 3, 3, "count");
        assert_ends(&stream[..stream.len() - 1], last - 2, 2, "cut");
    }

    #[test]
    fn bad_profiles() {
        let refused = "refusal=1\nplace=0\n";
        let tables = short_tables();
        for length in 0..PROFILE_BYTES {
            assert_eq!(assert_agrees(&BENCH_PROFILE[..length]), refused, "{length} bytes");
        }
        for kind in 0..PROFILE_BYTES {
            let is_torch = kind == TORCH;
            for (byte, is_good) in [
                (1, kind > 0),
                (31, kind > 0),
                (32, is_torch),
                (33, is_torch),
                (63, is_torch),
                (64, false),
                (255, false),
            ] {
                let mut profile = BENCH_PROFILE;
                profile[kind] = byte;
                let written = assert_agrees(&stream(&profile, &tables));
                assert_eq!(written != refused, is_good, "{byte} for kind {kind}");
            }
        }
    }

    /// The figures of a text by their names, and how it says that reading ended.
    fn read(text: &str) -> (Vec<(&str, u64)>, &str) {
        let (figures, ended) = text.trim_end().rsplit_once('\n').expect("lines");
        (figures.lines().map(figure).collect(), ended)
    }

    fn figure(line: &str) -> (&str, u64) {
        let (name, number) = line.split_once('=').expect("NAME=NUMBER");
        (name, number.parse().expect("a number"))
    }

    /// Where a first stream ends whole, the figures of it and another one after the other are the sums.
    #[test]
    fn the_figures_of_streams_add_up() {
        let cases: Vec<_> = good_cases(400).collect();
        for cases in cases.chunks(2 * CASES_OF_A_STREAM) {
            let profile = profile(cases);
            let (one, other) = cases.split_at(cases.len() / 2);
            let (one, other) = (stream(profile, tables(one)), stream(profile, tables(other)));
            let longer = [&other[..], &[255; 4]].concat();
            for (other, ended) in [
                (&other[..], "ended=whole"),
                (&other[..other.len() - 1], "ended=cut"),
                (&longer, "ended=count"),
            ] {
                let both = [&one, &other[PROFILE_BYTES..]].concat();
                let [one, other, both] = [&one, other, &both].map(written);
                let [(mut sums, first), (more, second), (figures, last)] =
                    [&one, &other, &both].map(|text| read(text));
                assert_eq!([first, second, last], ["ended=whole", ended, ended]);
                for (sum, more) in sums.iter_mut().zip(more) {
                    assert_eq!(sum.0, more.0);
                    sum.1 += more.1;
                }
                assert_eq!(figures, sums);
            }
        }
    }

    /// What bin/add-months makes of streams with these bytes and counts, each in a file of its own: the sums, or the
    /// sentence that refuses them.
    fn added_up(streams: &[(&[u8], &str)]) -> Result<String, String> {
        let folder = temp_dir().join(format!("add-months-{}", std::process::id()));
        create_dir_all(&folder).expect("a folder");
        let files: Vec<_> =
            (0..streams.len()).map(|number| folder.join(format!("a month={number}"))).collect();
        for (file, (stream, count)) in files.iter().zip(streams) {
            write(file, stream).expect("a file");
            write(file.with_added_extension("count"), count).expect("a file");
        }
        let script = Path::new(env!("CARGO_MANIFEST_DIR")).join("../../bin/add-months");
        let done = Command::new(script).args(&files).output().expect("the script runs");
        remove_dir_all(folder).expect("the folder goes");
        let text = |bytes| String::from_utf8(bytes).expect("UTF-8");
        if done.status.success() { Ok(text(done.stdout)) } else { Err(text(done.stderr)) }
    }

    /// The script of the README: streams that are counted apart, and their sums.
    #[test]
    fn months_are_added_up_by_the_script() {
        let cases: Vec<_> = good_cases(150).collect();
        let profile = profile(&cases);
        let parts: Vec<_> = cases.chunks(CASES_OF_A_STREAM).map(tables).collect();
        let streams: Vec<_> = parts.iter().map(|tables| stream(profile, tables)).collect();
        let counts: Vec<_> = streams.iter().map(|stream| written(stream)).collect();
        let counted: Vec<_> =
            streams.iter().map(Vec::as_slice).zip(counts.iter().map(String::as_str)).collect();
        assert_eq!(added_up(&counted).as_deref(), Ok(&written(&stream(profile, parts.concat()))[..]));
        let (whole, count) = counted[0];
        let cut = written(&whole[..whole.len() - 1]);
        let few_lines = count.split_inclusive('\n').take(20).collect::<String>();
        let misnamed = count.replace("rounds_1=", "rounds_0=");
        let mut other = whole.to_vec();
        other[12] ^= 1;
        for (stream, count, sentence) in [
            (whole, &cut[..], "it ended as cut"),
            (whole, "refusal=1\nplace=0\n", "its profile was refused"),
            (whole, &few_lines, "it has 20 lines"),
            (whole, &misnamed, "line 3 is not rounds_1="),
            (whole, "tables=many\n", "line 1 is not a number"),
            (&other, count, "its profile is not that of"),
        ] {
            for streams in [[counted[0], (stream, count)], [(stream, count), counted[0]]] {
                let refused = added_up(&streams).expect_err("a count that cannot be added");
                assert!(refused.contains(sentence) && refused.lines().count() == 1, "{refused:?}");
            }
        }
        assert!(added_up(&[]).expect_err("no streams").contains("name the streams"));
    }

    #[test]
    fn progress_is_told_on_standard_error() {
        for (tables, told) in [(9_999, ""), (25_000, "month: 10000 tables read\nmonth: 20000 tables read\n")]
        {
            let stream = many(tables, &[]);
            let written = run(&program(), &stream).expect("the program runs");
            assert_same(&written.output, &expected(&stream), &stream);
            assert_eq!(written.errors, told, "{tables} tables");
        }
    }

    /// A folder can be opened, but not read.
    #[test]
    fn a_standard_input_that_cannot_be_read() {
        assert_unreadable(File::open(env!("CARGO_MANIFEST_DIR")).expect("a folder"));
    }

    /// A socket whose other end was closed with something unread fails once it has given what was sent, be that a whole
    /// stream, a part of one, or a part of a profile.
    #[test]
    fn a_standard_input_that_fails_on_the_way() {
        let whole = stream(&BENCH_PROFILE, short_tables());
        for length in [0, 5, PROFILE_BYTES, PROFILE_BYTES + 2, whole.len() - 1, whole.len()] {
            let (mut sender, mut receiver) = UnixStream::pair().expect("two sockets");
            receiver.write_all(&[0]).expect("a byte that is not read");
            sender.write_all(&whole[..length]).expect("the bytes before the failure");
            drop(sender);
            assert_unreadable(OwnedFd::from(receiver));
        }
    }

    /// Asserts that the program says of such an input that it cannot be read, and writes no figure.
    fn assert_unreadable(input: impl Into<Stdio>) {
        let done = Command::new(program()).stdin(input).output().expect("the program runs");
        assert_eq!(str::from_utf8(&done.stdout), Ok(""));
        let told = str::from_utf8(&done.stderr).expect("UTF-8");
        assert!(told.contains("standard input cannot be read") && told.lines().count() == 1, "{told:?}");
    }
}
