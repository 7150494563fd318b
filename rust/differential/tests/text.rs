//! Generated tables as text.

use std::collections::BTreeSet;

use differential::suite::good_cases;
use differential::table;
use redstone_text::Table;

#[test]
fn generated_tables_are_equal_after_they_are_written_and_read() {
    let mut fields = BTreeSet::new();
    for case in good_cases(20_000) {
        let table = Table { profile: case.profile.clone(), rows: table::rows(&case.table) };
        let text = table.to_string();
        let read: Table = text.parse().unwrap_or_else(|error| panic!("{error} of\n{text}"));
        assert_eq!(read, table, "{text}");
        assert_eq!(redstone::table(read.rows), case.table, "{text}");
        let words = text.lines().flat_map(|line| line.split(' ').skip(2));
        fields.extend(words.filter_map(|word| Some(word.split_once('=')?.0.to_owned())));
    }
    for field in ["facing", "support", "powered", "level", "delay", "arms", "shape", "mode"] {
        assert!(fields.contains(field), "no table has a {field}");
    }
}
