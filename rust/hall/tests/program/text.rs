//! From text to bytes and back.

use crate::generated::cases;
use crate::support::{folder, hall, hall_with, samples};

#[test]
fn every_sample_is_equal_after_it_is_packed_and_unpacked() {
    let folder = folder("round_trip");
    let path = |name: &str| folder.join(name).to_str().expect("UTF-8").to_owned();
    for sample in samples() {
        let (packed, text, again) = (path("a.bin"), path("a.hall"), path("b.bin"));
        let words = hall(&["pack", &sample, "-o", &packed]);
        assert!(words.err.ends_with(" left out: the packed form has no place for them.\n"), "{}", words.err);
        assert_eq!(hall(&["unpack", &packed, "-o", &text]).err, "");
        assert_eq!(hall(&["pack", &text, "-o", &again]).err, "");
        assert_eq!(std::fs::read(&packed).expect("a file"), std::fs::read(&again).expect("a file"));
        // The rows of the text are those of the sample, and of its other lines it is said that they are not there.
        let rows = hall(&["unpack", &sample]);
        assert_eq!(rows.out, std::fs::read(&text).expect("a file"));
        assert!(rows.err.ends_with(" left out: the rows alone are written.\n"), "{}", rows.err);
        assert_eq!(hall(&["csv", &packed, "--ticks=0"]).out, hall(&["csv", &text, "--ticks=0"]).out);
    }
}

#[test]
fn every_generated_table_is_equal_after_it_is_unpacked_and_packed() {
    for case in cases(120) {
        let bytes = [&case.profile[..], &case.table].concat();
        let text = hall_with(&["unpack", "-"], &bytes);
        assert_eq!(text.status, Some(0), "{}\n{case}", text.err);
        assert_eq!(hall_with(&["pack", "-"], &text.out).out, bytes, "{case}");
        assert_eq!(hall_with(&["unpack", "-"], &text.out).out, text.out, "{case}");
    }
}
