//! connectivity.rs on accepted tables.

#[cfg(no_original)]
#[test]
fn the_original_was_not_found() {
    differential::suite::say_original_not_found("connectivity");
}

#[cfg(not(no_original))]
mod compared {
    use differential::connectivity::{ALTERATIONS, compare_case};
    use differential::suite::{assert_agrees, assert_alterations_reported, good_cases, with_damaged};

    #[test]
    fn connectivity_agrees_with_the_original() {
        assert_agrees("connectivity", with_damaged(good_cases(100_000)), compare_case);
    }

    #[test]
    fn altered_answers_are_reported() {
        assert_alterations_reported(&ALTERATIONS, compare_case);
    }
}
