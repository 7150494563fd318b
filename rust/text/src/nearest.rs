//! The word that another is a misspelling of.

/// Of these words the one with the fewest changes to a word, upper and lower case apart, and whether the word is a
/// misspelling of it: at most a third of its letters are changed, or it is its end, with three letters or more.
///
/// ```
/// assert_eq!(redstone_text::nearest("Chekc", ["run", "check"]), Some(("check", true)));
/// assert_eq!(redstone_text::nearest("Lamp", ["Lever", "RedstoneLamp"]), Some(("RedstoneLamp", true)));
/// assert_eq!(redstone_text::nearest("fly", ["run", "check"]), Some(("run", false)));
/// ```
pub fn nearest<'a>(word: &str, known: impl IntoIterator<Item = &'a str>) -> Option<(&'a str, bool)> {
    let word = word.to_lowercase();
    let letters = word.chars().count();
    let compare = |known: &'a str| {
        let lower = known.to_lowercase();
        let changes = changes(&word, &lower);
        let is_far = 3 * changes > letters + 1 && !(letters >= 3 && lower.ends_with(&word));
        ((is_far, changes), known)
    };
    let ((is_far, _), nearest) = known.into_iter().map(compare).min_by_key(|(distance, _)| *distance)?;
    Some((nearest, !is_far))
}

/// The fewest letters to be put in, left out, replaced, or changed over with the next, to make one word the other.
fn changes(one: &str, other: &str) -> usize {
    let (one, other): (Vec<_>, Vec<_>) = (one.chars().collect(), other.chars().collect());
    // The changes from each beginning of the one to each beginning of the other.
    let mut counts = vec![vec![0; other.len() + 1]; one.len() + 1];
    for i in 0..=one.len() {
        for j in 0..=other.len() {
            counts[i][j] = match (i, j) {
                (0, _) | (_, 0) => i + j,
                _ => {
                    let replaced = counts[i - 1][j - 1] + usize::from(one[i - 1] != other[j - 1]);
                    let mut fewest = replaced.min(counts[i - 1][j] + 1).min(counts[i][j - 1] + 1);
                    if i > 1 && j > 1 && one[i - 1] == other[j - 2] && one[i - 2] == other[j - 1] {
                        fewest = fewest.min(counts[i - 2][j - 2] + 1);
                    }
                    fewest
                }
            };
        }
    }
    counts[one.len()][other.len()]
}

#[cfg(test)]
mod tests {
    use super::*;

    #[test]
    fn changes_are_counted() {
        for (one, other, number) in [
            ("run", "run", 0),
            ("rnu", "run", 1),
            ("", "run", 3),
            ("chekc", "check", 1),
            ("lvels", "levels", 1),
            ("fly", "csv", 3),
        ] {
            assert_eq!((changes(one, other), changes(other, one)), (number, number), "{one} {other}");
        }
    }

    #[test]
    fn the_nearest_word_is_a_misspelling_or_not() {
        let known = ["run", "levels", "check"];
        assert_eq!(nearest("rnu", known), Some(("run", true)));
        assert_eq!(nearest("LEVELS", known), Some(("levels", true)));
        assert_eq!(nearest("fly", known), Some(("run", false)));
        assert_eq!(nearest("", known), Some(("run", false)));
        assert_eq!(nearest("run", []), None);
    }
}
