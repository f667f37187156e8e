//! The known word that is nearest to one that is not known.

use crate::text::distance;

/// The nearest of some words, if one is near enough to be meant. Dashes in front
/// do not count.
pub fn nearest<'a>(word: &str, known: impl Iterator<Item = &'a str>) -> Option<&'a str> {
    let meant = word.trim_start_matches('-');
    let apart = known.filter_map(|known| {
        let other = known.trim_start_matches('-');
        let most = meant.len().max(other.len()).div_ceil(3);
        let distance = distance(meant, other);
        (distance <= most && distance < other.len()).then_some((distance, known))
    });
    apart
        .min_by_key(|(distance, _)| *distance)
        .map(|(_, known)| known)
}

#[cfg(test)]
mod tests {
    use super::*;

    #[test]
    fn slips_of_the_finger_are_understood() {
        let known = ["check", "infer", "preview", "replace", "watch", "--color"];
        let found = |word: &str| nearest(word, known.into_iter());
        for (word, meant) in [
            ("chekc", "check"),
            ("chk", "check"),
            ("wacth", "watch"),
            ("prview", "preview"),
            ("--colour", "--color"),
            ("-color", "--color"),
        ] {
            assert_eq!(found(word), Some(meant), "{word}");
        }
        for word in ["", "x", "--", "frobnicate", "a.txt"] {
            assert_eq!(found(word), None, "{word}");
        }
    }
}
