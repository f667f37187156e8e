//! Words that are likely to be meant: the nearest by edit distance, and words that
//! other languages use.

use crate::text::distance;

/// Words that are often written for others.
const ALIASES: [(&str, &str); 25] = [
    ("any", "many"),
    ("app", "apply"),
    ("broadcast", "fan-out"),
    ("call", "apply"),
    ("channel", "chan"),
    ("closure", "fun"),
    ("fn", "fun"),
    ("fork", "spawn"),
    ("fst", "first"),
    ("function", "fun"),
    ("go", "spawn"),
    ("inl", "left"),
    ("inr", "right"),
    ("lambda", "fun"),
    ("let", "bind"),
    ("many-to-many", "many"),
    ("many-to-one", "fan-in"),
    ("match", "case"),
    ("message", "comm"),
    ("one-to-many", "fan-out"),
    ("receive", "recv"),
    ("ret", "result"),
    ("return", "result"),
    ("switch", "case"),
    ("thread", "spawn"),
];

/// The known words that a word is likely to stand for, in their order; all of the
/// nearest, if they are near enough.
pub fn nearest<'a>(word: &str, known: &[&'a str]) -> Vec<&'a str> {
    let word = word.to_ascii_lowercase().replace('_', "-");
    if let Some((_, meant)) = ALIASES.iter().find(|(alias, _)| *alias == word) {
        let meant = known.iter().filter(|known| *known == meant);
        let meant: Vec<&str> = meant.copied().collect();
        if !meant.is_empty() {
            return meant;
        }
    }
    // Of a long word no distance is taken: it is near to nothing.
    if word.len() > 20 {
        return vec![];
    }
    let distances = known.iter().map(|known| (distance(&word, known), *known));
    let near = distances.filter(|(distance, known)| *distance <= allowed(known));
    let near: Vec<(usize, &str)> = near.collect();
    let least = near.iter().map(|(distance, _)| *distance).min();
    let nearest = near.iter().filter(|(distance, _)| Some(*distance) == least);
    nearest.map(|(_, known)| *known).collect()
}

/// How many slips are taken for slips: one of a short word, up to three of a long.
fn allowed(word: &str) -> usize {
    1 + word.len() / 4
}

#[cfg(test)]
mod tests {
    use super::*;

    #[test]
    fn only_near_words_are_meant() {
        let known = ["send", "recv", "sync", "second"];
        assert_eq!(nearest("receive", &known), ["recv"]);
        assert_eq!(nearest("SEND", &known), ["send"]);
        assert_eq!(nearest("snd", &known), ["send"]);
        assert!(nearest("tablet", &known).is_empty());
        assert!(nearest(&"s".repeat(30_000), &known).is_empty());
        // An alias of a word that may not stand there is none.
        assert!(nearest("return", &known).is_empty());
    }
}
