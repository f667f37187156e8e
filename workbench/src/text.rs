//! Places in the text of a file, and bytes as they can be shown.

use std::ops::Range;

/// The lines with their bytes 10; a last one may lack it.
pub fn lines(file: &[u8]) -> Vec<&[u8]> {
    file.split_inclusive(|&byte| byte == b'\n').collect()
}

/// Where the runs of digits are.
pub fn number_places(text: &[u8]) -> Vec<Range<usize>> {
    let mut places = vec![];
    let mut at = 0;
    while at < text.len() {
        let length = run(&text[at..], |byte| byte.is_ascii_digit());
        if length > 0 {
            places.push(at..at + length);
        }
        at += length.max(1);
    }
    places
}

/// How many bytes at the beginning are of a kind.
pub fn run(text: &[u8], of_kind: impl Fn(u8) -> bool) -> usize {
    text.iter().take_while(|&&byte| of_kind(byte)).count()
}

/// Bytes as text on one line, ASCII alone: those that do not print are spelled out,
/// as `\t` or `\xc3`, and a backslash is `\\`.
pub fn spelled(bytes: &[u8]) -> String {
    let mut text = String::new();
    for &byte in bytes {
        match byte {
            b'"' | b'\'' => text.push(byte.into()),
            _ => text.extend(byte.escape_ascii().map(char::from)),
        }
    }
    text
}

/// Where a place in a line stands once the line is spelled out. It is never empty:
/// a place at the end of the line is one letter behind it.
pub fn spelled_place(line: &[u8], place: &Range<usize>) -> Range<usize> {
    let before = |at: usize| spelled(&line[..at.min(line.len())]).len();
    let start = before(place.start);
    start..before(place.end).max(start + 1)
}

/// How many letters must be put in, left out, exchanged or swapped with their
/// neighbour to make one word of the other.
pub fn distance(one: &str, other: &str) -> usize {
    let [one, other] = [one, other].map(|word| word.chars().collect::<Vec<char>>());
    let mut table = vec![vec![0; other.len() + 1]; one.len() + 1];
    for i in 0..=one.len() {
        for j in 0..=other.len() {
            table[i][j] = match (i, j) {
                (0, _) | (_, 0) => i + j,
                _ => {
                    let exchanged = usize::from(one[i - 1] != other[j - 1]);
                    let mut least = (table[i - 1][j] + 1)
                        .min(table[i][j - 1] + 1)
                        .min(table[i - 1][j - 1] + exchanged);
                    if i > 1 && j > 1 && one[i - 1] == other[j - 2] && one[i - 2] == other[j - 1] {
                        least = least.min(table[i - 2][j - 2] + 1);
                    }
                    least
                }
            };
        }
    }
    table[one.len()][other.len()]
}

#[cfg(test)]
mod tests {
    use super::*;

    #[test]
    fn bytes_are_spelled_with_their_places() {
        let line = b"a\t\"b'\\\xc3\xa4z";
        assert_eq!(spelled(line), r#"a\t"b'\\\xc3\xa4z"#);
        for (at, found) in [(0, "a"), (1, r"\t"), (2, "\""), (5, r"\\"), (6, r"\xc3")] {
            assert_eq!(&spelled(line)[spelled_place(line, &(at..at + 1))], found);
        }
        assert_eq!(spelled_place(b"abc", &(3..4)), 3..4);
        assert_eq!(spelled_place(b"abc", &(1..1)), 1..2);
    }

    #[test]
    fn distances_count_slips() {
        for (one, other, slips) in [
            ("", "", 0),
            ("recv", "", 4),
            ("sync", "synk", 1),
            ("snyc", "sync", 1),
            ("oneshot", "one-shot", 1),
            ("claims", "claim", 1),
            ("left", "right", 4),
        ] {
            assert_eq!(distance(one, other), slips, "{one} {other}");
            assert_eq!(distance(other, one), slips, "{other} {one}");
        }
    }
}
