//! Lists, ranges and long texts in words.

/// A list in words: `a`, `a or b`, `a, b or c`.
pub fn one_of(items: &[String]) -> String {
    listed(items, "or")
}

/// A list in words: `a`, `a and b`, `a, b and c`.
pub fn all_of(items: &[String]) -> String {
    listed(items, "and")
}

fn listed(items: &[String], last_after: &str) -> String {
    match items {
        [] => String::new(),
        [item] => item.clone(),
        [items @ .., last] => format!("{} {last_after} {last}", items.join(", ")),
    }
}

/// Rising numbers, three and more in a row as a range: `1`, `2`, `4 to 9`.
pub fn ranges(numbers: impl IntoIterator<Item = usize>) -> Vec<String> {
    let mut runs: Vec<(usize, usize)> = vec![];
    for number in numbers {
        match runs.last_mut() {
            Some((_, last)) if *last + 1 == number => *last = number,
            _ => runs.push((number, number)),
        }
    }
    let text = |(first, last): (usize, usize)| match last - first {
        0 => vec![first.to_string()],
        1 => vec![first.to_string(), last.to_string()],
        _ => vec![format!("{first} to {last}")],
    };
    runs.into_iter().flat_map(text).collect()
}

/// Rising row numbers in words: `row 3`, `rows 3 and 5`, `rows 2 to 159`.
pub fn all_rows(rows: &[usize]) -> String {
    match rows {
        [] => "no row".to_string(),
        [row] => format!("row {row}"),
        _ => format!("rows {}", all_of(&ranges(rows.iter().copied()))),
    }
}

/// A text of at most so many characters: of a longer one the beginning and the end.
pub fn elided(text: &str, most: usize) -> String {
    let count = text.chars().count();
    if count <= most {
        return text.to_string();
    }
    let end = most / 3;
    let begin = most.saturating_sub(end + 4);
    let head: String = text.chars().take(begin).collect();
    let tail: String = text.chars().skip(count - end).collect();
    format!("{} .. {}", head.trim_end(), tail.trim_start())
}

#[cfg(test)]
mod tests {
    use super::*;

    #[test]
    fn three_and_more_in_a_row_are_a_range() {
        assert_eq!(all_rows(&[]), "no row");
        assert_eq!(all_rows(&[7]), "row 7");
        assert_eq!(all_rows(&[4, 5]), "rows 4 and 5");
        assert_eq!(all_rows(&[4, 5, 6]), "rows 4 to 6");
        assert_eq!(all_rows(&[0, 2, 3, 4, 8, 9]), "rows 0, 2 to 4, 8 and 9");
        let most: Vec<usize> = (2..160).collect();
        assert_eq!(all_rows(&most), "rows 2 to 159");
    }

    #[test]
    fn a_long_text_keeps_its_beginning_and_end() {
        assert_eq!(elided("fan-in", 6), "fan-in");
        let long = elided(&format!("[flow 4 [u{}]]", " 7".repeat(500)), 40);
        assert!(long.chars().count() <= 40, "{long}");
        assert!(long.starts_with("[flow 4 [u 7"), "{long}");
        assert!(long.contains(" .. ") && long.ends_with("7 7]]"), "{long}");
    }
}
