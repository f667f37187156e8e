//! Files that are written in another way than ASCII lines ended by byte 10: byte
//! order marks, UTF-16, line ends of other systems, bytes that are not ASCII.

use crate::explain::Explanation;

const SAVE: &str = "Save the file as plain ASCII text with LF line ends.";

/// What the first bytes of a file tell of its encoding, if it is not ASCII.
pub fn other_encoding(file: &[u8]) -> Option<Explanation> {
    let utf_16 =
        |order: &str| format!("The file is UTF-16 ({order}); a file has ASCII bytes only.");
    let (length, why) = match file {
        [0xef, 0xbb, 0xbf, ..] => (
            3,
            "The file begins with a byte order mark (bytes EF BB BF); it must begin with `[`."
                .to_string(),
        ),
        [0xff, 0xfe, ..] | [b'[', 0, ..] => (2, utf_16("little-endian")),
        [0xfe, 0xff, ..] | [0, b'[', ..] => (2, utf_16("big-endian")),
        _ => return None,
    };
    Some(Explanation::at(0..length, why).with_help([SAVE.to_string()]))
}

/// That a line ends with bytes 13 and 10, and how many lines of the file do so.
pub fn carriage_returns(file: &[u8]) -> [String; 2] {
    let ends = file.windows(2).filter(|pair| pair == b"\r\n").count();
    let count = match ends {
        0 | 1 => "1 line of the file does".to_string(),
        _ => format!("{ends} lines of the file do"),
    };
    [
        format!(
            "Lines are ended by byte 10 (LF) alone; this one ends with bytes 13 and 10 (CRLF), \
             as {count}."
        ),
        SAVE.to_string(),
    ]
}

/// What may stand at the beginning of bytes that are not ASCII: how many bytes it
/// has, and what it is.
pub fn not_ascii(bytes: &[u8]) -> (usize, String) {
    let Some(character) = first_character(bytes) else {
        let byte = bytes.first().copied().unwrap_or_default();
        return (1, format!("byte {byte} (hexadecimal {byte:02X})"));
    };
    let length = character.len_utf8();
    let name = match character {
        '\u{a0}' => "a no-break space, ",
        '\u{2010}'..='\u{2015}' | '\u{2212}' => "a dash that is not `-`, ",
        '\u{2018}'..='\u{201f}' => "a curly quotation mark, ",
        '\u{200b}'..='\u{200f}' | '\u{2060}' => "an invisible character, ",
        '\u{feff}' => "a byte order mark, ",
        _ => "",
    };
    let hex: Vec<String> = bytes[..length]
        .iter()
        .map(|byte| format!("{byte:02X}"))
        .collect();
    let (code, hex) = (u32::from(character), hex.join(" "));
    (length, format!("{name}U+{code:04X} (bytes {hex})"))
}

/// The character that some bytes begin with, if they are UTF-8.
fn first_character(bytes: &[u8]) -> Option<char> {
    let most = bytes.len().min(4);
    let text = (1..=most).find_map(|length| std::str::from_utf8(&bytes[..length]).ok())?;
    text.chars().next()
}

#[cfg(test)]
mod tests {
    use super::*;

    #[test]
    fn characters_and_lone_bytes_are_told() {
        assert_eq!(
            not_ascii("é".as_bytes()),
            (2, "U+00E9 (bytes C3 A9)".to_string())
        );
        assert_eq!(not_ascii(b"\xe9]").0, 1);
        assert_eq!(not_ascii(b"\xe9]").1, "byte 233 (hexadecimal E9)");
        assert!(not_ascii("\u{2013}".as_bytes()).1.starts_with("a dash"));
    }
}
