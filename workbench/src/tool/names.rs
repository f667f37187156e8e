//! File names and other words of the command line as they can be shown: on one
//! line, with nothing in them that steers a terminal.

use std::ffi::OsStr;

/// A name as text. Characters that do not print, and bytes that are no UTF-8, are
/// spelled out: `\n`, `\u{1b}`, `\xff`; a backslash is `\\`, so that no two names
/// look alike.
pub fn shown(name: impl AsRef<OsStr>) -> String {
    let mut text = String::new();
    for chunk in name.as_ref().as_encoded_bytes().utf8_chunks() {
        for character in chunk.valid().chars() {
            match character == '\\' || is_unseen(character) {
                true => text.extend(character.escape_default()),
                false => text.push(character),
            }
        }
        for byte in chunk.invalid() {
            text += &format!("\\x{byte:02x}");
        }
    }
    text
}

/// Control characters, line and paragraph separators, and characters that are
/// invisible or turn the direction of the text around them.
fn is_unseen(character: char) -> bool {
    character.is_control()
        || matches!(character,
            '\u{ad}' | '\u{61c}' | '\u{180e}' | '\u{200b}'..='\u{200f}'
            | '\u{2028}'..='\u{202e}' | '\u{2060}'..='\u{206f}' | '\u{feff}')
}

#[cfg(test)]
mod tests {
    use super::*;
    use std::os::unix::ffi::OsStrExt;

    #[test]
    fn names_are_shown_on_one_line() {
        for (name, expected) in [
            (b"a b.txt" as &[u8], "a b.txt"),
            ("käse.txt".as_bytes(), "käse.txt"),
            (b"a\nb\t", "a\\nb\\t"),
            (b"\x1b[31m", "\\u{1b}[31m"),
            (b"a\xffb\xc3", "a\\xffb\\xc3"),
            (b"a\\xff", "a\\\\xff"),
            ("a\u{202e}txt.b\u{85}".as_bytes(), "a\\u{202e}txt.b\\u{85}"),
        ] {
            assert_eq!(shown(OsStr::from_bytes(name)), expected);
        }
    }
}
