//! Refusal 2: each kind of damaged file is told by what stands there, what may
//! stand there and what helps; and with the help followed, the file is taken.

use workbench::checker::{Reason, Store};
use workbench::explain::{explain, Explanation};
use workbench::reference::refusal::refusal;
use workbench::samples::{a_with, A};
use workbench::text::lines;

/// A line of listing A that damage is done to, and the line's number.
const SEND: &str = "[row 6 [bind 5 [send 1 0] 7]]";

/// Why the proved library refuses a file, which must be with 2.
fn told(file: &[u8]) -> (usize, Explanation) {
    let refused = Store::new().load(file).expect_err("the file is refused");
    assert_eq!(refused.reason, Reason::NotALine, "{}", file.escape_ascii());
    let explanation = explain(file, refusal(2, refused.line)).expect("an explanation");
    (refused.line, explanation)
}

/// The same of listing A with its send row in other words: the bytes marked, and
/// all sentences.
fn told_of_send(line: &str) -> (String, String) {
    let (at, explanation) = told(a_with(SEND, line).as_bytes());
    assert_eq!(at, 8, "{line}");
    let mark = explanation.mark.expect("a place");
    let end = mark.end.min(line.len());
    let marked = line.as_bytes()[mark.start.min(end)..end].escape_ascii();
    let said = [explanation.why, explanation.help].concat();
    (marked.to_string(), said.join("\n"))
}

#[test]
fn the_line_that_is_damaged_here_is_in_listing_a() {
    assert_eq!(lines(A.as_bytes())[7], format!("{SEND}\n").as_bytes());
}

#[test]
fn other_encodings_are_told_at_the_first_line() {
    let utf_16 = |bytes: fn(u16) -> [u8; 2], mark: bool| -> Vec<u8> {
        let mark = mark.then_some(0xfeff);
        let units = mark.into_iter().chain(A.encode_utf16());
        units.flat_map(bytes).collect()
    };
    let with_mark = [b"\xef\xbb\xbf", A.as_bytes()].concat();
    for (file, what) in [
        (with_mark, "a byte order mark (bytes EF BB BF)"),
        (utf_16(u16::to_le_bytes, true), "UTF-16 (little-endian)"),
        (utf_16(u16::to_be_bytes, true), "UTF-16 (big-endian)"),
        (utf_16(u16::to_le_bytes, false), "UTF-16 (little-endian)"),
        (utf_16(u16::to_be_bytes, false), "UTF-16 (big-endian)"),
    ] {
        let (line, explanation) = told(&file);
        assert_eq!(line, 1);
        assert!(explanation.why[0].contains(what), "{explanation:?}");
        assert!(
            explanation.help[0].contains("plain ASCII"),
            "{explanation:?}"
        );
    }
}

#[test]
fn line_ends_of_other_systems_are_told() {
    let (line, explanation) = told(A.replace('\n', "\r\n").as_bytes());
    assert_eq!((line, explanation.mark), (1, Some(13..14)));
    assert!(explanation.why[1].contains("a carriage return (byte 13) stands"));
    let help = &explanation.help[0];
    assert!(
        help.contains("bytes 13 and 10 (CRLF), as 19 lines of the file do"),
        "{help}"
    );

    let (marked, said) = told_of_send(&format!("{SEND}\r"));
    assert_eq!(marked, "\\r");
    assert!(said.contains("as 1 line of the file does"), "{said}");

    let (line, explanation) = told(A.replace('\n', "\r").as_bytes());
    assert_eq!((line, explanation.mark), (1, Some(13..14)));
    assert!(explanation.why[0].contains("not by byte 13 (CR)"));
}

#[test]
fn the_end_of_the_file_is_told() {
    let (line, explanation) = told(A.trim_end().as_bytes());
    assert_eq!(line, 19);
    assert!(explanation.why[0].contains("not ended by byte 10"));
    assert!(explanation.help[0].contains("Put a line feed at the end"));
    let (line, explanation) = told(b"");
    assert_eq!(line, 1);
    assert!(explanation.why[0].contains("The file is empty; its first line must be"));
}

#[test]
fn empty_lines_are_told() {
    let (line, explanation) = told(a_with(SEND, &format!("\n{SEND}")).as_bytes());
    assert_eq!((line, &*explanation.why[0]), (8, "The line is empty."));
    assert!(explanation.help[0].contains("no line may be empty"));
    let (line, explanation) = told(format!("{A}\n").as_bytes());
    assert_eq!((line, &*explanation.why[0]), (20, "The line is empty."));
    assert!(explanation.help[0].contains("ends with the byte 10 of its last line"));
    let (line, explanation) = told(format!("\n{A}").as_bytes());
    assert_eq!((line, &*explanation.why[1]), (1, "The line is empty."));
}

#[test]
fn first_lines_that_are_no_header_are_told() {
    for (header, told_so) in [
        (
            "[dispenser 2]\n",
            "`2` stands for the version; the one that is read here is `1`",
        ),
        ("[dispenser 01]\n", "`01` stands for the version"),
        (
            "",
            "The header is missing: insert `[dispenser 1]` before this line.",
        ),
        ("# tasks\n[dispenser 1]\n", "A file has no comments"),
        ("[dispensr 1]\n", "Did you mean `dispenser`?"),
        (" [dispenser 1]\n", "No space stands before the first `[`"),
        ("[dispenser 1] \n", "No space stands at the end of a line."),
    ] {
        let file = A.replacen("[dispenser 1]\n", header, 1);
        let (line, explanation) = told(file.as_bytes());
        assert_eq!(line, 1);
        let said = [explanation.why, explanation.help].concat();
        assert!(
            said[0].starts_with("The first line must be `[dispenser 1]`")
                || header.starts_with('#')
        );
        assert!(said.iter().any(|said| said.contains(told_so)), "{said:?}");
    }
}

#[test]
fn comments_are_told() {
    for comment in [
        "# drum 1",
        "// drum 1",
        "; drum 1",
        "-- drum 1",
        "  # drum 1",
    ] {
        let (marked, said) = told_of_send(&format!("{comment}\n{SEND}"));
        assert!(marked.starts_with(comment), "{marked}");
        assert!(
            said.contains("This line is a comment.\nA file has no comments"),
            "{said}"
        );
        let (marked, said) = told_of_send(&format!("{SEND} {}", comment.trim()));
        assert_eq!(marked, comment.trim());
        assert!(
            said.contains("A comment follows the line.\nA file has no"),
            "{said}"
        );
    }
}

#[test]
fn bytes_that_may_not_stand_there_are_told() {
    for (line, marked, what, help) in [
        (
            "[row 6\t[bind 5 [send 1 0] 7]]",
            "\\t",
            "a tab (byte 9) stands; expected is a space",
            "never a tab",
        ),
        ("[row 6 [bind 5 [s\u{e9}nd 1 0] 7]]", "s", "`s` stands", ""),
        (
            "[row 6 [bind 5 [\u{e9} 1 0] 7]]",
            "\\xc3\\xa9",
            "U+00E9 (bytes C3 A9) stands",
            "ASCII bytes only",
        ),
        (
            "[row 6\u{a0}[bind 5 [send 1 0] 7]]",
            "\\xc2\\xa0",
            "a no-break space, U+00A0",
            "ASCII bytes only",
        ),
        (
            "(row 6 [bind 5 [send 1 0] 7]]",
            "(",
            "`(` stands; expected is `[`",
            "brackets of a file are",
        ),
        (
            "[row 6 [bind 5 [send 1, 0] 7]]",
            ",",
            "`,` stands; expected is a space",
            "no comma",
        ),
        (
            "[row 6 [bind 5 [send 1 0] 7]]\u{1}",
            "\\x01",
            "byte 1 stands; expected is the end",
            "",
        ),
    ] {
        let (at, said) = told_of_send(line);
        assert_eq!(at, marked, "{line}");
        assert!(said.contains(what) && said.contains(help), "{said}");
    }
    // The same bytes where UTF-8 does not fit.
    let mut file = A.replace("[unit]", "[un?t]").into_bytes();
    let at = file.iter().position(|&byte| byte == b'?').unwrap();
    file[at - 2..=at].fill(0xe9);
    let (_, explanation) = told(&file);
    assert!(explanation.why[0].contains("byte 233 (hexadecimal E9) stands"));
}

#[test]
fn spaces_are_told() {
    let between = "There is one space between parts and no other space.";
    for (line, help) in [
        (
            " [row 6 [bind 5 [send 1 0] 7]]",
            "No space stands before the first `[` of a line.",
        ),
        (
            "[row 6 [bind 5 [send 1 0] 7]] ",
            "No space stands at the end of a line.",
        ),
        ("[row  6 [bind 5 [send 1 0] 7]]", between),
        ("[row 6 [bind 5 [send 1 0 ] 7]]", between),
        ("[ row 6 [bind 5 [send 1 0] 7]]", between),
        ("[row 6 [bind 5 [send 1  0] 7]]", between),
    ] {
        let (marked, said) = told_of_send(line);
        assert_eq!(marked, " ", "{line}");
        assert!(
            said.contains("a space stands") && said.ends_with(help),
            "{said}"
        );
    }
}

#[test]
fn numbers_are_told() {
    for (line, marked, help) in [
        (
            "[row 6 [bind 1000 [send 1 0] 7]]",
            "1000",
            "Rows and names are numbered 0 to 159.",
        ),
        ("[row 6 [bind 007 [send 1 0] 7]]", "007", "Write `7`."),
        ("[row 6 [bind 00 [send 1 0] 7]]", "00", "Write `0`."),
        (
            "[row 6 [bind -5 [send 1 0] 7]]",
            "-",
            "expected is a number",
        ),
        (
            "[row 6 [bind 0001000 [send 1 0] 7]]",
            "0001000",
            "numbered 0 to 159.",
        ),
    ] {
        let (at, said) = told_of_send(line);
        assert_eq!(at, marked, "{line}");
        assert!(said.contains(help), "{said}");
    }
}

#[test]
fn parts_too_few_or_too_many_are_told_by_how_the_form_is_written() {
    let send = "A send is written `[send C M]`: C the name of the channel, M of the message.";
    let bind = "A bind is written `[bind N FORM T]`: N the name bound, T the row of the rest.";
    for (line, help) in [
        ("[row 6 [bind 5 [send 1] 7]]", send),
        ("[row 6 [bind 5 [send] 7]]", send),
        ("[row 6 [bind 5 [send 1 0 2] 7]]", send),
        ("[row 6 [bind 5 [send 1 0]]]", bind),
        ("[row 6 [bind 5 [send 1 0] 7 8]]", bind),
        (
            "[row 6 [bind 5 [chan 1] 7]]",
            "A chan is written `[chan]`: it has no parts.",
        ),
        ("[row 6 [bind 5 [recv] 7]]", "A recv is written `[recv C]`"),
        ("[row 6 [result]]", "A result is written `[result N]`"),
        (
            "[row 6 [bind 5 [case 1 2 3] 7]]",
            "A case is written `[case S L T R T]`",
        ),
    ] {
        let (_, said) = told_of_send(line);
        assert!(said.contains(help), "{line}: {said}");
    }
    for (line, help) in [
        (
            "[row 6 [bind 5 [send 1 0] 7]",
            "The line has 3 `[` and 2 `]`.",
        ),
        ("[row 6 [bind 5 [send 1 0", "The line has 3 `[` and 0 `]`."),
        (
            "[row 6 [bind 5 [send 1 0] 7]]]",
            "`]` stands; expected is the end of the line",
        ),
    ] {
        let (_, said) = told_of_send(line);
        assert!(said.contains(help), "{line}: {said}");
    }
}

#[test]
fn words_that_are_likely_to_be_meant_are_told() {
    for (old, new, meant) in [
        (SEND, "[row 6 [bind 5 [sned 1 0] 7]]", "send"),
        (SEND, "[row 6 [bind 5 [SEND 1 0] 7]]", "send"),
        (SEND, "[row 6 [bind 5 [receive 1] 7]]", "recv"),
        (SEND, "[row 6 [bind 5 [channel] 7]]", "chan"),
        (SEND, "[row 6 [return 5]]", "result"),
        (SEND, "[rows 6 [bind 5 [send 1 0] 7]]", "row"),
        ("[flow 0 [u]]", "[flwo 0 [u]]", "flow"),
        ("[comm 1 [u]]", "[com 1 [u]]", "comm"),
        ("[claim 1 one-shot]", "[claims 1 one-shot]", "claim"),
        ("[claim 1 one-shot]", "[claim 1 oneshot]", "one-shot"),
        ("[claim 1 one-shot]", "[claim 1 one_shot]", "one-shot"),
        ("[claim 1 one-shot]", "[claim 1 many-to-one]", "fan-in"),
    ] {
        let file = a_with(old, new);
        let (_, explanation) = told(file.as_bytes());
        let asked = format!("Did you mean `{meant}`?");
        assert_eq!(explanation.help, [asked], "{new}");
        // With the word that is meant the line is one of its kind.
        let at = explanation.mark.expect("a place");
        let mended = format!("{}{meant}{}", &new[..at.start], &new[at.end..]);
        let answer = Store::new().load(a_with(old, &mended).as_bytes());
        let reason = answer.err().map(|refused| refused.reason);
        assert_ne!(reason, Some(Reason::NotALine), "{mended}");
    }
    let (_, said) = told_of_send("[row 6 [bind 5 [tablet 1 0] 7]]");
    assert!(
        said.contains("`tablet` stands; expected is `unit`, `chan`, "),
        "{said}"
    );
    assert!(!said.contains("Did you mean"), "{said}");
}

#[test]
fn sets_are_told() {
    for (line, help) in [
        (
            "[flow 0 []]",
            "A set is never written empty: take the line out, and the set is empty.",
        ),
        ("[flow 0 [1 u]]", "In a set `u` may stand first only."),
        (
            "[flow 0 [u,1]]",
            "One space stands between parts, and no comma.",
        ),
        ("[flow 0 u]", "A flow is written `[flow N [..]]`"),
        ("[flow 0 [u 01]]", "Write `1`."),
        ("[flow 0 [0001]]", "Write `1`."),
    ] {
        let (at, explanation) = told(a_with("[flow 0 [u]]", line).as_bytes());
        assert_eq!(at, 11);
        let said = explanation.help.join("\n");
        assert!(said.contains(help), "{line}: {said}");
    }
}

#[test]
fn lines_in_another_order_are_told_with_where_they_belong() {
    let claim = "[claim 1 one-shot]";
    for (line, kinds, place) in [
        (
            "[row 9 [result 0]]",
            "A row line may not follow a claim line",
            11,
        ),
        (
            "[flow 9 [u]]",
            "A flow line may not follow a claim line",
            18,
        ),
        (
            "[comm 1 [u]]",
            "A comm line may not follow a claim line",
            19,
        ),
    ] {
        let file = a_with(claim, &format!("{claim}\n{line}"));
        let (at, explanation) = told(file.as_bytes());
        assert_eq!(at, 20);
        assert!(explanation.why[0].starts_with(kinds), "{explanation:?}");
        assert_eq!(explanation.help, [format!("Move it before line {place}.")]);
        // Moved there it is a line of its kind: 2 is not the answer any longer.
        let mut moved = lines(file.as_bytes());
        let taken = moved.remove(at - 1);
        moved.insert(place - 1, taken);
        let answer = Store::new().load(&moved.concat());
        let reason = answer.err().map(|refused| refused.reason);
        assert_ne!(reason, Some(Reason::NotALine), "{line}");
    }
}

#[test]
fn long_words_are_cut() {
    let long = format!("[row 6 [bind 5 [{} 1 0] 7]]", "s".repeat(20_000));
    let (marked, said) = told_of_send(&long);
    assert_eq!(marked.len(), 20_000);
    assert!(said.len() < 300, "{said}");
    assert!(said.contains("sss .. sss"), "{said}");
    let (_, said) = told_of_send(&format!("[row 6 [bind {} [unit] 7]]", "7".repeat(20_000)));
    assert!(said.len() < 300, "{said}");
}
