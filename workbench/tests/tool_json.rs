//! What the tool prints with `--json`, held to the page that tells of it,
//! docs/JSON.md: each key with its types, both ways. And columns, which index the
//! text that is given.

mod folder;
mod json;

use std::collections::{BTreeMap, BTreeSet};
use std::ffi::OsStr;
use std::io::Write;
use std::os::unix::ffi::OsStrExt;
use std::process::Stdio;

use folder::{text, tool, Folder};
use json::{json_lines, Json};
use workbench::samples::{a_with, A, RECEIPT_WIDE, RELAY, TWO_RECEIVES, TWO_SENDERS};

const PAGE: &str = include_str!("../../docs/JSON.md");

/// The types of each key.
type Keys = BTreeMap<String, BTreeSet<String>>;

/// The keys in the tables of the page, by the heading above them.
fn page() -> BTreeMap<&'static str, Keys> {
    let mut sections: BTreeMap<&str, Keys> = BTreeMap::new();
    let mut heading = "";
    for line in PAGE.lines() {
        if line.starts_with('#') {
            heading = line.trim_start_matches('#').trim();
        } else if line.starts_with("| `") {
            let cells: Vec<&str> = line.split('|').map(str::trim).collect();
            let key = cells[1].trim_matches('`').to_string();
            let types = cells[2].split(" or ").map(str::to_string).collect();
            let keys = sections.entry(heading).or_default();
            assert!(keys.insert(key, types).is_none(), "twice: {line}");
        }
    }
    sections
}

/// The type of a value, as the page names it.
fn kind(value: &Json) -> String {
    match value {
        Json::Null => "null".to_string(),
        Json::Bool(_) => "boolean".to_string(),
        Json::Number(_) => "number".to_string(),
        Json::Text(_) => "string".to_string(),
        Json::Object(_) => "object".to_string(),
        Json::List(items) => match items.first().map(kind) {
            None => "array".to_string(),
            Some(inner) => match inner.strip_prefix("array") {
                Some(of) => format!("array of arrays{of}"),
                None => format!("array of {inner}s"),
            },
        },
    }
}

/// Adds the keys of an object and of those inside it.
fn collect(value: &Json, path: &str, keys: &mut Keys) {
    match value {
        Json::Object(fields) => {
            for (key, value) in fields {
                let path = match path {
                    "" => key.to_string(),
                    _ => format!("{path}.{key}"),
                };
                keys.entry(path.clone()).or_default().insert(kind(value));
                collect(value, &path, keys);
            }
        }
        Json::List(items) => {
            for item in items {
                collect(item, &format!("{path}[]"), keys);
            }
        }
        _ => {}
    }
}

/// The headings whose tables tell of an object.
fn headings(object: &Json) -> &'static [&'static str] {
    let Json::Object(fields) = object else {
        panic!("no object: {object:?}");
    };
    if fields.contains_key("summary") {
        return &["A summary"];
    }
    if fields.contains_key("now") {
        return &["A preview", "A file"];
    }
    match fields.get("event") {
        None => &["A file"],
        Some(Json::Text(event)) => match event.as_str() {
            "begin" => &["The beginning of a run", "A run"],
            "move" => &["A move", "A run"],
            "undone" => &["A move undone", "A run"],
            "end" => &["The end of a run"],
            _ => panic!("event {event}"),
        },
        other => panic!("event {other:?}"),
    }
}

/// All kinds of objects, as many of their keys as there are.
fn printed() -> Vec<Json> {
    let folder = Folder::new("json page");
    let strange = OsStr::from_bytes(b"\xff.txt");
    std::fs::write(folder.path.join(strange), A).unwrap();
    folder
        .put("a", A)
        .put("wide", RECEIPT_WIDE)
        .put("relay", RELAY)
        .put("rule", a_with("[flow 4 [u]]", ""))
        .put("claim", TWO_SENDERS.replace("fan-in", "fan-out"))
        .put("free", TWO_RECEIVES);
    let run = |words: &[&str], file: &OsStr, input: &str| {
        let mut child = tool()
            .current_dir(&folder.path)
            .args(words)
            .arg("--json")
            .arg("--")
            .arg(file)
            .args(match words[0] {
                "preview" => &["4", "[u 1]"] as &[&str],
                "check" => &["rule", "claim", "free", "gone"],
                _ => &[],
            })
            .stdin(Stdio::piped())
            .stdout(Stdio::piped())
            .stderr(Stdio::null())
            .spawn()
            .unwrap();
        let _ = child.stdin.take().unwrap().write_all(input.as_bytes());
        let output = child.wait_with_output().unwrap();
        json_lines(text(&output.stdout))
    };
    let a = OsStr::new("a");
    let mut objects = vec![];
    objects.extend(run(&["check"], strange, ""));
    objects.extend(run(&["preview"], OsStr::new("wide"), ""));
    objects.extend(run(&["preview"], a, ""));
    objects.extend(run(&["watch"], a, "1\n1\nu\n1\n1\n1\n1\n1\n1\n1\n"));
    objects.extend(run(&["watch", "--replay", "0,7"], a, ""));
    objects.extend(run(&["watch", "--random", "3"], strange, ""));
    let relay = OsStr::new("relay");
    objects.extend(run(&["watch", "--random", "3", "--moves", "60"], relay, ""));
    objects
}

#[test]
fn every_key_is_on_the_page_with_its_types_and_the_reverse() {
    let page = page();
    let mut seen: BTreeMap<&str, Keys> = BTreeMap::new();
    for object in printed() {
        let mut keys = Keys::new();
        collect(&object, "", &mut keys);
        for (key, kinds) in keys {
            let told = headings(&object).iter();
            let heading = told.copied().find(|told| page[told].contains_key(&key));
            let heading = heading.unwrap_or_else(|| panic!("`{key}` is not on the page"));
            let types = seen.entry(heading).or_default();
            types.entry(key).or_default().extend(kinds);
        }
    }
    for (heading, keys) in &page {
        for (key, types) in keys {
            let kinds = seen.get(heading).and_then(|seen| seen.get(key));
            let kinds = kinds.unwrap_or_else(|| panic!("{heading}: `{key}` is not printed"));
            // Of an array that is empty no more can be said.
            let some_array = types.iter().any(|kind| kind.starts_with("array"));
            let mut kinds = kinds.clone();
            if some_array && kinds.remove("array") && kinds.is_empty() {
                continue;
            }
            assert_eq!(&kinds, types, "{heading}: `{key}`");
        }
    }
}

#[test]
fn columns_index_the_text_that_is_given() {
    let folder = Folder::new("json columns");
    // The line, the part of its text at fault, and the byte of the file's line.
    let cases: [(&[u8], &str, usize); 7] = [
        (b"[flow 0 [1 u]]", "u", 12),
        ("[flow 0 [\u{f6}]]".as_bytes(), "\\xc3\\xb6", 10),
        (b"[flow 0 [\t]]", "\\t", 10),
        (b"[flow 0 [\"]]", "\"", 10),
        (b"[flow 0 [\\]]", "\\\\", 10),
        (b"[flow 0 [\xff]]", "\\xff", 10),
        (b"[fl\xffw 0 [u]]", "fl", 2),
    ];
    for (line, fault, column) in cases {
        let (before, after) = A.split_once("[flow 0 [u]]").unwrap();
        let file = [before.as_bytes(), line, after.as_bytes()].concat();
        let output = folder.put("f", file).run(&["check", "--json", "f"]);
        let object = Json::read(text(&output.stdout).trim_end());
        let shown = object.text("text");
        let [Json::Number(first), Json::Number(last)] = object.list("columns") else {
            panic!("{object:?}");
        };
        assert!(shown.is_ascii());
        assert_eq!(&shown[first - 1..*last], fault, "{shown}");
        assert_eq!(object.get("column"), &Json::Number(column), "{shown}");
    }
    // A place that holds bytes which are spelled out.
    let header = A.replacen("dispenser", "dis\u{f6}penser", 1);
    let output = folder.put("f", header).run(&["check", "--json", "f"]);
    let object = Json::read(text(&output.stdout).trim_end());
    assert_eq!(object.text("text"), "[dis\\xc3\\xb6penser 1]");
    assert_eq!(object.list("columns"), [Json::Number(5), Json::Number(21)]);
    // Where something is missing, the place is behind the text.
    let output = folder.put("f", A.trim_end()).run(&["check", "--json", "f"]);
    let object = Json::read(text(&output.stdout).trim_end());
    let end = object.text("text").len();
    let past = [Json::Number(end + 1), Json::Number(end + 1)];
    assert_eq!(object.list("columns"), past);
}

#[test]
fn standard_output_has_objects_alone() {
    let folder = Folder::new("json alone");
    folder.put("a", A).put("bad", "[dispenser 1]\n");
    let output = folder.run(&["check", "--json", "a", "bad", "gone"]);
    assert!(output.stderr.is_empty());
    assert_eq!(json_lines(text(&output.stdout)).len(), 4);
    // One file has no summary.
    let output = folder.run(&["check", "--json", "gone"]);
    let expected = "{\"file\": \"gone\", \"error\": \"there is no such file\"}\n";
    assert_eq!(text(&output.stdout), expected);
}
