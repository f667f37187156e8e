//! Many files and whole folders checked at once.

mod folder;

use std::fs;
use std::io::Write;
use std::os::unix::fs::symlink;
use std::process::Stdio;

use folder::{text, tool, Folder};
use workbench::generate::{accepted_document, Random, Size};
use workbench::reference::print::print;
use workbench::samples::{a_with, A, TWO_SENDERS};

/// A folder that is empty at first, whatever an earlier run left.
fn fresh(test: &str) -> Folder {
    let folder = Folder::new(test);
    fs::remove_dir_all(&folder.path).unwrap();
    Folder::new(test)
}

impl Folder {
    /// Puts a file into a folder below, which is made.
    fn put_below(&self, below: &str, name: &str, content: impl AsRef<[u8]>) -> &Folder {
        fs::create_dir_all(self.path.join(below)).unwrap();
        self.put(&format!("{below}/{name}"), content)
    }
}

#[test]
fn a_folder_is_checked_whole_and_in_order() {
    let folder = fresh("many whole");
    folder
        .put_below("archive", "b.txt", A)
        .put_below("archive", "a.TXT", A)
        .put_below("archive", "notes.md", "not taken")
        .put_below("archive", "txt", "not taken")
        .put_below("archive/a", "z.txt", a_with("[flow 4 [u]]", ""))
        .put_below("archive/.old", "c.txt", A)
        .put_below("archive/empty", "readme", "not taken")
        .put("single", A);
    let output = folder.run(&["check", "single", "archive", "archive/b.txt"]);
    assert_eq!(output.status.code(), Some(1));
    assert!(output.stderr.is_empty(), "{}", text(&output.stderr));
    assert_eq!(
        text(&output.stdout),
        "\
single: accepted, 1 claim holds
archive/.old/c.txt: accepted, 1 claim holds
archive/a/z.txt:6:16: refused 10: the tables break the flow rule of this row
  6 | [row 4 [bind 4 [sync 3] 5]]
    |                ^^^^^^^^
  Missing from the set of name 4: unit (`u`); it has no line, so it is empty.
  This sync takes name 3, which may be recv row 3, whose channel, name 1, may be chan row 1; \
so the set of messages of channel row 1 must lie in the set of name 4.
  To mend this row, insert `[flow 4 [u]]` after line 14: the flow rule of row 4 then holds.
  No other row's rule fails.
  `channel-check infer FILE` prints the file with the smallest tables that keep all rules.
archive/a.TXT: accepted, 1 claim holds
archive/b.txt: accepted, 1 claim holds
archive/b.txt: accepted, 1 claim holds
6 files: 5 accepted, 1 refused (1 x 10); 3 passed over, not named *.txt
"
    );
}

#[test]
fn a_folder_with_one_file_is_summed_up_too() {
    let folder = fresh("many one");
    folder.put_below("d", "a.txt", A);
    let output = folder.run(&["check", "d"]);
    let shown = "d/a.txt: accepted, 1 claim holds\n1 file: 1 accepted\n";
    assert_eq!(text(&output.stdout), shown);
    let verbose = folder.run(&["check", "-v", "d"]);
    assert!(text(&verbose.stdout).contains("\n  row 1   1     one-shot"));
    // A single file that is named is not.
    let output = folder.run(&["check", "d/a.txt"]);
    assert!(!text(&output.stdout).contains("1 file"));
}

#[test]
fn links_to_folders_are_not_followed() {
    let folder = fresh("many links");
    folder.put_below("d/inner", "a.txt", A).put("other.txt", A);
    symlink("..", folder.path.join("d/inner/loop")).unwrap();
    symlink("../../d", folder.path.join("d/inner/loop.txt")).unwrap();
    symlink("../other.txt", folder.path.join("d/link.txt")).unwrap();
    symlink("nowhere", folder.path.join("d/broken.txt")).unwrap();
    symlink("d", folder.path.join("named")).unwrap();
    let output = folder.run(&["check", "d"]);
    assert_eq!(output.status.code(), Some(2));
    assert_eq!(
        text(&output.stdout),
        "\
d/inner/a.txt: accepted, 1 claim holds
d/link.txt: accepted, 1 claim holds
3 files: 2 accepted, 1 not checked; 2 passed over, not named *.txt
"
    );
    let told = "channel-check: d/broken.txt: not checked: there is no such file\n";
    assert_eq!(text(&output.stderr), told);
    // A link that is named itself is.
    let output = folder.run(&["check", "named"]);
    assert!(text(&output.stdout).starts_with("named/inner/a.txt: accepted"));
    // The gate's next run here would be refused: `rt ci` takes no link in a checkout.
    fs::remove_dir_all(&folder.path).unwrap();
}

#[test]
fn an_empty_folder_is_a_problem_by_name() {
    let folder = fresh("many empty");
    folder.put("good.txt", A).put_below("none", "a.md", A);
    let output = folder.run(&["check", "none", "good.txt"]);
    assert_eq!(output.status.code(), Some(2));
    assert_eq!(
        text(&output.stderr),
        "channel-check: none: not checked: no file named *.txt is in this folder\n"
    );
    assert_eq!(
        text(&output.stdout),
        "\
good.txt: accepted, 1 claim holds
2 files: 1 accepted, 1 not checked; 1 passed over, not named *.txt
"
    );
    // The other commands take files only.
    let output = folder.run(&["infer", "none"]);
    assert_eq!(output.status.code(), Some(2));
    let told = "channel-check: none: not checked: this is a folder, not a file\n";
    assert_eq!(text(&output.stderr), told);
}

#[test]
fn the_output_is_the_same_whatever_the_number_of_jobs() {
    let folder = fresh("many jobs");
    let mut random = Random::new(41);
    let size = Size {
        rows: 40,
        names: 40,
    };
    for number in 0..300 {
        let name = format!("{number:03}.txt");
        match number % 7 {
            3 => folder.put_below("all", &name, TWO_SENDERS.replace("fan-in", "fan-out")),
            5 => folder.put_below("all", &name, "[dispenser 1]\n"),
            _ => folder.put_below("all", &name, print(&accepted_document(&mut random, size))),
        };
    }
    for more in [&[] as &[&str], &["--json"], &["--verbose"]] {
        let words = [&["check", "all", "gone", "all/003.txt"], more].concat();
        let one = folder.run(&[&words[..], &["--jobs", "1"]].concat());
        assert_eq!(one.status.code(), Some(2));
        for jobs in [&[] as &[&str], &["-j", "2"], &["--jobs=7"]] {
            let other = folder.run(&[&words[..], jobs].concat());
            assert_eq!(other.status.code(), Some(2));
            assert_eq!(other.stdout, one.stdout, "{jobs:?}");
            assert_eq!(other.stderr, one.stderr, "{jobs:?}");
        }
        let last = text(&one.stdout).lines().last().unwrap();
        match more {
            ["--json"] => assert!(
                last.starts_with("{\"summary\": {\"files\": 302, "),
                "{last}"
            ),
            _ => assert!(last.starts_with("302 files: "), "{last}"),
        }
    }
}

#[test]
fn the_summary_counts_by_number() {
    let folder = fresh("many summary");
    let files = ["a", "b", "c", "d", "e"];
    folder
        .put("a", A)
        .put("b", TWO_SENDERS.replace("fan-in", "fan-out"))
        .put("c", "[dispenser 1]\n")
        .put("d", TWO_SENDERS.replace("fan-in", "one-shot"));
    let run = |words: &[&str]| {
        let output = folder.run(&[&["check"], words, &files[..]].concat());
        assert_eq!(output.status.code(), Some(2));
        let shown = text(&output.stdout);
        shown.lines().last().unwrap_or_default().to_string()
    };
    let expected = "5 files: 1 accepted, 3 refused (1 x 4, 2 x 11), 1 not checked";
    assert_eq!(run(&[]), expected);
    assert_eq!(
        run(&["--json"]),
        concat!(
            r#"{"summary": {"files": 5, "accepted": 1, "refused": 3, "#,
            r#""numbers": [{"number": 4, "files": 1}, {"number": 11, "files": 2}], "#,
            r#""not_checked": 1, "passed_over": 0, "status": 2}}"#
        )
    );
    assert_eq!(run(&["--quiet"]), "");
}

#[test]
fn what_is_written_to_no_terminal_has_no_progress_line() {
    let folder = fresh("many plain");
    folder.put("a", A).put("b", A);
    let output = folder.run(&["check", "a", "b", "--color", "always"]);
    assert!(output.stderr.is_empty());
    assert!(!output.stdout.contains(&b'\r'));
}

#[test]
fn standard_input_is_one_of_many_once() {
    let folder = fresh("many input");
    folder.put("a", A);
    let mut child = tool()
        .current_dir(&folder.path)
        .args(["check", "a", "-", "a"])
        .stdin(Stdio::piped())
        .stdout(Stdio::piped())
        .spawn()
        .unwrap();
    let mut stdin = child.stdin.take().unwrap();
    stdin.write_all(b"[dispenser 1]\n").unwrap();
    drop(stdin);
    let output = child.wait_with_output().unwrap();
    assert_eq!(output.status.code(), Some(1));
    let shown = text(&output.stdout);
    assert!(shown.starts_with("a: accepted, 1 claim holds\n-:2:1: refused 4: "));
    assert!(shown.ends_with("\n3 files: 2 accepted, 1 refused (1 x 4)\n"));
    for (words, message) in [
        (["check", "-", "-"], "can be read once only"),
        (["check", "--jobs=0", "a"], "--jobs needs a number above 0"),
        (["check", "--jobs=x", "a"], "--jobs needs a number, not `x`"),
    ] {
        let output = folder.run(&words);
        assert_eq!(output.status.code(), Some(2));
        assert!(text(&output.stderr).contains(message));
    }
}
