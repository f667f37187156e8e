//! `channel-check infer`, run as a program.

mod folder;

use folder::{text, Folder};
use workbench::generate::hardest;
use workbench::reference::print::print;
use workbench::samples::{a_with, a_without_tables, A, RELAY, SERVER, UNPACKING};

/// What `infer` prints for one file, which must have status 0 and no more to say.
fn inferred(test: &str, content: impl AsRef<[u8]>, words: &[&str]) -> String {
    let folder = Folder::new(test);
    let output = folder
        .put("f", content)
        .run(&[&["infer"], words, &["f"]].concat());
    assert_eq!(output.status.code(), Some(0));
    assert!(output.stderr.is_empty(), "{}", text(&output.stderr));
    text(&output.stdout).to_string()
}

#[test]
fn infer_prints_the_file_with_its_smallest_tables() {
    assert_eq!(inferred("infer", A, &[]), A);
    assert_eq!(inferred("infer", a_without_tables(), &[]), A);
    let wide = a_with("[flow 4 [u]]", "[flow 4 [u 1 6]]");
    assert_eq!(inferred("infer", wide, &[]), A);
}

#[test]
fn infer_shows_what_changes_set_by_set() {
    assert_eq!(inferred("diff", A, &["--diff"]), "no set changed\n");
    let other = a_with("[flow 3 [3]]", "[flow 3 [u 1 6]]").replace("[comm 1 [u]]\n", "");
    assert_eq!(
        inferred("diff", &other, &["--diff"]),
        "\
[flow 3 [u 1 6]] -> [flow 3 [3]]
  went: u 1 6
  came: 3
[comm 1 []] -> [comm 1 [u]]
  came: u
2 sets changed
"
    );
    let unused = A.replace("[flow 4 [u]]", "[flow 4 [u 3]]");
    assert_eq!(
        inferred("diff", unused, &["--diff"]),
        "[flow 4 [u 3]] -> [flow 4 [u]]\n  went: 3\n1 set changed\n"
    );
    // A channel that nothing is sent on has no line.
    let unsent = a_with("[row 7 [bind 6 [sync 5] 8]]", "[row 7 [bind 6 [unit] 8]]");
    assert_eq!(
        inferred("diff", unsent, &["--diff"]),
        "\
[flow 4 [u]] -> [flow 4 []]
  went: u
[comm 1 [u]] -> [comm 1 []]
  went: u
2 sets changed
"
    );
}

#[test]
fn infer_completes_samples_without_tables() {
    for sample in [SERVER, RELAY, UNPACKING] {
        let folder = Folder::new("complete");
        let before = folder.put("f", sample).run(&["check", "f"]);
        assert_eq!(before.status.code(), Some(1));
        assert!(text(&before.stdout).contains(": refused 10: "));
        let complete = inferred("complete", sample, &[]);
        let output = folder.put("complete", complete).run(&["check", "complete"]);
        assert_eq!(output.status.code(), Some(0));
        assert!(text(&output.stdout).starts_with("complete: accepted, no claim to judge\n"));
    }
}

#[test]
fn infer_refuses_as_check_does_but_on_standard_error() {
    let folder = Folder::new("infer refused");
    folder.put("f", a_with("[row 8 [result 6]]", "[row 8 [result 3]]"));
    for file in ["f", "gone"] {
        let check = folder.run(&["check", file]);
        let told = [check.stdout, check.stderr].concat();
        for words in [&["infer", file] as &[&str], &["infer", "--diff", file]] {
            let infer = folder.run(words);
            assert_eq!(infer.status.code(), check.status.code());
            assert!(infer.stdout.is_empty());
            assert_eq!(text(&infer.stderr), text(&told));
        }
    }
}

#[test]
fn infer_tells_of_a_text_that_is_too_long_for_a_file() {
    let mut long = 0;
    for (_, document) in hardest() {
        let folder = Folder::new("infer long");
        let output = folder.put("f", print(&document)).run(&["infer", "f"]);
        assert_eq!(output.status.code(), Some(0));
        let told = text(&output.stderr).contains("no file of more than 32768 can be loaded");
        assert_eq!(told, output.stdout.len() > 32_768);
        long += usize::from(told);
    }
    assert!(long > 0);
}
