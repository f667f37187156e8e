//! Runs of a file's program, watched by the tool.

use std::io::Write;
use std::process::{Output, Stdio};

use crate::folder::{text, tool, Folder};

/// Moves that bring listing A to its end.
pub const A_TO_THE_END: &str = "0,0,0,1,0,0+1";

impl Folder {
    /// A folder of its own for each test, with a file `f` in it.
    pub fn with(test: &str, content: impl AsRef<[u8]>) -> Folder {
        let folder = Folder::new(&format!("watch {test}"));
        folder.put("f", content);
        folder
    }

    /// Watches the file, with some words before its name, and writes to standard
    /// input.
    pub fn watch(&self, words: &[&str], input: &str) -> Output {
        let mut child = tool()
            .current_dir(&self.path)
            .arg("watch")
            .args(words)
            .arg("f")
            .stdin(Stdio::piped())
            .stdout(Stdio::piped())
            .stderr(Stdio::piped())
            .spawn()
            .unwrap();
        let mut stdin = child.stdin.take().unwrap();
        // Who does not ask for moves need not read them.
        let _ = stdin.write_all(input.as_bytes());
        drop(stdin);
        child.wait_with_output().unwrap()
    }
}

/// What is printed of a file, which must have a status.
pub fn printed(test: &str, file: &str, words: &[&str], input: &str, status: i32) -> String {
    let output = Folder::with(test, file).watch(words, input);
    assert_eq!(output.status.code(), Some(status), "{words:?}");
    text(&output.stdout).to_string()
}
