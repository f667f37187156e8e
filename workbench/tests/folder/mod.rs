//! The tool run as a program on files in a folder. Not every test takes all of it.
#![allow(dead_code)]

use std::path::PathBuf;
use std::process::{Command, Output, Stdio};

/// The tool, as a program to run.
pub fn tool() -> Command {
    Command::new(env!("CARGO_BIN_EXE_channel-check"))
}

/// A folder of its own for each test, with files in it.
pub struct Folder {
    pub path: PathBuf,
}

impl Folder {
    pub fn new(test: &str) -> Folder {
        let path = PathBuf::from(env!("CARGO_TARGET_TMPDIR")).join(test);
        std::fs::create_dir_all(&path).unwrap();
        Folder { path }
    }

    pub fn put(&self, name: &str, content: impl AsRef<[u8]>) -> &Folder {
        std::fs::write(self.path.join(name), content).unwrap();
        self
    }

    pub fn run(&self, words: &[&str]) -> Output {
        let mut command = tool();
        command.current_dir(&self.path).args(words);
        command.stdin(Stdio::null()).output().unwrap()
    }
}

pub fn text(bytes: &[u8]) -> &str {
    std::str::from_utf8(bytes).expect("the tool prints UTF-8")
}
