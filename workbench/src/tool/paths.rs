//! The files that are named on the command line: each by itself, or all below a
//! folder.
//!
//! A file that is named is taken whatever its name. Of a folder every file named
//! `*.txt` is taken, in large or small letters, hidden ones too, sorted by name;
//! what else is there is counted. Links to files are followed, links to folders
//! are not, so that no folder is walked twice or for ever.

use std::fs;
use std::io;
use std::path::{Path, PathBuf};

use super::outcome::{trouble, Outcome};

/// What is to be checked.
pub enum Item {
    File(PathBuf),
    /// A folder of which nothing can be checked, and why.
    Folder(PathBuf, String),
}

impl Item {
    pub fn path(&self) -> &Path {
        match self {
            Item::File(path) | Item::Folder(path, _) => path,
        }
    }

    /// What becomes of it, given what becomes of a file.
    pub fn outcome(&self, check: impl FnOnce(&Path) -> Outcome) -> Outcome {
        match self {
            Item::File(path) => check(path),
            Item::Folder(_, why) => Outcome::Unreadable(why.clone()),
        }
    }
}

/// What the paths of a command line stand for, in their order.
#[derive(Default)]
pub struct Items {
    pub list: Vec<Item>,
    /// Whether a folder is among the paths.
    pub folders: bool,
    /// How many files in folders are not taken.
    pub passed_over: usize,
}

impl Items {
    pub fn of(paths: &[PathBuf]) -> Items {
        let mut items = Items::default();
        for path in paths {
            if path.as_os_str() != "-" && path.is_dir() {
                items.folders = true;
                let before = items.list.len();
                items.walk(path);
                if items.list.len() == before {
                    let why = "no file named *.txt is in this folder".to_string();
                    items.list.push(Item::Folder(path.clone(), why));
                }
            } else {
                items.list.push(Item::File(path.clone()));
            }
        }
        items
    }

    /// Takes what is below a folder. No folder is inside itself, so a list of those
    /// still to be walked comes to its end.
    fn walk(&mut self, folder: &Path) {
        let mut ahead = vec![folder.to_path_buf()];
        while let Some(path) = ahead.pop() {
            if path.as_path() != folder && !is_folder(&path) {
                self.take(path);
                continue;
            }
            match entries(&path) {
                // The next is at the end.
                Ok(entries) => ahead.extend(entries.into_iter().rev()),
                Err(error) => {
                    let why = trouble("folder", &error);
                    self.list.push(Item::Folder(path, why));
                }
            }
        }
    }

    /// Takes a path in a folder if it is a file of the right name. One that cannot
    /// be looked at is taken, so that it is told.
    fn take(&mut self, path: PathBuf) {
        let text = path.extension();
        let named = text.is_some_and(|text| text.eq_ignore_ascii_case("txt"));
        let is_file = fs::metadata(&path).map_or(true, |found| found.is_file());
        match named && is_file {
            true => self.list.push(Item::File(path)),
            false => self.passed_over += 1,
        }
    }
}

/// Whether a path is a folder itself, and no link to one.
fn is_folder(path: &Path) -> bool {
    fs::symlink_metadata(path).is_ok_and(|found| found.is_dir())
}

/// What is in a folder, sorted by name.
fn entries(folder: &Path) -> io::Result<Vec<PathBuf>> {
    let entries = fs::read_dir(folder)?.map(|entry| Ok(entry?.path()));
    let mut entries = entries.collect::<io::Result<Vec<PathBuf>>>()?;
    entries.sort();
    Ok(entries)
}
