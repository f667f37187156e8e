//! The words that follow a command, taken apart into options and others.

use std::ffi::OsString;
use std::path::PathBuf;

use super::names::shown;
use super::tables::Given;
use crate::reference::document::Listed;
use crate::reference::read::{read_name, read_set};

/// The words of a command, whose options are known to be its own.
#[derive(Debug, Default)]
pub struct Words {
    /// The command, for what is said of its words.
    pub verb: &'static str,
    /// The options by name, each with its value if it takes one.
    pub options: Vec<(&'static str, Option<OsString>)>,
    /// The words that are no options.
    pub others: Vec<OsString>,
}

impl Words {
    /// Whether an option is given.
    pub fn has(&self, option: &str) -> bool {
        self.options.iter().any(|(name, _)| *name == option)
    }

    /// The value that an option is given, the last if there are several.
    pub fn value(&self, option: &str) -> Result<Option<&str>, String> {
        let given = self.options.iter().rev().find(|(name, _)| *name == option);
        let Some((_, Some(value))) = given else {
            return Ok(None);
        };
        let text = value.to_str();
        let text = text.ok_or_else(|| format!("{option} cannot be `{}`", shown(value)))?;
        Ok(Some(text))
    }

    /// The number that an option is given.
    pub fn number(&self, option: &str) -> Result<Option<u64>, String> {
        let Some(value) = self.value(option)? else {
            return Ok(None);
        };
        let digits = value.bytes().all(|byte| byte.is_ascii_digit());
        let number = digits.then(|| value.parse().ok()).flatten();
        let number =
            number.ok_or_else(|| format!("{option} needs a number, not `{}`", shown(value)))?;
        Ok(Some(number))
    }

    /// The files, at least one.
    pub fn files(self) -> Result<Vec<PathBuf>, String> {
        match self.others.is_empty() {
            true => Err("no file given".to_string()),
            false => Ok(self.others.into_iter().map(PathBuf::from).collect()),
        }
    }

    /// The one file.
    pub fn file(self) -> Result<PathBuf, String> {
        let verb = self.verb;
        let [file] = <[PathBuf; 1]>::try_from(self.files()?)
            .map_err(|files| format!("{verb} takes one file, not {}", files.len()))?;
        Ok(file)
    }

    /// The file, and the set given for a name.
    pub fn file_and_set(self) -> Result<(PathBuf, Given), String> {
        if self.others.is_empty() {
            return Err("no file given".to_string());
        }
        let verb = self.verb;
        let [file, name, set] = <[OsString; 3]>::try_from(self.others).map_err(|words| {
            let count = words.len();
            format!("{verb} takes FILE NAME SET, not {count} words; quote the set: '[u 3 5]'")
        })?;
        let name = name.to_str().and_then(read_name).ok_or_else(|| {
            format!(
                "`{}` is no name: a name is a number of one to three digits, as in a file",
                shown(&name)
            )
        })?;
        let set = match set.to_str() {
            Some("[]") => Listed::default(),
            text => text.and_then(read_set).ok_or_else(|| {
                format!(
                    "`{}` is no set: it is written as in a file, like '[u 3 5]' with `u` first \
                     if at all, or '[]' if it is empty",
                    shown(&set)
                )
            })?,
        };
        Ok((file.into(), Given { name, set }))
    }
}
