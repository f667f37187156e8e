//! The texts of `help`: the list of commands, and the page of each.

use super::verbs::{Opt, Verb, COMMON, VERBS};
use super::NAME;

/// The widest line of a page.
const WIDEST: usize = 80;

/// The statuses that every command ends with.
const STATUS: &str = "\
Exit status: 0 all is accepted or done; 1 a file, set or move is refused; 2 bad
usage, or a file that cannot be read or written.
";

/// The tool with its version.
pub fn version() -> String {
    format!("{NAME} {}\n", env!("CARGO_PKG_VERSION"))
}

/// The list of commands, and the options that all have.
pub fn list() -> String {
    let verbs = VERBS
        .iter()
        .map(|verb| (verb.name.to_string(), verb.summary));
    format!(
        "usage: {NAME} COMMAND [OPTION..] WORD..\n\n\
         Checks the task files of a dispenser with the proved checker: whether the\n\
         tables keep the flow rules and every claim holds.\n\n\
         commands:\n{}\n\
         options of all commands, before or after the command:\n{}\n\
         `{NAME} help COMMAND` tells of one command. The file `-` is standard\n\
         input, and `--` ends the options.\n\n{STATUS}",
        columns(&verbs.collect::<Vec<_>>()),
        columns(&COMMON.iter().map(option).collect::<Vec<_>>())
    )
}

/// The page of a command.
pub fn page(verb: &Verb) -> String {
    let mut page = usage(verb);
    page += &format!("\n{}\n\n", verb.help);
    if !verb.options.is_empty() {
        let options: Vec<_> = verb.options.iter().map(option).collect();
        page += &format!("options:\n{}\n", columns(&options));
    }
    page + &format!("`{NAME} help` lists the options of all commands.\n\n{STATUS}")
}

/// How a command is written, in lines that are not too long.
fn usage(verb: &Verb) -> String {
    let begin = format!("usage: {NAME} {}", verb.name);
    let margin = " ".repeat(begin.len());
    let options = verb
        .options
        .iter()
        .map(|option| format!("[{}]", option.usage()));
    let takes = (!verb.takes.is_empty()).then(|| verb.takes.to_string());
    let (mut text, mut width) = (begin.clone(), begin.len());
    for word in options.chain(takes) {
        if width + 1 + word.len() > WIDEST {
            text += &format!("\n{margin}");
            width = margin.len();
        }
        text += &format!(" {word}");
        width += 1 + word.len();
    }
    text + "\n"
}

/// An option as it is listed, and what it does.
fn option(option: &Opt) -> (String, &'static str) {
    let usage = option.usage();
    match option.short {
        Some(short) => (format!("{short}, {usage}"), option.help),
        None => (usage, option.help),
    }
}

/// Names with what is said of them, in two columns.
fn columns(lines: &[(String, &str)]) -> String {
    let width = lines.iter().map(|(name, _)| name.len()).max().unwrap_or(0);
    let mut text = String::new();
    for (name, said) in lines {
        for (index, said) in said.lines().enumerate() {
            let name = if index == 0 { name } else { "" };
            text += &format!("  {name:<width$}  {said}\n");
        }
    }
    text
}
