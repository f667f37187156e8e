//! The words after the tool's name: which command they ask for, and how it is to
//! speak. Options may stand before or after the command.

use std::ffi::{OsStr, OsString};
use std::path::Path;

use super::names::shown;
use super::nearest::nearest;
use super::screen::{Color, Manner};
use super::verbs::{verb, Action, Opt, Verb, COMMON, VERBS};
use super::words::Words;
use super::{help, show, NAME};

/// What is wrong with the words, in a line, and the page that helps.
pub struct Mistake {
    message: String,
    verb: Option<&'static Verb>,
}

impl Mistake {
    fn new(message: String, verb: Option<&'static Verb>) -> Mistake {
        Mistake { message, verb }
    }

    pub fn message(&self) -> &str {
        &self.message
    }

    /// Two lines for standard error.
    pub fn text(&self) -> String {
        let verb = self.verb.filter(|verb| verb.name != "help");
        let page = verb.map_or(String::new(), |verb| format!(" {}", verb.name));
        format!("{NAME}: {}\nsee `{NAME} help{page}`\n", self.message)
    }
}

/// What the words ask for.
pub fn parse(words: impl Iterator<Item = OsString>) -> Result<(Manner, Action), Mistake> {
    let (verb, mut words) = taken_apart(words)?;
    if words.has("--version") {
        return Ok((Manner::default(), show(help::version())));
    }
    if words.has("--help") {
        let page = verb.map_or_else(help::list, help::page);
        return Ok((Manner::default(), show(page)));
    }
    let mistake = |message| Mistake::new(message, verb);
    let manner = manner(&words).map_err(mistake)?;
    let Some(verb) = verb else {
        return Err(mistake("no command given".to_string()));
    };
    words.verb = verb.name;
    let action = (verb.parse)(words).map_err(mistake)?;
    Ok((manner, action))
}

/// The command and its words.
fn taken_apart(
    words: impl Iterator<Item = OsString>,
) -> Result<(Option<&'static Verb>, Words), Mistake> {
    let mut words = words;
    let mut asked: Option<&'static Verb> = None;
    let mut taken = Words::default();
    let mut ended = false;
    while let Some(word) = words.next() {
        let is_option = !ended && word.len() > 1 && word.as_encoded_bytes()[0] == b'-';
        if is_option && word == "--" {
            ended = true;
        } else if is_option {
            taken.options.push(option(asked, &word, &mut words)?);
        } else if asked.is_none() {
            asked = Some(command(&word)?);
        } else {
            taken.others.push(word);
        }
    }
    // Options before the command may be those of another.
    if let Some(verb) = asked {
        let others = taken.options.iter().map(|(name, _)| *name);
        let other = others.filter(|name| !options_of(asked).any(|option| option.name == *name));
        if let Some(name) = other.into_iter().next() {
            return Err(unknown_option(Some(verb), OsStr::new(name)));
        }
    }
    Ok((asked, taken))
}

/// The options of a command; of all, if it is not known yet.
fn options_of(asked: Option<&'static Verb>) -> impl Iterator<Item = &'static Opt> {
    let verbs = VERBS.iter();
    let own = verbs.filter(move |verb| asked.is_none_or(|asked| asked.name == verb.name));
    own.flat_map(|verb| verb.options).chain(&COMMON)
}

/// An option, with its value if it takes one: the part behind `=`, or the next word.
fn option(
    asked: Option<&'static Verb>,
    word: &OsStr,
    words: &mut impl Iterator<Item = OsString>,
) -> Result<(&'static str, Option<OsString>), Mistake> {
    let (name, joined) = match word.to_str().map(|text| (text, text.split_once('='))) {
        Some((text, Some((name, value)))) if text.starts_with("--") => (name, Some(value)),
        Some((text, _)) => (text, None),
        None => return Err(unknown_option(asked, word)),
    };
    let option = options_of(asked).find(|option| option.name == name || option.short == Some(name));
    let Some(option) = option else {
        return Err(unknown_option(asked, OsStr::new(name)));
    };
    let mistake = |message: &str| Mistake::new(format!("{} {message}", option.name), asked);
    match (option.value, joined) {
        (None, None) => Ok((option.name, None)),
        (None, Some(_)) => Err(mistake("takes no value")),
        (Some(_), Some(value)) => Ok((option.name, Some(value.into()))),
        (Some(_), None) => {
            let value = words.next().ok_or_else(|| mistake("needs a value"))?;
            Ok((option.name, Some(value)))
        }
    }
}

fn unknown_option(asked: Option<&'static Verb>, word: &OsStr) -> Mistake {
    let of = asked.map_or(String::new(), |verb| format!(" of {}", verb.name));
    let names = options_of(asked).map(|option| option.name);
    let meant = word.to_str().and_then(|word| nearest(word, names));
    let message = format!(
        "unknown option `{}`{of}{}",
        shown(word),
        did_you_mean(meant)
    );
    Mistake::new(message, asked)
}

/// The command of a name. A file in its place shows what was left out.
pub fn command(word: &OsStr) -> Result<&'static Verb, Mistake> {
    if let Some(verb) = word.to_str().and_then(verb) {
        return Ok(verb);
    }
    let names = VERBS.iter().map(|verb| verb.name);
    let meant = word.to_str().and_then(|word| nearest(word, names));
    let name = shown(word);
    let meant = match meant {
        None if Path::new(word).exists() => Some(format!("check {name}")),
        meant => meant.map(str::to_string),
    };
    let message = format!("unknown command `{name}`{}", did_you_mean(meant.as_deref()));
    Err(Mistake::new(message, None))
}

fn did_you_mean(word: Option<&str>) -> String {
    word.map_or(String::new(), |word| format!("; did you mean `{word}`?"))
}

/// How the tool is to speak.
fn manner(words: &Words) -> Result<Manner, String> {
    let color = match words.value("--color")? {
        None => Color::default(),
        Some(given) => {
            let color = Color::WORDS.into_iter().find(|(word, _)| *word == given);
            let told = || format!("--color is auto, always or never, not `{}`", shown(given));
            color.ok_or_else(told)?.1
        }
    };
    let quiet = words.has("--quiet");
    Ok(Manner { quiet, color })
}
