//! `check`: whether files are accepted, and why not; many files and whole folders
//! at once.

use std::io::{self, IsTerminal, Write};
use std::path::PathBuf;

use super::{Opt, Verb};
use crate::tool::outcome::check;
use crate::tool::outcomes::{is_problem, show, Form};
use crate::tool::paths::{Item, Items};
use crate::tool::progress::Progress;
use crate::tool::screen::{dumb, Screen};
use crate::tool::summary::Summary;
use crate::tool::words::Words;
use crate::tool::workers::{in_order, processors};

pub static VERB: Verb = Verb {
    name: "check",
    takes: "PATH..",
    summary: "checks files: accepted with verdicts, or refused with the reason",
    help: "\
Checks task files with the proved checker: whether the tables keep the flow
rules and every claim holds. A file is accepted, with the verdict on each of its
channels, or refused, with the place and the reason. A refusal begins with
FILE:LINE:COLUMN, by which editors find the place; the column counts bytes from
1. Where no line is at fault it begins with FILE.

A path is a file, or a folder: then every file below it named *.txt is checked,
in the order of names. Links to folders are not followed there. A folder with no
such file is a problem.

Of one file the channels are shown as a table. Of several files, or a folder, an
accepted file has one line, and the last line counts what became of all. The
order is that of the paths, and the output the same whatever the --jobs.",
    options: &[
        Opt::flag(
            "--json",
            "one JSON object on a line for each file; of several, or of a\n\
             folder, a last one that counts",
        ),
        Opt::flag("--verbose", "the table of channels also of several files").or("-v"),
        Opt::valued(
            "--jobs",
            "N",
            "N files at a time; else as many as there are processors",
        )
        .or("-j"),
    ],
    parse: |words| {
        let options = options(words)?;
        Ok(Box::new(move |screen| run(screen, &options)))
    },
};

/// What is asked for.
struct Options {
    paths: Vec<PathBuf>,
    json: bool,
    verbose: bool,
    jobs: usize,
}

fn options(words: Words) -> Result<Options, String> {
    let json = words.has("--json");
    let verbose = words.has("--verbose");
    let jobs = match words.number("--jobs")? {
        None => processors(),
        Some(0) => return Err("--jobs needs a number above 0".to_string()),
        Some(jobs) => usize::try_from(jobs).unwrap_or(usize::MAX).min(MOST_JOBS),
    };
    let paths = words.files()?;
    if paths.iter().filter(|path| path.as_os_str() == "-").count() > 1 {
        return Err("standard input, `-`, can be read once only".to_string());
    }
    Ok(Options {
        paths,
        json,
        verbose,
        jobs,
    })
}

/// More threads than this are of no use.
const MOST_JOBS: usize = 256;

/// Checks the files and shows what becomes of each; the worst status of all.
fn run(screen: &mut Screen, options: &Options) -> io::Result<u8> {
    let items = Items::of(&options.paths);
    let many = items.folders || items.list.len() > 1;
    let form = match (options.json, many && !options.verbose) {
        (true, _) => Form::Json,
        (false, true) => Form::Brief,
        (false, false) => Form::Whole,
    };
    let wanted = !screen.is_quiet() && io::stderr().is_terminal() && !dumb();
    let mut progress = Progress::new(io::stderr(), wanted, items.list.len());
    let shared = io::stdout().is_terminal();
    let mut summary = Summary::new(items.passed_over);
    progress.tell(0);
    let take = |item: &Item, outcome| {
        // What is written to the same terminal stands in lines of its own.
        if shared || is_problem(screen, &outcome, form) {
            progress.erase();
        }
        summary.count(&outcome);
        show(screen, item.path(), &outcome, form)?;
        if shared {
            screen.flush()?;
        }
        progress.tell(summary.files());
        Ok(())
    };
    let checked = in_order(&items.list, options.jobs, |item| item.outcome(check), take);
    progress.erase();
    checked?;
    if many {
        screen.show(&match form {
            Form::Json => summary.json(),
            _ => summary.text(),
        })?;
    }
    Ok(summary.status)
}
