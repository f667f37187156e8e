//! `watch`: a run of a file's program, move by move.

use std::io;

use super::{Opt, Verb};
use crate::tool::outcomes::{problem, show, status, Form};
use crate::tool::screen::Screen;
use crate::tool::watch::{self, read_moves, Chosen, Format, Options};
use crate::tool::words::Words;
use crate::tool::{names, NAME};

pub static VERB: Verb = Verb {
    name: "watch",
    takes: "FILE",
    summary: "runs a file's program, move by move",
    help: "\
Runs the program of a task file with the proved checker, move by move, and shows
after each move where the threads stand, what each can do, which threads wait at
which channel, and the moves that are possible. A move is chosen by its number,
a line of standard input for each; `u` undoes the last, `q` quits. At the end
come the messages that went, and the moves as --replay takes them. The file's
tables and claims need not hold.",
    options: &[
        Opt::valued(
            "--random",
            "SEED",
            "the moves are drawn at random, the same for the same seed",
        ),
        Opt::valued(
            "--moves",
            "N",
            "of --random: N moves at most; else as many as there are",
        ),
        Opt::valued(
            "--replay",
            "MOVES",
            "the moves are these: THREAD or SENDER+RECEIVER, with commas\n\
             between, as in 0,0,1+0,2",
        ),
        Opt::flag(
            "--json",
            "one JSON object on a line for the beginning, each move and the\n\
             end",
        ),
        Opt::flag(
            "--svg",
            "a picture of the threads and messages in place of the text",
        ),
    ],
    parse: |words| {
        let options = options(words)?;
        Ok(Box::new(move |screen| run(screen, &options)))
    },
};

/// What the words ask for.
fn options(words: Words) -> Result<Options, String> {
    let replay = words.value("--replay")?.map(read_moves).transpose()?;
    let chosen = match (words.number("--random")?, words.number("--moves")?, replay) {
        (None, None, None) => Chosen::Asked,
        (Some(seed), most, None) => Chosen::Random {
            seed,
            most: most.map_or(usize::MAX, |most| {
                usize::try_from(most).unwrap_or(usize::MAX)
            }),
        },
        (None, None, Some(moves)) => Chosen::Replay(moves),
        (None, Some(_), _) => return Err("--moves goes with --random".to_string()),
        (Some(_), _, Some(_)) => return Err("--random and --replay do not go together".to_string()),
    };
    let format = match (words.has("--json"), words.has("--svg")) {
        (false, false) => Format::Text,
        (true, false) => Format::Json,
        (false, true) => Format::Svg,
        (true, true) => return Err("--json and --svg do not go together".to_string()),
    };
    let file = words.file()?;
    if chosen == Chosen::Asked && file.as_os_str() == "-" {
        let told = "the moves are read from standard input, so the file cannot be `-`";
        return Err(told.to_string());
    }
    Ok(Options {
        file,
        chosen,
        format,
    })
}

/// Watches a run. A file that cannot be loaded is reported as by check, but where
/// a picture is asked for on standard error.
fn run(screen: &mut Screen, options: &Options) -> io::Result<u8> {
    let file = &options.file;
    let (program, judged) = match watch::load(file) {
        Ok(loaded) => loaded,
        Err(outcome) => {
            return match options.format {
                Format::Text => show(screen, file, &outcome, Form::Whole),
                Format::Json => show(screen, file, &outcome, Form::Json),
                Format::Svg => {
                    problem(screen, file, &outcome)?;
                    Ok(status(&outcome))
                }
            }
        }
    };
    if let Some(refusal) = judged {
        screen.tell(&format!(
            "{NAME}: {}: check refuses this file with {refusal}; a run needs no tables, so it \
             can be watched\n",
            names::shown(file)
        ))?;
    }
    watch::watch(screen, &program, options)
}
