//! `watch`: a run of a file's program, move by move, made by the proved library.
//!
//! What can be done is found by trying it on a copy of the run; names, values and
//! channels are read from the run memory.

mod going;
mod json;
mod moves;
mod reading;
mod show;
mod svg;
mod text;
mod view;

pub use moves::read_moves;

use std::io::{self, BufRead, IsTerminal, Write};
use std::path::{Path, PathBuf};

use super::outcome::{read_file, refused, Outcome};
use super::screen::tell;
use super::{ACCEPTED, NAME, REFUSED};
use crate::checker::{Move, Refusal};
use crate::generate::Random;
use going::{Going, Program};
use show::Show;

/// Who chooses the moves.
#[derive(Clone, Debug, PartialEq, Eq)]
pub enum Chosen {
    /// Whoever writes to standard input.
    Asked,
    /// Chance, for so many moves at most.
    Random { seed: u64, most: usize },
    /// A list.
    Replay(Vec<Move>),
}

/// How a run is shown.
#[derive(Clone, Copy, Debug, PartialEq, Eq)]
pub enum Format {
    Text,
    Json,
    Svg,
}

/// What is asked of `watch`.
#[derive(Clone, Debug, PartialEq, Eq)]
pub struct Options {
    pub file: PathBuf,
    pub chosen: Chosen,
    pub format: Format,
}

/// The program of a file, with what judge has against it; the outcome of a file
/// that cannot be read or loaded.
pub fn load(path: &Path) -> Result<(Program, Option<Refusal>), Outcome> {
    let file = read_file(path)?;
    let program = Program::load(&file).map_err(|refusal| refused(&file, refusal))?;
    let judged = program.store.judge().err();
    Ok((program, judged))
}

/// Watches a run to its end; the exit status.
pub fn watch(out: &mut impl Write, program: &Program, options: &Options) -> io::Result<u8> {
    let mut going = match Going::begin(program) {
        Ok(going) => going,
        Err(refusal) => {
            tell(&format!("{NAME}: begin: {refusal}\n"));
            return Ok(REFUSED);
        }
    };
    let asked = options.chosen == Chosen::Asked;
    let mut show = Show::new(out, &options.file, options.format, asked);
    show.begin(&mut going)?;
    let refused = match &options.chosen {
        Chosen::Asked => {
            ask(&mut going, &mut show)?;
            None
        }
        Chosen::Random { seed, most } => {
            draw(&mut going, &mut show, &mut Random::new(*seed), *most)?
        }
        Chosen::Replay(moves) => replay(&mut going, &mut show, moves)?,
    };
    show.end(&mut going, refused)?;
    Ok(match refused {
        None => ACCEPTED,
        Some(_) => REFUSED,
    })
}

/// A move that was refused.
type Refused = (Move, Refusal);

/// Makes the moves of a list, up to one that is refused.
fn replay(
    going: &mut Going,
    show: &mut Show<impl Write>,
    moves: &[Move],
) -> io::Result<Option<Refused>> {
    for &made in moves {
        if let Err(refusal) = going.make(made) {
            return Ok(Some((made, refusal)));
        }
        show.made(going)?;
    }
    Ok(None)
}

/// Makes so many moves at random, or as many as there are.
fn draw(
    going: &mut Going,
    show: &mut Show<impl Write>,
    random: &mut Random,
    most: usize,
) -> io::Result<Option<Refused>> {
    for _ in 0..most {
        let possible = going.possible().moves;
        let Some(&made) = random.pick(&possible) else {
            break;
        };
        if let Err(refusal) = going.make(made) {
            return Ok(Some((made, refusal)));
        }
        show.made(going)?;
    }
    Ok(None)
}

/// Makes the moves that are asked for, a line for each, until `q` or the end of
/// standard input.
fn ask(going: &mut Going, show: &mut Show<impl Write>) -> io::Result<()> {
    let mut input = io::stdin().lock();
    let prompts = input.is_terminal() && show.on_terminal();
    let mut line = vec![];
    loop {
        let possible = going.possible().moves;
        if prompts {
            show.say("move> ")?;
        }
        line.clear();
        if input.read_until(b'\n', &mut line)? == 0 {
            return Ok(());
        }
        let word = String::from_utf8_lossy(&line);
        let word = word.trim();
        let number = word.parse::<usize>().ok();
        let chosen = number.and_then(|number| possible.get(number.checked_sub(1)?));
        match (word, chosen) {
            ("q" | "quit", _) => return Ok(()),
            ("u" | "undo", _) => match going.undo() {
                Some(undone) => show.undone(going, undone)?,
                None => show.say("there is no move to undo\n")?,
            },
            (_, Some(&made)) => match going.make(made) {
                Ok(()) => show.made(going)?,
                Err(refusal) => show.say(&format!("{refusal}\n"))?,
            },
            _ => show.say(&hint(possible.len()))?,
        }
    }
}

/// What may be written.
fn hint(moves: usize) -> String {
    let numbers = match moves {
        0 => "no move is left".to_string(),
        1 => "1 makes the move".to_string(),
        _ => format!("a number from 1 to {moves} makes a move"),
    };
    format!("{numbers}; u undoes the last, q quits\n")
}
