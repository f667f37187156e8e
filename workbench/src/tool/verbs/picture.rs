//! `picture`: a file's rows as an SVG picture.

use std::io;
use std::path::Path;

use super::{Opt, Verb};
use crate::tool::outcome::{document, load, told};
use crate::tool::outcomes::{problem, status};
use crate::tool::picture::{grid, tree};
use crate::tool::screen::Screen;
use crate::tool::{names, ACCEPTED, NAME};

pub static VERB: Verb = Verb {
    name: "picture",
    takes: "FILE",
    summary: "draws a file's rows and threads, or which row leads to which",
    help: "\
Draws the rows of a task file as a picture, an SVG that stands alone and that
any browser shows: the tree of rows with its threads, and which rows send and
receive on which channels by the tables. Where a claim fails, two walks that
break it are drawn in two colours; where a flow rule fails, its row is marked.
A file that cannot be loaded is refused as check does, on standard error.",
    options: &[Opt::flag(
        "--grid",
        "which row leads to which by row steps, as a grid",
    )],
    parse: |words| {
        let grid = words.has("--grid");
        let file = words.file()?;
        Ok(Box::new(move |screen| run(screen, &file, grid)))
    },
};

/// Draws a file. What judge has against it is told on standard error.
fn run(screen: &mut Screen, file: &Path, as_grid: bool) -> io::Result<u8> {
    let store = match load(file) {
        Ok((store, _)) => store,
        Err(outcome) => {
            problem(screen, file, &outcome)?;
            return Ok(status(&outcome));
        }
    };
    let name = names::shown(file);
    let document = document(&store);
    let refused = store.judge().err();
    screen.show(&match as_grid {
        true => grid(&name, &document),
        false => tree(&name, &document, refused.map(told)),
    })?;
    if let Some(refusal) = refused {
        screen.tell(&format!(
            "{NAME}: {name}: check refuses this file with {refusal}\n"
        ))?;
    }
    Ok(ACCEPTED)
}
