//! Where a run is shown: as text or JSON on the way, or as a picture at the end.

use std::io::{self, IsTerminal, Write};
use std::path::Path;

use super::going::Going;
use super::{json, svg, text, Format, Refused};
use crate::checker::Move;
use crate::tool::names::shown;
use crate::tool::screen::tell;

/// Shows a run in one of the formats.
pub struct Show<'a, W: Write> {
    out: &'a mut W,
    file: &'a Path,
    format: Format,
    /// Whether somebody is asked for the moves, and so must see them.
    asked: bool,
}

impl<'a, W: Write> Show<'a, W> {
    pub fn new(out: &'a mut W, file: &'a Path, format: Format, asked: bool) -> Show<'a, W> {
        Show {
            out,
            file,
            format,
            asked,
        }
    }

    /// Whether what is said goes to a terminal.
    pub fn on_terminal(&self) -> bool {
        match self.format {
            Format::Text => io::stdout().is_terminal(),
            Format::Json => false,
            Format::Svg => io::stderr().is_terminal(),
        }
    }

    /// Says something that is no part of a picture or of JSON.
    pub fn say(&mut self, words: &str) -> io::Result<()> {
        if self.format == Format::Text {
            self.out.write_all(words.as_bytes())?;
            return self.out.flush();
        }
        tell(words);
        Ok(())
    }

    /// Shows where a run stands, after what happened last.
    fn state(&mut self, going: &mut Going, event: json::Event, happened: &str) -> io::Result<()> {
        match self.format {
            Format::Svg if !self.asked => Ok(()),
            Format::Json => {
                let line = json::state(going, event);
                self.out.write_all(line.as_bytes())?;
                self.out.flush()
            }
            _ => {
                let view = going.view();
                let state = text::state(going.program, &view);
                self.say(&format!("{happened}\n{state}"))
            }
        }
    }

    /// The beginning.
    pub fn begin(&mut self, going: &mut Going) -> io::Result<()> {
        let happened = format!("{}: a run begins", shown(self.file));
        self.state(going, json::Event::Begin(self.file), &happened)
    }

    /// The move that was made last.
    pub fn made(&mut self, going: &mut Going) -> io::Result<()> {
        let happened = text::happened(going);
        self.state(going, json::Event::Made, &happened)
    }

    /// The undoing of a move.
    pub fn undone(&mut self, going: &mut Going, undone: Move) -> io::Result<()> {
        let number = going.made.len() + 1;
        let happened = format!("move {number} is undone");
        self.state(going, json::Event::Undone(undone), &happened)
    }

    /// The end, with the move that was refused, if one was.
    pub fn end(&mut self, going: &mut Going, refused: Option<Refused>) -> io::Result<()> {
        let text = match self.format {
            Format::Text => text::end(going, refused),
            Format::Json => json::end(going, refused),
            Format::Svg => {
                if let Some(refused) = refused {
                    self.say(&text::refused(going, refused))?;
                }
                svg::picture(&shown(self.file), going)
            }
        };
        self.out.write_all(text.as_bytes())?;
        self.out.flush()
    }
}
