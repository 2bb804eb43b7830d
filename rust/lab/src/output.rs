//! Where answers go, and what stops the lab.

use crate::words::Tone;
use std::io::{self, IsTerminal, Write};
use std::{env, fmt};

/// Why the lab stops early.
#[derive(Debug)]
pub enum Stop {
    /// The user's input or arguments, with a sentence.
    Misuse(String),
    /// Nothing more can be written.
    Output(io::Error),
}

impl From<io::Error> for Stop {
    fn from(error: io::Error) -> Self {
        Self::Output(error)
    }
}

/// Whether standard output is a terminal, and NO_COLOR is not set.
pub fn colour_wanted() -> bool {
    let unwanted = env::var_os("NO_COLOR").is_some_and(|value| !value.is_empty());
    io::stdout().is_terminal() && !unwanted
}

/// Lines of text, with colour or without.
pub struct Output<'a> {
    to: &'a mut dyn Write,
    colour: bool,
}

impl<'a> Output<'a> {
    pub fn new(to: &'a mut dyn Write, colour: bool) -> Self {
        Self { to, colour }
    }

    pub fn plain(to: &'a mut dyn Write) -> Self {
        Self::new(to, false)
    }

    pub fn line(&mut self, text: impl fmt::Display) -> io::Result<()> {
        writeln!(self.to, "{text}")
    }

    /// A line that is coloured as its tone asks.
    pub fn toned(&mut self, tone: Tone, text: impl fmt::Display) -> io::Result<()> {
        let code = match tone {
            Tone::Plain => return self.line(text),
            Tone::Found => "32",
            Tone::Nothing => "36",
            Tone::Refused => "33",
            Tone::GaveUp => "1;31",
            Tone::Unknown => "1;35",
        };
        self.painted(code, text)
    }

    /// Writes what is kept back: for whoever waits for an answer before the next command.
    pub fn flush(&mut self) -> io::Result<()> {
        self.to.flush()
    }

    pub fn heading(&mut self, text: impl fmt::Display) -> io::Result<()> {
        self.painted("1", text)
    }

    fn painted(&mut self, code: &str, text: impl fmt::Display) -> io::Result<()> {
        if self.colour {
            writeln!(self.to, "\x1b[{code}m{text}\x1b[0m")
        } else {
            self.line(text)
        }
    }
}
