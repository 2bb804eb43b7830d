//! Captures: guest memory, and where its rings begin.
//!
//! A capture is a folder with trbs.txt (`ADDRESS BYTES`, sixteen bytes in hex) and rings.txt (the event ring's table, then
//! a line for each ring); all memory that is not listed is 0. Or it is a raw image, and the user says where its rings begin.

use crate::lines::{quoted, Words};
use crate::output::Stop;
use crate::script::{named, MEMORY_LIMIT};
use crate::trbs::Kind;
use crate::window::Window;
use lomvigast::GuestMemory;
use std::collections::HashMap;
use std::fmt::Display;
use std::fs::File;
use std::io::Read;
use std::path::Path;

/// The length of memory where the user names none: 128 MiB.
pub const LENGTH: usize = 128 << 20;

pub struct Capture {
    window: Window,
    /// Whether that is an image, of which nobody knows what stands outside it. Else it is all of guest memory.
    image: bool,
    pub rings: Vec<Ring>,
}

pub struct Ring {
    pub kind: Kind,
    pub name: String,
    pub start: Start,
    pub driver: Option<Driver>,
}

/// Where the driver said it stood.
#[derive(Debug, Clone, Copy, PartialEq, Eq)]
pub struct Driver {
    /// Before this place it has seen all done: events taken, commands and transfers ended.
    pub dequeue: u64,
    /// Where it writes next; on an event ring it does not write.
    pub enqueue: Option<u64>,
    /// Its cycle state: where it writes, or on an event ring where it takes.
    pub cycle: bool,
}

impl Driver {
    /// Its own place: where it writes, or on an event ring where it takes.
    pub fn place(&self) -> Place {
        (self.enqueue.unwrap_or(self.dequeue), self.cycle)
    }
}

/// A place and the cycle state there.
pub type Place = (u64, bool);

/// Where a reader begins.
#[derive(Debug, Clone, Copy, PartialEq, Eq)]
pub enum Start {
    /// The first TRB, and the cycle state there if it is known.
    Linked(u64, Option<bool>),
    /// A segment table's base and number of entries.
    Table(u64, u16),
}

impl Capture {
    /// All of guest memory, from address 0 on, and rings in it.
    pub fn new(memory: Vec<u8>, rings: Vec<Ring>) -> Self {
        Self {
            window: memory.into(),
            image: false,
            rings,
        }
    }

    /// The first of these bytes that nobody knows, as the image does not hold it.
    pub fn missing(&self, address: u64, length: u64) -> Option<u64> {
        let lacks = self.window.lacks(address, length);
        lacks.filter(|_| self.image)
    }

    pub fn memory(&self) -> GuestMemory<'_> {
        self.window.lent()
    }

    /// The capture in a folder.
    pub fn of_folder(folder: &Path, length: usize) -> Result<Self, Stop> {
        let mut window = Window::zeroed(0, length).map_err(Stop::Misuse)?;
        let mut listed = HashMap::new();
        each_line(&folder.join("trbs.txt"), |words| {
            let address = words.number("ADDRESS")?;
            let bytes = words.hex("BYTES")?;
            let trb = bytes
                .try_into()
                .map_err(|bytes: Vec<u8>| format!("16 bytes, not {}", bytes.len()))?;
            let written = window.lent_mut().write_trb(address, &trb);
            written.map_err(|_| {
                format!("{address:#x} is beyond the {length} bytes of guest memory (see --length)")
            })?;
            match listed.insert(address, trb).filter(|before| *before != trb) {
                Some(_) => Err(format!("{address:#x} was listed before, with other bytes")),
                None => Ok(()),
            }
        })?;
        let mut table = None;
        let mut rings = Vec::new();
        each_line(&folder.join("rings.txt"), |words| {
            match words.word("what the line is of")? {
                "table" => table = Some(table_line(words)?),
                kind => rings.push(ring_line(kind, table, words)?),
            }
            words.end()
        })?;
        if rings.is_empty() {
            let file = folder.join("rings.txt");
            return Err(Stop::Misuse(format!("{} lists no ring", file.display())));
        }
        Ok(Self {
            window,
            image: false,
            rings,
        })
    }

    /// A raw image that begins at an address.
    pub fn of_image(image: &Path, base: u64, rings: Vec<Ring>) -> Result<Self, Stop> {
        Self::of_bytes(read(image)?, base, rings)
    }

    pub fn of_bytes(image: Vec<u8>, base: u64, rings: Vec<Ring>) -> Result<Self, Stop> {
        let window = Window::new(base, image);
        let window = window.map_err(|fault| Stop::Misuse(format!("the image: {fault}")))?;
        Ok(Self {
            window,
            image: true,
            rings,
        })
    }
}

fn table_line(words: &mut Words<'_>) -> Result<Start, String> {
    let base = words.number("ADDRESS")?;
    words.exactly("entries")?;
    Ok(Start::Table(base, words.number("the number of entries")?))
}

fn ring_line(kind: &str, table: Option<Start>, words: &mut Words<'_>) -> Result<Ring, String> {
    let name = named(words)?;
    words.exactly("first")?;
    let first = words.number("the first slot")?;
    words.exactly("cycle")?;
    let cycle = words.bit("the driver's cycle state")?;
    words.exactly("dequeue")?;
    let dequeue = words.number("the dequeue place")?;
    words.exactly("enqueue")?;
    let enqueue = words.number("the enqueue place")?;
    // A ring's first pass has cycle state 1.
    let linked = Start::Linked(first, Some(true));
    let (kind, start, enqueue) = match kind {
        "command" => (Kind::Command, linked, Some(enqueue)),
        "transfer" => (Kind::Transfer, linked, Some(enqueue)),
        "event" => {
            let table = table.ok_or("an event ring needs a line `table` before it")?;
            (Kind::Event, table, None)
        }
        _ => {
            let kind = quoted(kind);
            return Err(format!(
                "a line begins with table, command, transfer or event, not with {kind}"
            ));
        }
    };
    Ok(Ring {
        kind,
        name,
        start,
        driver: Some(Driver {
            dequeue,
            enqueue,
            cycle,
        }),
    })
}

/// Reads a file line by line, leaving out those without a word.
fn each_line(
    file: &Path,
    mut heed: impl FnMut(&mut Words<'_>) -> Result<(), String>,
) -> Result<(), Stop> {
    let text = String::from_utf8(read(file)?);
    let text = text.map_err(|_| unreadable(file, "it is not text in UTF-8"))?;
    for (number, line) in (1..).zip(text.lines()) {
        let mut words = Words::new(line);
        if words.clone().optional().is_none() {
            continue;
        }
        heed(&mut words)
            .map_err(|fault| Stop::Misuse(format!("{}, line {number}: {fault}", file.display())))?;
    }
    Ok(())
}

/// All bytes of a file, up to the limit of memory. A file without an end, such as a device, is not read for ever.
fn read(file: &Path) -> Result<Vec<u8>, Stop> {
    let mut bytes = Vec::new();
    let read = File::open(file)
        .and_then(|open| open.take(MEMORY_LIMIT as u64 + 1).read_to_end(&mut bytes));
    match read {
        Err(error) => Err(unreadable(file, error)),
        Ok(length) if length > MEMORY_LIMIT => {
            let fault = format!("it has more than {MEMORY_LIMIT} bytes");
            Err(unreadable(file, fault))
        }
        Ok(_) => Ok(bytes),
    }
}

fn unreadable(file: &Path, why: impl Display) -> Stop {
    Stop::Misuse(format!("{} cannot be read: {why}", file.display()))
}
