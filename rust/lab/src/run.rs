//! Scripts: one command a line, one answer line each.

use crate::json::Object;
use crate::output::{Output, Stop};
use crate::script::{self, Command};
use crate::world::{Answer, World};
use std::io::{BufRead, Read};

/// The longest line, in bytes: 1 MiB.
const LINE_LIMIT: u64 = 1 << 20;

/// A command that was done.
pub struct Step<'a> {
    /// The number of its line, from 1.
    pub number: u64,
    pub line: &'a str,
    pub command: &'a Command,
    pub answer: &'a Answer,
    /// All as it is after it.
    pub world: &'a World,
}

/// Does a script's commands one after another, and gives all as it is after the last. A line that cannot be read stops it,
/// with nothing of that line done.
pub fn each(
    input: &mut dyn BufRead,
    heed: &mut dyn FnMut(&Step<'_>) -> Result<(), Stop>,
) -> Result<World, Stop> {
    let mut world = World::default();
    let mut bytes = Vec::new();
    for number in 1.. {
        let misuse = |fault| Stop::Misuse(format!("line {number}: {fault}"));
        let Some(line) = next_line(input, &mut bytes).map_err(misuse)? else {
            break;
        };
        let Some(command) = script::parse(line).map_err(misuse)? else {
            continue;
        };
        let answer = &world.execute(&command).map_err(misuse)?;
        heed(&Step {
            number,
            line: line.trim(),
            command: &command,
            answer,
            world: &world,
        })?;
    }
    Ok(world)
}

/// The next line without its end, or `None` after the last.
fn next_line<'a>(
    input: &mut dyn BufRead,
    bytes: &'a mut Vec<u8>,
) -> Result<Option<&'a str>, String> {
    bytes.clear();
    let read = input.take(LINE_LIMIT + 1).read_until(b'\n', bytes);
    match read {
        Err(error) => return Err(format!("cannot be read: {error}")),
        Ok(0) => return Ok(None),
        Ok(length) if length as u64 > LINE_LIMIT => {
            return Err(format!("is longer than {LINE_LIMIT} bytes"))
        }
        Ok(_) => {}
    }
    let line = std::str::from_utf8(bytes).map_err(|_| "is not text in UTF-8".to_owned())?;
    Ok(Some(line.trim_end_matches(['\n', '\r'])))
}

/// Does a script and writes an answer line for each command.
pub fn run(input: &mut dyn BufRead, json: bool, out: &mut Output<'_>) -> Result<(), Stop> {
    each(input, &mut |step| {
        if json {
            out.line(object(step))?;
        } else {
            out.toned(step.answer.tone(), step.answer)?;
        }
        Ok(out.flush()?)
    })
    .map(drop)
}

fn object(step: &Step<'_>) -> String {
    let (word, number) = step.answer.brief();
    let object = Object::new()
        .number("line", step.number)
        .text("answer", word);
    let object = match number {
        Some((name, number)) => object.number(name, number),
        None => object,
    };
    let object = match step.answer.warning() {
        Some(warning) => object.text("warning", &warning),
        None => object,
    };
    object.text("words", &step.answer.to_string()).line()
}
