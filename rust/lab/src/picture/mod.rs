//! Pictures of event rings: after each command of a script, what has become of every slot.

mod cells;
mod page;
mod svg;
mod track;

use crate::output::{Output, Stop};
use crate::run::{self, Step};
use crate::world::World;
use page::{Frame, Page};
use std::io::BufRead;
use svg::Picture;
use track::Track;

/// The most steps of a page.
const STEPS: usize = 500;
/// The most rings of a picture.
const RINGS: usize = 64;
/// The largest page, and the largest picture, in MiB.
const MIB: usize = 64;

/// Does a script and writes a page with a step for each command, or only the pictures after the last one.
pub fn picture(input: &mut dyn BufRead, only_svg: bool, out: &mut Output<'_>) -> Result<(), Stop> {
    let text = match only_svg {
        true => last(input)?,
        false => steps(input)?,
    };
    Ok(out.line(text)?)
}

/// The pictures after the last command, drawn once.
fn last(input: &mut dyn BufRead) -> Result<String, Stop> {
    let mut track = Track::default();
    let world = run::each(input, &mut |step| {
        track.step(step);
        Ok(())
    })?;
    Ok(svg::document(&pictures(&track, &world, 0)))
}

/// The page. The script is done to its end where the page is cut, so that a line that cannot be read is told of.
fn steps(input: &mut dyn BufRead) -> Result<String, Stop> {
    let mut track = Track::default();
    let mut page = Page::default();
    run::each(input, &mut |step| {
        page.step(step.number, |number| {
            track.step(step);
            frame(&track, step, number)
        });
        Ok(())
    })?;
    Ok(page.html())
}

fn frame(track: &Track, step: &Step<'_>, number: usize) -> Frame {
    Frame {
        line: step.number,
        command: step.line.to_owned(),
        answer: step.answer.to_string(),
        tone: step.answer.tone(),
        pictures: pictures(track, step.world, number),
    }
}

/// A picture of each event ring, and one that says which rings have none, where they are too many; `number` makes the names
/// inside them differ from step to step.
fn pictures(track: &Track, world: &World, number: usize) -> Vec<Picture> {
    let rings: Vec<_> = world.rings().collect();
    let mut pictures = Vec::new();
    let mut room = MIB << 20;
    for (n, (name, state)) in rings.iter().enumerate() {
        let id = format!("s{number}r{n}");
        let picture = (n < RINGS).then(|| svg::ring(&id, name, state, track.ring(name), world));
        let Some(picture) = picture.filter(|picture| picture.svg.len() <= room) else {
            let names: Vec<&str> = rings.iter().map(|(name, _)| *name).collect();
            pictures.push(svg::cut(&id, &names, n));
            break;
        };
        room -= picture.svg.len();
        pictures.push(picture);
    }
    pictures
}
