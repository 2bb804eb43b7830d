//! The three things that students get wrong, each run on the core as a script.

mod books;
mod guest;
mod late;

use crate::output::{Output, Stop};
use crate::script;
use crate::words::{wrapped, Tone};
use crate::world::{Answer, World};

/// One thing done, and how to read what came back.
pub struct Scene {
    pub title: String,
    /// What is done, in words.
    pub done: String,
    /// The same as a script. Memory and rings are those that the scene before left.
    pub script: String,
    /// How to read the last answer.
    pub read: String,
    /// The same in few words.
    pub meaning: &'static str,
}

impl Scene {
    fn new(title: &str, done: &str, script: &str, read: &str, meaning: &'static str) -> Self {
        Self {
            title: title.to_owned(),
            done: done.to_owned(),
            script: script.to_owned(),
            read: read.to_owned(),
            meaning,
        }
    }
}

pub struct Lesson {
    pub title: &'static str,
    pub scenes: Vec<Scene>,
}

/// A lesson by its number, 1 to 3.
pub fn lesson(number: u8) -> Lesson {
    let (title, scenes) = match number {
        1 => ("a guest that cannot be trusted", guest::scenes()),
        2 => ("books that part", books::scenes()),
        _ => ("a late reader", late::scenes()),
    };
    Lesson { title, scenes }
}

/// A line of a scene's script and its answer.
pub struct Played {
    pub line: String,
    pub answer: Answer,
}

/// Does a scene's script.
pub fn play(scene: &Scene, world: &mut World) -> Result<Vec<Played>, Stop> {
    let step = |line: &str| {
        let fault = |fault| Stop::Misuse(format!("the lesson's line {line:?}: {fault}"));
        let command = script::parse(line).map_err(fault)?;
        let command = command.ok_or_else(|| fault("no command".to_owned()))?;
        let answer = world.execute(&command).map_err(fault)?;
        let line = line.to_owned();
        Ok(Played { line, answer })
    };
    scene.script.lines().map(step).collect()
}

/// Tells a lesson: each scene, then a line for each.
pub fn tell(number: u8, out: &mut Output<'_>) -> Result<(), Stop> {
    let lesson = lesson(number);
    let mut world = World::default();
    let mut summary = Vec::new();
    out.heading(format!("Lesson {number}: {}", lesson.title))?;
    for (n, scene) in (1..).zip(&lesson.scenes) {
        out.line("")?;
        out.heading(format!("{number}.{n} {}", scene.title))?;
        paragraph("Done", &scene.done, out)?;
        let played = play(scene, &mut world)?;
        transcript(&played, out)?;
        paragraph("Read it", &scene.read, out)?;
        if let Some(last) = played.last() {
            let line = format!(
                "{number}.{n:<3} {:22} {}",
                brief(&last.answer),
                scene.meaning
            );
            summary.push((last.answer.tone(), line));
        }
    }
    out.line("")?;
    out.heading(format!(
        "Lesson {number} in a line each: answer, number, meaning"
    ))?;
    for (tone, line) in summary {
        out.toned(tone, line)?;
    }
    Ok(out.line("")?)
}

/// An answer and its number, as in "refused 7" or "nothing new, links 1".
pub fn brief(answer: &Answer) -> String {
    match answer.brief() {
        (word, None) => word.to_owned(),
        (word, Some(("refusal", number))) => format!("{word} {number}"),
        (word, Some(("slot", place))) => format!("{word}, slot {place:#x}"),
        (word, Some((name, number))) => format!("{word}, {name} {number}"),
    }
}

/// The lines and their answers, the last one apart. Of many lines of one kind the middle is left out.
fn transcript(played: &[Played], out: &mut Output<'_>) -> Result<(), Stop> {
    const ENDS: usize = 2;
    let Some((last, before)) = played.split_last() else {
        return Ok(());
    };
    let of_chain = |n: usize| {
        before
            .get(n)
            .is_some_and(|p| p.line.starts_with("write_trb"))
    };
    let mut left_out = 0;
    for (n, Played { line, answer }) in before.iter().enumerate() {
        if n >= ENDS && (n - ENDS..=n + ENDS).all(of_chain) {
            left_out += 1;
            continue;
        }
        if left_out > 0 {
            // No command, so that a script made of the lines after `>` stops here and does not go on without them.
            out.line(format!("    > .. {left_out} more lines of this kind"))?;
            left_out = 0;
        }
        out.line(format!("    > {line}"))?;
        out.line(format!("      {answer}"))?;
    }
    out.line(format!("    > {}", last.line))?;
    let tone = match last.answer.tone() {
        Tone::Plain => Tone::Found,
        tone => tone,
    };
    Ok(out.toned(tone, format!("  Came back: {}", last.answer))?)
}

/// A paragraph behind a word, in lines of a terminal's width.
fn paragraph(head: &str, text: &str, out: &mut Output<'_>) -> Result<(), Stop> {
    const WIDTH: usize = 96;
    for (n, line) in wrapped(&format!("{head}: {text}"), WIDTH)
        .iter()
        .enumerate()
    {
        let indent = if n == 0 { "  " } else { "    " };
        out.line(format!("{indent}{line}"))?;
    }
    Ok(())
}
