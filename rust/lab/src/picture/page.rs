//! One page in HTML with a step for each command. It needs nothing but itself.

use super::svg::{escaped, Picture};
use super::{MIB, STEPS};
use crate::words::Tone;

const STYLE: &str = include_str!("page.css");
const SCRIPT: &str = include_str!("page.js");

/// A command, its answer, and the rings after it.
pub struct Frame {
    pub line: u64,
    pub command: String,
    pub answer: String,
    pub tone: Tone,
    pub pictures: Vec<Picture>,
}

/// The commands behind the last step: why they have none, and the lines of the first and the last of them.
struct Cut {
    why: String,
    first: u64,
    last: u64,
}

/// The steps so far. A page that is cut says so in a step of its own, which is the last.
#[derive(Default)]
pub struct Page {
    frames: Vec<Frame>,
    length: usize,
    cut: Option<Cut>,
}

impl Page {
    /// Heeds the command of a line. `draw` makes the step with this number, if there is room.
    pub fn step(&mut self, line: u64, draw: impl FnOnce(usize) -> Frame) {
        if let Some(cut) = &mut self.cut {
            cut.last = line;
        } else if self.frames.len() == STEPS {
            self.cut_at(line, format!("a page has at most {STEPS} steps"));
        } else {
            self.add(draw(self.frames.len()));
        }
    }

    fn add(&mut self, frame: Frame) {
        self.length += frame.length();
        if self.length > MIB << 20 {
            self.cut_at(frame.line, format!("a page has at most {MIB} MiB"));
        } else {
            self.frames.push(frame);
        }
    }

    fn cut_at(&mut self, line: u64, why: String) {
        self.cut = Some(Cut {
            why,
            first: line,
            last: line,
        });
    }

    pub fn html(&self) -> String {
        let cut = self.cut.iter();
        let mut contents: String = self.frames.iter().map(Frame::entry).collect();
        contents.extend(cut.clone().map(Cut::entry));
        let mut steps: String = self.frames.iter().map(Frame::section).collect();
        steps.extend(cut.map(Cut::section));
        if steps.is_empty() {
            steps = "<section><p>The script has no command.</p></section>".to_owned();
        }
        whole(&contents, &steps)
    }
}

fn whole(contents: &str, steps: &str) -> String {
    format!(
        "<!DOCTYPE html>\n<html lang=\"en\">\n<head>\n<meta charset=\"utf-8\">\n\
         <meta name=\"viewport\" content=\"width=device-width\">\n<title>Event rings, step by step</title>\n\
         <style>\n{STYLE}</style>\n</head>\n<body>\n<header>\n<h1>Event rings, step by step</h1>\n\
         <nav aria-label=\"Steps\"><button id=\"back\">\u{25c0} Back</button> \
         <button id=\"forward\">Forward \u{25b6}</button> <output id=\"where\"></output> \
         <small>or the arrow keys; Home and End</small></nav>\n</header>\n\
         <div id=\"columns\">\n<ol id=\"script\" aria-label=\"The script\">\n{contents}</ol>\n\
         <main>\n{steps}</main>\n</div>\n<script>\n{SCRIPT}</script>\n</body>\n</html>"
    )
}

impl Frame {
    fn length(&self) -> usize {
        let pictures: usize = self.pictures.iter().map(|picture| picture.svg.len()).sum();
        pictures + self.command.len() + self.answer.len()
    }

    fn entry(&self) -> String {
        entry(self.line, &self.command)
    }

    fn section(&self) -> String {
        let pictures = self.pictures.iter().map(|picture| picture.svg.as_str());
        let pictures = match self.pictures[..] {
            [] => "<p>No event ring yet.</p>".to_owned(),
            _ => pictures.collect::<Vec<_>>().join("\n"),
        };
        let head = format!("Line {}: <code>{}</code>", self.line, cut(&self.command));
        section(&head, self.tone, &self.answer, &pictures)
    }
}

impl Cut {
    /// As in "lines 501 to 730".
    fn lines(&self) -> String {
        match self {
            Self { first, last, .. } if first == last => format!("line {first}"),
            Self { first, last, .. } => format!("lines {first} to {last}"),
        }
    }

    fn words(&self) -> String {
        let done = match self.first == self.last {
            true => "was done and is not drawn",
            false => "were done and are not drawn",
        };
        format!("CUT: {}; {} {done}", self.why, self.lines())
    }

    fn entry(&self) -> String {
        entry(self.first, &self.words())
    }

    fn section(&self) -> String {
        let head = format!("Not drawn: {}", self.lines());
        let end = "<p><code>lomvigast picture --svg</code> draws the rings as they are after the last line.</p>";
        section(&head, Tone::Unknown, &self.words(), end)
    }
}

fn entry(line: u64, words: &str) -> String {
    let words = cut(words);
    format!("<li value=\"{line}\"><button>{words}</button></li>\n")
}

fn section(head: &str, tone: Tone, answer: &str, body: &str) -> String {
    let (class, answer) = (class(tone), cut(answer));
    format!(
        "<section>\n<h2>{head}</h2>\n<p class=\"answer {class}\">{answer}</p>\n{body}\n</section>\n"
    )
}

fn class(tone: Tone) -> &'static str {
    match tone {
        Tone::Plain => "plain",
        Tone::Found => "found",
        Tone::Nothing => "nothing",
        Tone::Refused => "refused",
        Tone::GaveUp => "gave-up",
        Tone::Unknown => "unknown",
    }
}

/// Text for the page, cut if it is long.
fn cut(text: &str) -> String {
    const SHOWN: usize = 300;
    match text.char_indices().nth(SHOWN) {
        None => escaped(text),
        Some((end, _)) => escaped(&text[..end]) + " \u{2026}",
    }
}
