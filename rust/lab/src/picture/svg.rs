//! An event ring in SVG: a row of slots for each segment, and where ring, readers and report stand.

use super::cells::{cells, Cell};
use super::track::{readers, Tracked, Use};
use super::{MIB, RINGS};
use crate::segments::Segment;
use crate::words::{count, wrapped};
use crate::world::World;
use lomvigast::event_ring::RingState;
use lomvigast::trb::cycle_bit;
use lomvigast::GuestMemory;

/// An `svg` element and its size.
pub struct Picture {
    pub svg: String,
    pub width: u32,
    pub height: u32,
}

/// The cells of a line: a longer segment takes more lines, and a picture is never narrower than the fewest.
const COLUMNS: u32 = 16;
const FEWEST: u32 = 9;

// Sizes in SVG's units.
const LABEL: u32 = 140;
const CELL: u32 = 62;
const BOX: u32 = 44;
const LINE: u32 = 118;
const LEGEND: u32 = 58;

/// The edge of what is left out.
const DASHED: &str = "stroke-dasharray=\"5 3\"";

/// What is drawn of an entry of the table; an entry that is not allowed has no segment and no cell.
struct Row {
    segment: Option<Segment>,
    cells: Vec<Cell>,
}

/// What rows are drawn from.
struct Scene<'a> {
    ring: &'a RingState,
    tracked: &'a Tracked,
    readers: Vec<(&'a str, RingState)>,
    memory: GuestMemory<'a>,
}

/// The picture of a ring. `id` is for the names inside it.
pub fn ring(
    id: &str,
    name: &str,
    state: &RingState,
    tracked: Option<&Tracked>,
    world: &World,
) -> Picture {
    let title = format!("Event ring {name}");
    let Some(tracked) = tracked else {
        let words = ["Not configured.".to_owned()];
        return framed(id, &title, &words, width(FEWEST), |_| (String::new(), 0));
    };
    let scene = Scene {
        ring: state,
        tracked,
        readers: readers(tracked, world).collect(),
        memory: world.memory(),
    };
    let rows = scene.rows();
    let columns = rows.iter().map(|row| row.cells.len() as u32).max();
    let width = width(columns.unwrap_or(0).clamp(FEWEST, COLUMNS));
    framed(id, &title, &scene.words(), width, |top| {
        let (drawn, lines) = scene.drawn(&rows, top);
        let cut = rows.iter().any(|row| row.drawn() < row.size());
        let end = top + LINE * lines;
        (drawn + &legend(end, cut), LINE * lines + LEGEND)
    })
}

/// What stands in place of the rings from a number on.
pub fn cut(id: &str, names: &[&str], from: usize) -> Picture {
    let (all, not_drawn) = (names.len(), &names[from..]);
    let title = format!("CUT: {} of {all} event rings not drawn", not_drawn.len());
    let which = match not_drawn {
        [first, .., last] => format!("{first} to {last}, in the order of names"),
        _ => not_drawn.concat(),
    };
    let words = [
        format!("Not drawn: {which}."),
        format!("A picture has at most {RINGS} rings and {MIB} MiB."),
    ];
    let width = width(FEWEST);
    framed(id, &title, &words, width, |top| {
        let (width, height) = (width - 8, top - 8);
        let edge = format!(
            "<rect x=\"4\" y=\"4\" width=\"{width}\" height=\"{height}\" fill=\"none\" stroke=\"#222\" {DASHED}/>"
        );
        (edge, 0)
    })
}

fn width(columns: u32) -> u32 {
    LABEL + CELL * columns + 20
}

/// A picture with its head; `body` draws the rest from a height on, and says how high that is.
fn framed(
    id: &str,
    title: &str,
    words: &[String],
    width: u32,
    body: impl FnOnce(u32) -> (String, u32),
) -> Picture {
    const CHARACTER: u32 = 7;
    let (title, mut top) = (escaped(title), 30);
    let mut head = String::new();
    let fits = (width / CHARACTER) as usize;
    for line in words.iter().flat_map(|words| wrapped(words, fits)) {
        top += 18;
        let line = escaped(&line);
        head += &format!("<text x=\"10\" y=\"{top}\" font-size=\"13\">{line}</text>");
    }
    let (body, height) = body(top + 16);
    let (words, height) = (escaped(&words.join(" ")), top + 16 + height);
    let svg = format!(
        "<svg xmlns=\"http://www.w3.org/2000/svg\" viewBox=\"0 0 {width} {height}\" width=\"{width}\" height=\"{height}\" \
         role=\"img\" aria-labelledby=\"{id}t {id}d\" font-family=\"sans-serif\" font-size=\"12\" fill=\"#222\">\
         <title id=\"{id}t\">{title}</title><desc id=\"{id}d\">{words}</desc>\
         <rect width=\"{width}\" height=\"{height}\" fill=\"#fff\"/>\
         <text x=\"10\" y=\"24\" font-size=\"17\" font-weight=\"bold\">{title}</text>{head}{body}</svg>"
    );
    Picture { svg, width, height }
}

impl Scene<'_> {
    /// Where all stand, and how many slots are what.
    fn words(&self) -> [String; 2] {
        let at = |who: &str, s: &RingState| {
            let (place, cycle) = (self.place(s.place), u8::from(s.cycle));
            format!("{who} at {place}, cycle {cycle}")
        };
        let mut words = vec![at("Ring", self.ring)];
        let readers = self.readers.iter();
        words.extend(readers.map(|(name, reader)| at(&format!("reader {name}"), reader)));
        words.push(match self.tracked.report {
            Some(report) => format!("last report {}", self.place(report)),
            None => "no report yet".to_owned(),
        });
        let counts = self.tracked.counts(self.tracked.slots());
        let counted = counts.map(|(used, number)| format!("{number} {}", look(used).word));
        [
            format!("{}.", words.join("; ")),
            format!("Slots: {}.", counted.join(", ")),
        ]
    }

    /// A place in words. Where no slot stands no mark can be drawn, so that is said.
    fn place(&self, place: u64) -> String {
        let mut segments = self.tracked.segments.iter().flatten();
        match segments.any(|segment| segment.number(place).is_some()) {
            true => format!("{place:#x}"),
            false => format!("{place:#x} (no slot of this table)"),
        }
    }

    /// A row for each entry of the table.
    fn rows(&self) -> Vec<Row> {
        let marks = || {
            let readers = self.readers.iter().map(|(_, reader)| reader.place);
            let report = self.tracked.report;
            readers.chain([self.ring.place]).chain(report)
        };
        let row = |segment: &Option<Segment>| Row {
            segment: *segment,
            cells: segment.map_or(Vec::new(), |segment| cells(segment, marks())),
        };
        self.tracked.segments.iter().map(row).collect()
    }

    /// All rows from a height on, and how many lines they take.
    fn drawn(&self, rows: &[Row], top: u32) -> (String, u32) {
        let mut svg = String::new();
        let mut lines = 0;
        for (number, row) in rows.iter().enumerate() {
            let y = top + LINE * lines;
            svg += &row.label(number, y);
            for (n, cell) in (0..).zip(&row.cells) {
                let (x, y) = (LABEL + CELL * (n % COLUMNS), y + LINE * (n / COLUMNS));
                svg += &match *cell {
                    Cell::Slot(slot) => self.slot(slot, x, y),
                    Cell::Gap(gap) => self.gap(gap, x, y),
                };
            }
            lines += (row.cells.len() as u32).max(1).div_ceil(COLUMNS);
        }
        (svg, lines)
    }

    fn slot(&self, slot: u64, x: u32, y: u32) -> String {
        let Look {
            letter,
            colour,
            word,
        } = look(self.tracked.used(slot));
        let cycle = match self.memory.read_trb(slot) {
            Ok(trb) => u8::from(cycle_bit(&trb)).to_string(),
            Err(_) => "?".to_owned(),
        };
        let present = self.ring.place == slot;
        let (middle, edge) = (x + CELL / 2, if present { 3 } else { 1 });
        let (left, top, width) = (x + 2, y + 18, CELL - 4);
        let mut svg = format!(
            "<g><title>{slot:#x}: {word}, cycle bit {cycle}</title>\
             <rect x=\"{left}\" y=\"{top}\" width=\"{width}\" height=\"{BOX}\" rx=\"4\" fill=\"{colour}\" stroke=\"#222\" stroke-width=\"{edge}\"/>\
             <text x=\"{}\" y=\"{}\" font-size=\"21\" font-weight=\"bold\" text-anchor=\"middle\">{letter}</text>\
             <text x=\"{}\" y=\"{}\" text-anchor=\"end\">c{cycle}</text></g>",
            middle - 8,
            top + 29,
            left + width - 5,
            top + 29,
        );
        svg += &label(middle, y + 75, "#555", &end_of(slot));
        if present {
            svg += &label(middle, y + 13, "#a00", "\u{25bc} ring");
        }
        svg + &self.marks_below(slot, middle, y)
    }

    /// A dashed cell for slots that are left out: how many, and a line for each use that they are in.
    fn gap(&self, gap: Segment, x: u32, y: u32) -> String {
        let counts = self.tracked.counts(gap.slots());
        let counts = counts.into_iter().filter(|(_, number)| *number > 0);
        let counts: Vec<(Look, usize)> = counts.map(|(used, n)| (look(used), n)).collect();
        let words = counts.iter().map(|(look, n)| format!("{n} {}", look.word));
        let words = words.collect::<Vec<_>>().join(", ");
        let Segment { base, size } = gap;
        let (left, top, width) = (x + 2, y + 18, CELL - 4);
        let (middle, height) = (x + CELL / 2, 27 + 17 * counts.len());
        let mut svg = format!(
            "<g><title>\u{2026} {size} not drawn: {words} (from {base:#x} to {:#x})</title>\
             <rect x=\"{left}\" y=\"{top}\" width=\"{width}\" height=\"{height}\" rx=\"4\" fill=\"#fff\" stroke=\"#222\" {DASHED}/>\
             <text x=\"{middle}\" y=\"{}\" font-weight=\"bold\" text-anchor=\"middle\">\u{2026} {size}</text>",
            gap.slot(size - 1),
            top + 18,
        );
        for (top, (Look { letter, colour, .. }, number)) in (top + 25..).step_by(17).zip(counts) {
            let (left, width) = (left + 4, width - 8);
            svg += &format!(
                "<rect x=\"{left}\" y=\"{top}\" width=\"{width}\" height=\"15\" fill=\"{colour}\"/>"
            );
            svg += &label(middle, top + 12, "#222", &format!("{letter} {number}"));
        }
        svg + "</g>"
    }

    /// Readers and report below a slot, each in a line of its own.
    fn marks_below(&self, slot: u64, middle: u32, y: u32) -> String {
        let readers = self.readers.iter();
        let here = readers.filter(|(_, reader)| reader.place == slot);
        let names: Vec<&str> = here.map(|(name, _)| *name).collect();
        let mut marks = match names[..] {
            [] => vec![],
            [name] => vec![("#05a", format!("\u{25b2} {}", short(name)))],
            _ => vec![("#05a", format!("\u{25b2} {}", count(names.len(), "reader")))],
        };
        if self.tracked.report == Some(slot) {
            marks.push(("#063", "\u{25c6} report".to_owned()));
        }
        let lines = (0..).map(|n| y + 91 + 16 * n);
        let marks = lines.zip(&marks);
        marks
            .map(|(y, (colour, text))| label(middle, y, colour, text))
            .collect()
    }
}

impl Row {
    fn size(&self) -> usize {
        self.segment.map_or(0, |segment| segment.size as usize)
    }

    /// How many slots are drawn.
    fn drawn(&self) -> usize {
        let slots = self.cells.iter();
        slots.filter(|cell| matches!(cell, Cell::Slot(_))).count()
    }

    /// The words before the row, each in a line of its own.
    fn label(&self, number: usize, y: u32) -> String {
        let (size, drawn) = (self.size(), self.drawn());
        let mut words = match self.segment {
            None => vec!["not allowed".to_owned(), "(refusal 1 or 5)".to_owned()],
            Some(Segment { base, .. }) => vec![format!("{base:#x}"), count(size, "slot")],
        };
        if drawn < size {
            words.push(format!("{drawn} of {size} drawn"));
        }
        let mut y = y + 32;
        let mut svg =
            format!("<text x=\"10\" y=\"{y}\" font-weight=\"bold\">Entry {number}</text>");
        for words in words {
            y += 16;
            svg += &format!("<text x=\"10\" y=\"{y}\">{words}</text>");
        }
        svg
    }
}

/// Text in the middle of a cell, in smaller letters if it is too long for it.
fn label(x: u32, y: u32, colour: &str, text: &str) -> String {
    const FITS: usize = 8;
    let small = match text.chars().count() > FITS {
        true => " font-size=\"9\"",
        false => "",
    };
    format!(
        "<text x=\"{x}\" y=\"{y}\"{small} text-anchor=\"middle\" fill=\"{colour}\">{text}</text>"
    )
}

/// A slot's address, or as much of its end as fits under the slot, whose title has it whole.
fn end_of(address: u64) -> String {
    const FITS: usize = 10;
    let digits = format!("{address:#x}");
    match digits.len() > FITS {
        true => format!("\u{2026}{}", &digits[digits.len() - FITS + 1..]),
        false => digits,
    }
}

/// A name that fits under a slot. The words above the slots have it whole.
fn short(name: &str) -> String {
    const FITS: usize = 8;
    // Names are in ASCII.
    match name.get(..FITS) {
        Some(start) if name.len() > FITS => format!("{start}\u{2026}"),
        _ => name.to_owned(),
    }
}

/// How a slot's use looks: a letter as well as a colour.
struct Look {
    letter: char,
    colour: &'static str,
    word: &'static str,
}

fn look(used: Use) -> Look {
    let (letter, colour, word) = match used {
        Use::Free => ('F', "#f4f4f4", "free"),
        Use::Accepted => ('A', "#ffcf70", "accepted"),
        Use::Taken => ('T', "#9ccdf5", "taken"),
        Use::Reported => ('R', "#b5dfa9", "reported"),
    };
    Look {
        letter,
        colour,
        word,
    }
}

/// What letters and colours say; the dashed cell is told of where slots are left out.
fn legend(y: u32, cut: bool) -> String {
    let entries = [
        (Use::Free, "free: not used yet"),
        (Use::Accepted, "accepted, not taken"),
        (Use::Taken, "taken, not reported"),
        (Use::Reported, "reported: may be used again"),
    ];
    let place = |n: u32| (10 + 230 * (n % 3), y + 6 + 24 * (n / 3));
    let mut svg = String::new();
    for (n, (used, words)) in (0..).zip(entries) {
        let Look { letter, colour, .. } = look(used);
        let (x, y) = place(n);
        svg += &format!(
            "<rect x=\"{x}\" y=\"{y}\" width=\"18\" height=\"18\" rx=\"3\" fill=\"{colour}\" stroke=\"#222\"/>"
        );
        svg += &label(x + 9, y + 14, "#222", &letter.to_string());
        svg += &format!("<text x=\"{}\" y=\"{}\">{words}</text>", x + 26, y + 14);
    }
    let (x, y) = place(4);
    svg += &format!(
        "<text x=\"{x}\" y=\"{}\">c0, c1: the cycle bit in memory</text>",
        y + 14
    );
    if cut {
        let (x, y) = place(5);
        svg += &format!(
            "<rect x=\"{x}\" y=\"{y}\" width=\"18\" height=\"18\" rx=\"3\" fill=\"#fff\" stroke=\"#222\" {DASHED}/>\
             <text x=\"{}\" y=\"{}\">not drawn: how many are what</text>",
            x + 26,
            y + 14
        );
        svg += &label(x + 9, y + 14, "#222", "\u{2026}");
    }
    svg
}

/// The pictures below each other as one SVG.
pub fn document(pictures: &[Picture]) -> String {
    let width = pictures
        .iter()
        .map(|p| p.width)
        .max()
        .unwrap_or(width(FEWEST));
    let mut height = 0;
    let mut inner = String::new();
    for picture in pictures {
        inner += &format!("<g transform=\"translate(0 {height})\">{}</g>", picture.svg);
        height += picture.height;
    }
    if pictures.is_empty() {
        height = 40;
        inner = "<text x=\"10\" y=\"25\" font-family=\"sans-serif\">There is no event ring.</text>"
            .to_owned();
    }
    format!(
        "<svg xmlns=\"http://www.w3.org/2000/svg\" viewBox=\"0 0 {width} {height}\" width=\"{width}\" height=\"{height}\">{inner}</svg>"
    )
}

/// Text that may stand in SVG or HTML.
pub fn escaped(text: &str) -> String {
    let escape = |c| match c {
        '&' => "&amp;".to_owned(),
        '<' => "&lt;".to_owned(),
        '>' => "&gt;".to_owned(),
        '"' => "&quot;".to_owned(),
        // Not allowed in a page.
        c if c.is_control() => "\u{fffd}".to_owned(),
        c => c.to_string(),
    };
    text.chars().map(escape).collect()
}
