//! A capture's rings, TRB by TRB, and which answer ended each.

use crate::capture::{Capture, Ring, Start};
use crate::json::Object;
use crate::output::{Output, Stop};
use crate::trbs::{self, Kind};
use crate::walk::{self, Ending, Found, Part, Reading, Stage};
use crate::words::{bytes, count, refused, Tone};
use lomvigast::trb::{cycle_bit, trb_type};

/// The most TRBs that are listed of a capture, where the user names no number.
pub const MOST: usize = 16_384;

/// Shows each ring of a capture, and of all rings together at most so many TRBs.
pub fn show(capture: &Capture, json: bool, most: usize, out: &mut Output<'_>) -> Result<(), Stop> {
    let mut left = most;
    for ring in &capture.rings {
        if !json {
            out.heading(head_words(ring))?;
        }
        for reading in walk::read(capture, ring, left) {
            left -= reading.trbs();
            let shown = Shown {
                capture,
                ring,
                reading: &reading,
                most,
            };
            match json {
                true => shown.objects(out)?,
                false => shown.lines(out)?,
            }
        }
    }
    Ok(())
}

fn head_words(ring: &Ring) -> String {
    let name = &ring.name;
    let kind = match ring.kind {
        Kind::Command => "command ",
        Kind::Transfer => "transfer ",
        Kind::Event => "event ",
        Kind::Any => "",
    };
    match ring.start {
        Start::Linked(first, _) => format!("{kind}ring {name}, first TRB at {first:#010x}"),
        Start::Table(table, entries) => {
            format!("{kind}ring {name}, table at {table:#010x} of size {entries}")
        }
    }
}

/// A reading of a ring, and what its words are made of.
struct Shown<'a> {
    capture: &'a Capture,
    ring: &'a Ring,
    reading: &'a Reading,
    most: usize,
}

impl Shown<'_> {
    fn lines(&self, out: &mut Output<'_>) -> Result<(), Stop> {
        if let Some((place, why)) = &self.reading.unseen {
            let why = unseen_words(why, self.most);
            let words = format!("  history NOT LOOKED AT from {place:#x} on: {why}");
            out.toned(Tone::Unknown, words)?;
        }
        for part in &self.reading.parts {
            out.heading(format!(" {}", self.part_words(part)))?;
            for found in &part.found {
                let (tone, words) = found_words(self.ring.kind, part.stage, found);
                out.toned(tone, format!("  {words}"))?;
            }
        }
        let words = self.end_words() + &self.counts() + &self.driver_words();
        Ok(out.toned(self.tone(), format!("  {words}"))?)
    }

    fn objects(&self, out: &mut Output<'_>) -> Result<(), Stop> {
        for part in &self.reading.parts {
            for found in &part.found {
                out.line(self.found_object(part.stage, found))?;
            }
        }
        Ok(out.line(self.end_object())?)
    }

    /// Where a part's reader began, and why there.
    fn part_words(&self, part: &Part) -> String {
        let (place, cycle) = (part.from.0, u8::from(part.from.1));
        let from = format!("{place:#010x} with cycle state {cycle}");
        match part.stage {
            Stage::Done => format!("history, from {from}"),
            Stage::Pending => format!("from the driver's dequeue place, {from}"),
            Stage::Beyond => format!("beyond the driver's own place, {from}: fresh, though the driver says that it has not written there"),
            Stage::Unknown if self.reading.supposed.is_some() => format!("if the cycle state is {cycle}, from {place:#010x}"),
            Stage::Unknown => format!("from {from}"),
        }
    }

    fn found_object(&self, stage: Stage, found: &Found) -> String {
        let object = Object::new()
            .text("ring", &self.ring.name)
            .address("address", found.address)
            .number("type", trb_type(&found.trb).into())
            .number("cycle", cycle_bit(&found.trb).into())
            .number("links", found.links.into())
            .text("state", stage_word(stage).unwrap_or("unknown"))
            .optional("if_cycle", self.reading.supposed.map(u64::from))
            .text("bytes", &bytes(&found.trb));
        match trbs::line(self.ring.kind, &found.trb) {
            Ok(line) => object.text("words", &line),
            Err(refusal) => object
                .number("refusal", refusal.number().into())
                .text("words", &refused(refusal)),
        }
        .line()
    }

    fn tone(&self) -> Tone {
        match self.reading.supposed {
            Some(_) => Tone::Unknown,
            None => self.reading.end.tone(),
        }
    }

    /// What ended the ring and why.
    fn end_words(&self) -> String {
        let words = ending_words(self.reading, self.most);
        let words = match self.stands_at_end() {
            Some(what) => format!("{words}; at {:#x} stands {what}", self.reading.at.0),
            None => words,
        };
        match self.reading.supposed {
            Some(cycle) => {
                let cycle = u8::from(cycle);
                format!("UNKNOWN, as nobody said the cycle state; if it is {cycle}: {words}")
            }
            None => words,
        }
    }

    /// What the reader stands at, if that is why it stopped: a Link, or an event that cannot be taken.
    fn stands_at_end(&self) -> Option<String> {
        let end = &self.reading.end;
        let stopped =
            matches!(end.tone(), Tone::GaveUp | Tone::Refused) || matches!(end, Ending::Missing(_));
        let (place, cycle) = self.reading.at;
        let looked = stopped && !self.reading.parts.is_empty();
        let trb = self.capture.memory().read_trb(place).ok();
        let trb = trb.filter(|_| looked)?;
        match self.ring.start {
            Start::Linked(..) if trb_type(&trb) == 6 => trbs::line(Kind::Any, &trb).ok(),
            Start::Table(..) if cycle_bit(&trb) == cycle => {
                Some("a fresh event that cannot be taken".to_owned())
            }
            _ => None,
        }
    }

    /// How many TRBs wait, and whether there may be more; `None` if nobody knows.
    fn pending(&self) -> Option<(usize, bool)> {
        let reading = self.reading;
        let mut parts = reading.parts.iter();
        let some = parts.any(|part| part.stage == Stage::Pending);
        // A linked ring was followed to where the driver writes.
        let all =
            reading.end.tone() == Tone::Nothing || matches!(self.ring.start, Start::Linked(..));
        some.then(|| (reading.of_stage(Stage::Pending), !all))
    }

    fn counts(&self) -> String {
        let trbs = count(self.reading.trbs(), "TRB");
        match self.pending() {
            Some((pending, false)) => format!("; {trbs}, {pending} pending"),
            Some((pending, true)) => format!("; {trbs}, {pending} or more pending"),
            None => format!("; {trbs}"),
        }
    }

    /// Where the driver says it stands.
    fn driver_words(&self) -> String {
        let Some(driver) = self.ring.driver else {
            return String::new();
        };
        let (place, cycle) = driver.place();
        match driver.place() == self.reading.at {
            true => "; the driver's own place is the same".to_owned(),
            false => format!(
                "; the driver's own place is {place:#x}, cycle state {}",
                u8::from(cycle)
            ),
        }
    }

    fn end_object(&self) -> String {
        let reading = self.reading;
        let (word, number) = ending_brief(&reading.end);
        let (end, then) = match reading.supposed {
            Some(_) => ("UNKNOWN", Some(word)),
            None => (word, None),
        };
        let mut object = Object::new()
            .text("ring", &self.ring.name)
            .text("end", end)
            .address("place", reading.at.0)
            .number("cycle", reading.at.1.into())
            .number("trbs", reading.trbs() as u64);
        if let Some((name, number)) = number {
            object = object.number(name, number);
        }
        if let Some(driver) = self.ring.driver {
            let (place, cycle) = driver.place();
            object = object
                .address("driver", place)
                .number("driver_cycle", cycle.into());
        }
        if let Some((pending, more)) = self.pending() {
            let name = if more { "pending_at_least" } else { "pending" };
            object = object.number(name, pending as u64);
        }
        if reading.unseen.is_some() {
            object = object.text("history", "NOT LOOKED AT");
        }
        if let Some(then) = then {
            object = object
                .optional("if_cycle", reading.supposed.map(u64::from))
                .text("then", then);
        }
        let words = self.end_words() + &self.driver_words();
        object.text("words", &words).line()
    }
}

fn found_words(kind: Kind, stage: Stage, found: &Found) -> (Tone, String) {
    let links = match found.links {
        0 => String::new(),
        links => format!(", {} followed", count(links.into(), "link")),
    };
    let (tone, line) = match trbs::line(kind, &found.trb) {
        Ok(line) => (Tone::Plain, line),
        Err(refusal) => {
            let raw = bytes(&found.trb);
            (Tone::Refused, format!("{}; bytes {raw}", refused(refusal)))
        }
    };
    let (address, number) = (found.address, trb_type(&found.trb));
    let cycle = u8::from(cycle_bit(&found.trb));
    let stage = stage_word(stage).map_or(String::new(), |word| format!(", {word}"));
    let words = format!("{address:#010x} {line} (type {number}, cycle {cycle}{links}{stage})");
    (tone, words)
}

fn stage_word(stage: Stage) -> Option<&'static str> {
    match stage {
        Stage::Done => Some("done"),
        Stage::Pending => Some("pending"),
        Stage::Beyond => Some("beyond"),
        Stage::Unknown => None,
    }
}

fn ending_words(reading: &Reading, most: usize) -> String {
    let (place, cycle) = (reading.at.0, u8::from(reading.at.1));
    let words = match &reading.end {
        Ending::Answer(answer) => return answer.to_string(),
        Ending::GoesRound => format!(
            "GOES ROUND: the reader is back at {place:#x} with cycle state {cycle} and would never end"
        ),
        Ending::Missing(at) => format!("UNKNOWN: what stands at {at:#x} is not in the image"),
        Ending::NoSlot(dequeue) => format!(
            "UNKNOWN: the driver's dequeue place, {dequeue:#x}, is no slot of this table, or one of two entries, so nobody knows which events wait; they were written up to {place:#x}"
        ),
        Ending::NoDriver => format!(
            "UNKNOWN: nobody said where the driver stands (--dequeue ADDRESS,CYCLE), so nobody knows which events wait; they were written up to {place:#x}"
        ),
        Ending::Blank => format!(
            "NOT LOOKED AT: at {place:#x} stands a TRB of zeros, which no driver writes, and nothing is listed from there on"
        ),
        Ending::Unmet(enqueue) => format!(
            "NOT LOOKED AT: the TRB at {place:#x} is stale (cycle state {cycle}), and what the driver wrote up to {enqueue:#x} was not come to"
        ),
        Ending::Cut => format!("NOT LOOKED AT: the ring goes on at {place:#x}, but {}", cut_words(most)),
        Ending::Reached => format!("at {place:#x}"),
    };
    words + " (this is not \"nothing new\")"
}

fn cut_words(most: usize) -> String {
    format!("no more than {} are listed (--most N)", count(most, "TRB"))
}

/// Why history was not come to.
fn unseen_words(why: &Ending, most: usize) -> String {
    match why {
        Ending::Answer(_) if why.tone() == Tone::Nothing => {
            "the TRB there is of another pass".to_owned()
        }
        Ending::Answer(answer) => answer.to_string(),
        Ending::GoesRound => "the ring goes round there".to_owned(),
        Ending::Missing(at) => format!("{at:#x} is not in the image"),
        Ending::Blank => "a TRB of zeros stands there".to_owned(),
        Ending::Cut => cut_words(most),
        Ending::Unmet(_) | Ending::NoSlot(_) | Ending::NoDriver | Ending::Reached => {
            "where the driver says it stands is not where the ring leads".to_owned()
        }
    }
}

/// The ending in a word, and its one number by name.
fn ending_brief(end: &Ending) -> (&'static str, Option<(&'static str, u64)>) {
    match end {
        // The slot of "none" is the place.
        Ending::Answer(answer) => {
            let (word, number) = answer.brief();
            (word, number.filter(|(name, _)| *name != "slot"))
        }
        Ending::GoesRound => ("GOES ROUND", None),
        Ending::Unmet(_) | Ending::Cut | Ending::Blank => ("NOT LOOKED AT", None),
        _ => ("UNKNOWN", None),
    }
}
