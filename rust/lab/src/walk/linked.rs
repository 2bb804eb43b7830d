//! Command and transfer rings.

use super::{blank, past, Ending, Found, Part, Past, Reading, Stage, Way};
use crate::capture::{Capture, Driver, Place};
use crate::world::{chase, Answer};
use lomvigast::linked_ring::{self, LinkedRing};
use lomvigast::trb::{cycle_bit, LinkTrb};
use lomvigast::GuestMemory;
use std::collections::HashSet;

/// A ring whose driver told where it stands.
pub fn driven(capture: &Capture, first: u64, driver: Driver, most: usize) -> Reading {
    let mut walker = Walker::new(capture);
    let waiting = walker.follow(from(capture, driver), Some(driver.place()), most);
    if waiting.end != Ending::Reached {
        return unmet(waiting, driver);
    }
    let dequeue = waiting.from;
    let left = most - waiting.found.len();
    // The same walker, which knows where it has been.
    let beyond = walker.follow(driver.place(), None, left);
    let left = left - beyond.found.len();
    let (end, at) = (beyond.end.clone(), beyond.at);
    let last = end.is_stale().then_some(at);
    let past = past(first, last, dequeue, left, |from, most| {
        Walker::new(capture).follow(from, Some(dequeue), most)
    });
    let mut parts = vec![waiting.part(Stage::Pending)];
    if !beyond.found.is_empty() {
        parts.push(beyond.part(Stage::Beyond));
    }
    Reading::new(past, parts, end, at)
}

/// Where the reader goes on. The driver tells its cycle state where it writes, and a Link between may toggle it; but what waits
/// shows it in its cycle bit.
fn from(capture: &Capture, driver: Driver) -> Place {
    let waits = driver.dequeue != driver.place().0;
    let trb = capture.memory().read_trb(driver.dequeue).ok();
    let cycle = trb
        .filter(|_| waits)
        .map_or(driver.cycle, |trb| cycle_bit(&trb));
    (driver.dequeue, cycle)
}

/// The reader did not come to the place up to which the driver says it wrote, so nobody knows what waits, and in which pass.
fn unmet(way: Way, driver: Driver) -> Reading {
    let end = match way.end.is_stale() {
        true => Ending::Unmet(driver.place().0),
        false => way.end.clone(),
    };
    let (at, dequeue) = (way.at, driver.dequeue);
    let past = Past {
        parts: Vec::new(),
        unseen: Some((dequeue, end.clone())),
    };
    Reading::new(past, vec![way.part(Stage::Unknown)], end, at)
}

/// A ring of which the first TRB and the cycle state there are known, or supposed.
pub fn driverless(capture: &Capture, from: Place, most: usize) -> Reading {
    let way = Walker::new(capture).follow(from, None, most);
    let (end, at) = (way.end.clone(), way.at);
    let parts: Vec<Part> = vec![way.part(Stage::Unknown)];
    Reading::new(Past::default(), parts, end, at)
}

struct Walker<'a> {
    capture: &'a Capture,
    /// Where it has looked.
    looked_at: HashSet<Place>,
}

impl<'a> Walker<'a> {
    fn new(capture: &'a Capture) -> Self {
        let looked_at = HashSet::new();
        Self { capture, looked_at }
    }

    /// Follows a ring to its end or to a place.
    fn follow(&mut self, from: Place, until: Option<Place>, most: usize) -> Way {
        let mut ring = LinkedRing::new(from.0, from.1);
        let mut found = Vec::new();
        let end = loop {
            let places = match self.places(ring.get_dequeue_pointer()) {
                Ok(places) => places,
                Err(missing) => break Ending::Missing(missing),
            };
            if until.is_some_and(|until| places.contains(&until)) {
                break Ending::Reached;
            }
            let been_there = |last| self.looked_at.contains(last);
            let been_there = places.last().is_some_and(been_there);
            self.looked_at.extend(places);
            let trb = match next(&mut ring, self.capture.memory()) {
                Ok(trb) => trb,
                Err(end) => break end,
            };
            match () {
                () if been_there => break Ending::GoesRound,
                () if blank(&trb.trb) => break Ending::Blank,
                () if found.len() == most => break Ending::Cut,
                () => found.push(trb),
            }
            ring.advance();
        };
        let at = ring.get_dequeue_pointer();
        Way {
            from,
            found,
            end,
            at,
        }
    }

    /// The places that the core looks at from this one on: over each fresh Link to the next. `Err` has a byte that the image
    /// does not hold.
    fn places(&self, (mut place, mut cycle): Place) -> Result<Vec<Place>, u64> {
        const LINKS: usize = 256;
        let mut places = Vec::new();
        while places.len() <= LINKS {
            if let Some(missing) = self.capture.missing(place, 16) {
                return Err(missing);
            }
            places.push((place, cycle));
            let trb = self.capture.memory().read_trb(place).ok();
            let fresh = trb.filter(|trb| cycle_bit(trb) == cycle);
            let Some(link) = fresh.and_then(LinkTrb::parse) else {
                break;
            };
            place = link.ring_segment_pointer;
            cycle ^= link.toggle_cycle;
        }
        Ok(places)
    }
}

fn next(ring: &mut LinkedRing, memory: GuestMemory<'_>) -> Result<Found, Ending> {
    let chase =
        chase(ring, memory).map_err(|refusal| Ending::Answer(Answer::Refused(refusal, None)))?;
    match chase.answer {
        linked_ring::Answer::Trb(trb) => Ok(Found {
            address: trb.address,
            trb: trb.buffer,
            links: chase.notes.links,
        }),
        _ => Err(Ending::Answer(Answer::Chase(chase))),
    }
}
