//! The port beside the words of document 01 and of R-5: rings and readers in any state, broken ones too, entries that are not
//! allowed, and several refusals at once, of which the first in document 01's order must be given; chases; and memory itself. All
//! of it in memory that begins at 0, and in windows that begin anywhere.

mod cases;
mod rules;
#[cfg(test)]
mod tests;

use crate::links;
use crate::random::Random;
use crate::tally::Tally;
use cases::{Begins, Case, Origin};
use lomvigast::event_ring::{EventReader, EventRing, RingState};
use lomvigast::linked_ring::LinkedRing;
use lomvigast::trb::{NormalTrb, RawTrbBuffer, TrbDmaInfo};
use lomvigast::{GuestMemory, GuestMemoryMut, Refusal};
use rules::{Met, Rules, Window, DOCUMENT_01};

/// How often each refusal was given, and how often another was met behind it.
#[derive(Default, Clone, Copy)]
struct Given {
    times: u64,
    before: [u64; 14],
}

/// One kind of call beside the rules.
pub struct Beside {
    pub tally: Tally,
    /// By the refusal's number; 0 is none.
    given: [Given; 14],
}

impl Beside {
    /// Of the kind's two names the second is for windows.
    fn new(names: [&'static str; 2], begins: Begins) -> Self {
        let [at_zero, anywhere] = names;
        let name = match begins {
            Begins::AtZero => at_zero,
            Begins::Anywhere => anywhere,
        };
        Self {
            tally: Tally::new(name),
            given: [Given::default(); 14],
        }
    }

    fn meet(&mut self, number: u8, met: &Met) {
        let given = &mut self.given[usize::from(number)];
        given.times += 1;
        for (times, met) in given.before.iter_mut().zip(met) {
            *times += u64::from(*met);
        }
    }

    pub fn join(&mut self, other: Self) {
        self.tally.join(other.tally);
        for (given, more) in self.given.iter_mut().zip(other.given) {
            given.times += more.times;
            for (times, more) in given.before.iter_mut().zip(more.before) {
                *times += more;
            }
        }
    }

    pub fn print(&self) {
        self.tally.print();
        for (number, given) in self.given.iter().enumerate() {
            let others = given.before.iter().enumerate();
            let before: String = others
                .filter(|(other, times)| *other != number && **times != 0)
                .map(|(other, times)| format!(", before {other} {times}"))
                .collect();
            if given.times != 0 && number != 0 {
                let times = given.times;
                println!("{:34} {times:>10} refused with {number}{before}", "");
            }
        }
    }
}

/// What document 01 says of a table in memory that begins at 0, for a ring that was never configured.
pub fn judged(bytes: &[u8], table: u64, entries: u16) -> u8 {
    let mut state = RingState::default();
    let window = Window { start: 0, bytes };
    let (number, _) = DOCUMENT_01.configure(window, &mut state, table, entries);
    number
}

fn lent(window: Window<'_>) -> GuestMemory<'_> {
    GuestMemory::at(window.start, window.bytes)
}

pub fn number_of(answer: Result<(), Refusal>) -> u8 {
    answer.map_or_else(Refusal::number, |()| 0)
}

fn configures(rules: &Rules, random: &mut Random, begins: Begins, count: u64) -> Beside {
    const NAMES: [&str; 2] = ["configure beside document 01", "configure at windows"];
    let mut beside = Beside::new(NAMES, begins);
    for _ in 0..count {
        let case = Case::any(random, begins);
        let (table, entries) = case.table(random);
        let mut state = case.state;
        let (number, met) = rules.configure(case.window(), &mut state, table, entries);
        let memory = lent(case.window());
        let mut ring = EventRing::from(case.state);
        let answer = number_of(ring.configure(memory, table, entries));
        let mut reader = EventReader::from(case.state);
        let read = number_of(reader.configure(memory, table, entries));
        let input = (&case, table, entries);
        let expected = (number, state);
        beside.tally.hold(&input, expected, (answer, ring.state()));
        beside.tally.hold(&input, expected, (read, reader.state()));
        beside.meet(number, &met);
    }
    beside
}

fn adds(rules: &Rules, random: &mut Random, begins: Begins, count: u64) -> Beside {
    const NAMES: [&str; 2] = ["adds beside document 01", "adds at windows"];
    let mut beside = Beside::new(NAMES, begins);
    for _ in 0..count {
        let case = Case::any(random, begins);
        let start = case.origin.start;
        let (mut expected, mut bytes) = (case.bytes.clone(), case.bytes.clone());
        let mut state = case.state;
        let (number, met) = rules.add(start, &mut expected, &mut state, &case.event, case.report);
        let mut ring = EventRing::from(case.state);
        let memory = &mut GuestMemoryMut::at(start, &mut bytes);
        let answer = number_of(ring.enqueue(memory, &case.event, case.report));
        let port = (answer, ring.state());
        beside.tally.hold(&case, (number, state), port);
        beside.tally.hold(&case, true, expected == bytes);
        beside.meet(number, &met);
    }
    beside
}

fn takes(rules: &Rules, random: &mut Random, begins: Begins, count: u64) -> Beside {
    const NAMES: [&str; 2] = ["takes beside document 01", "takes at windows"];
    let mut beside = Beside::new(NAMES, begins);
    for _ in 0..count {
        let case = Case::any(random, begins);
        let mut state = case.state;
        let (number, taken, met) = rules.take(case.window(), &mut state);
        let mut reader = EventReader::from(case.state);
        let answer = reader.take(lent(case.window()));
        let port = (number_of(answer.map(|_| ())), answer.ok().flatten());
        let expected = ((number, taken), state);
        beside.tally.hold(&case, expected, (port, reader.state()));
        beside.meet(number, &met);
    }
    beside
}

/// Small memories of Links and others, and one time in 64 a chain of 250 to 260 Links.
fn chases(rules: &Rules, random: &mut Random, begins: Begins, count: u64) -> Beside {
    const NAMES: [&str; 2] = ["chases beside document 01", "chases at windows"];
    let mut beside = Beside::new(NAMES, begins);
    for _ in 0..count {
        let (slots, cycle) = (random.between(1, 8), random.once_in(2));
        let (mut bytes, place): (Vec<u8>, u64) = if random.once_in(64) {
            let links = random.between(250, 260);
            links::chain(random, links, cycle)
        } else {
            let unaligned = random.below(16) * u64::from(random.once_in(8));
            let trbs = (0..slots).flat_map(|_| links::any(random, slots));
            (trbs.collect(), 16 * random.below(slots) + unaligned)
        };
        let Origin { addresses, start } = begins.origin(random, bytes.len());
        links::move_by(&mut bytes, addresses);
        let place = place.wrapping_add(addresses);
        let window = Window {
            start,
            bytes: &bytes,
        };
        let mut ring = LinkedRing::new(place, cycle);
        let chase = ring.next_trb(lent(window));
        let port = (chase, ring.get_dequeue_pointer());
        let expected = rules.chase(window, place, cycle);
        beside.tally.hold(&(window, place, cycle), expected, port);
    }
    beside
}

/// Numbers, TRBs and parts of memory round the edges of a window and of all addresses.
fn accesses(rules: &Rules, random: &mut Random, begins: Begins, count: u64) -> Beside {
    const NAMES: [&str; 2] = ["memory beside document 01", "memory at windows"];
    let mut beside = Beside::new(NAMES, begins);
    for _ in 0..count {
        let mut bytes: Vec<u8> = (0..random.below(40)).map(|_| random.byte()).collect();
        let start = begins.origin(random, bytes.len()).start;
        let end = start.wrapping_add(bytes.len() as u64);
        let near = random.pick(&[0, start, start, end, end]);
        let address = near.wrapping_add(random.below(40)).wrapping_sub(20);
        let few = random.below(20) as u32;
        let length = random.pick(&[few, few, 0, u32::MAX]);
        let input = (start, bytes.len(), address, length);
        let window = Window {
            start,
            bytes: &bytes,
        };
        let expected = Seen::by_rules(rules, window, address, length);
        let port = Seen::by_port(lent(window), address, length);
        beside.tally.hold(&input, expected, port);
        let mut written = bytes.clone();
        rules.write(start, &mut written, address);
        let answer = GuestMemoryMut::at(start, &mut bytes).write_trb(address, &rules::WRITTEN);
        let number = if expected.trb.is_none() { 1 } else { 0 };
        beside
            .tally
            .hold(&input, (number, written), (number_of(answer), bytes));
    }
    beside
}

/// What memory answers at an address; `None` for refusal 1.
#[derive(Debug, Clone, Copy, PartialEq)]
struct Seen {
    inside: bool,
    numbers: [Option<u64>; 3],
    trb: Option<RawTrbBuffer>,
    /// The very part that a TRB with this pointer and length points at.
    part: Option<(*const u8, usize)>,
}

impl Seen {
    fn by_rules(rules: &Rules, window: Window<'_>, address: u64, length: u32) -> Self {
        let part = |length| rules.part(window, address.into(), length);
        Self {
            inside: rules
                .offset(window, address.into(), length.into())
                .is_some(),
            numbers: [2, 4, 8].map(|width| part(width).map(rules::little)),
            trb: rules.trb_at(window, address),
            part: part(length as usize).map(|part| (part.as_ptr(), part.len())),
        }
    }

    fn by_port(memory: GuestMemory<'_>, address: u64, length: u32) -> Self {
        let trb = NormalTrb {
            data_pointer: address,
            transfer_length: length,
            interrupt_on_short: false,
            chain: false,
            interrupt_on_completion: false,
            immediate_data: false,
        };
        let numbers = [
            memory.read2(address).map(u64::from),
            memory.read4(address).map(u64::from),
            memory.read8(address),
        ];
        Self {
            inside: memory.inside(address, length.into()),
            numbers: numbers.map(unless_outside),
            trb: unless_outside(memory.read_trb(address)),
            part: unless_outside(trb.data(memory)).map(|part| (part.as_ptr(), part.len())),
        }
    }
}

fn unless_outside<T>(answer: Result<T, Refusal>) -> Option<T> {
    match answer {
        Ok(answer) => Some(answer),
        Err(Refusal::Outside) => None,
        Err(other) => panic!("refusal {other} is not of memory"),
    }
}

/// Each kind of call, an add so many times and the others less.
fn each(rules: &Rules, random: &mut Random, begins: Begins, count: u64) -> [Beside; 5] {
    [
        configures(rules, random, begins, count / 4),
        adds(rules, random, begins, count),
        takes(rules, random, begins, count / 2),
        chases(rules, random, begins, count / 2),
        accesses(rules, random, begins, count / 2),
    ]
}

/// In memory that begins at 0, and in windows.
pub fn any(random: &mut Random, count: u64) -> Vec<Beside> {
    let both = [Begins::AtZero, Begins::Anywhere];
    both.into_iter()
        .flat_map(|begins| each(&DOCUMENT_01, random, begins, count))
        .collect()
}
