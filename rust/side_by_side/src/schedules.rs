//! Demand 3 as it runs: the port's ring and reader in any order of adding, taking and reporting, beside a plain list.

use crate::inputs::{any_event, any_start, Table};
use crate::random::Random;
use crate::tally::Tally;
use lomvigast::event_ring::{EventReader, EventRing};
use lomvigast::trb::EventTrb;
use lomvigast::{GuestMemory, GuestMemoryMut, Refusal};

/// The list, with two counters.
struct List {
    accepted: Vec<EventTrb>,
    taken: usize,
    reported: usize,
    slots: usize,
}

impl List {
    fn add(&mut self, event: EventTrb) -> Result<(), Refusal> {
        if !fits(&event) {
            return Err(Refusal::Event);
        }
        if self.accepted.len() - self.reported == self.slots - 1 {
            return Err(Refusal::Full);
        }
        self.accepted.push(event);
        Ok(())
    }

    fn take(&mut self) -> Option<EventTrb> {
        let next = self.accepted.get(self.taken).copied();
        self.taken += usize::from(next.is_some());
        next
    }
}

/// Document 01's limits of an event that can be written.
pub fn fits(event: &EventTrb) -> bool {
    match event {
        EventTrb::Transfer(t) => t.trb_transfer_length < 1 << 24,
        EventTrb::CommandCompletion(t) => {
            t.command_trb_pointer % 16 == 0 && t.command_completion_parameter < 1 << 24
        }
        EventTrb::PortStatusChange(_) => true,
        other => panic!("no limits are known here of {other:?}"),
    }
}

/// Bytes behind the segments. Where these end at 2^64 they have no address.
const BEHIND: usize = 64;

/// A ring and its reader in one memory.
struct World {
    table: Table,
    bytes: Vec<u8>,
    ring: EventRing,
    reader: EventReader,
    report: u64,
    list: List,
}

impl World {
    /// Configured on a table whose segments are zero; the bytes behind them are anybody's. Memory begins where the table says.
    fn new(table: Table) -> Result<Self, Refusal> {
        let mut bytes = vec![0; table.length + BEHIND];
        table.write(&mut bytes);
        let memory = GuestMemory::at(table.start, &bytes);
        let (mut ring, mut reader) = (EventRing::new(), EventReader::new());
        ring.configure(memory, table.base, table.entries())?;
        reader.configure(memory, table.base, table.entries())?;
        let list = List {
            accepted: Vec::new(),
            taken: 0,
            reported: 0,
            slots: table.slots().len(),
        };
        Ok(Self {
            report: table.segments[0].0,
            table,
            bytes,
            ring,
            reader,
            list,
        })
    }

    fn step(&mut self, tally: &mut Tally, random: &mut Random, eager: u64) {
        match random.below(8 + eager) {
            0..2 => self.take(tally),
            2 => self.report(),
            3 => self.change_outside(random),
            4 if random.once_in(20) => self.drain(tally),
            _ => self.add(tally, any_event(random)),
        }
    }

    fn add(&mut self, tally: &mut Tally, event: EventTrb) {
        let mut memory = GuestMemoryMut::at(self.table.start, &mut self.bytes);
        let answer = self.ring.enqueue(&mut memory, &event, self.report);
        tally.hold(&(&self.table, event), self.list.add(event), answer);
    }

    /// What is taken is held as an event, and not as bytes.
    fn take(&mut self, tally: &mut Tally) {
        let memory = GuestMemory::at(self.table.start, &self.bytes);
        let taken = self.reader.take(memory);
        let event = taken.map(|bytes| bytes.map(EventTrb::parse));
        tally.hold(&self.table, Ok(self.list.take().map(Ok)), event);
    }

    fn report(&mut self) {
        self.report = self.reader.state().place;
        self.list.reported = self.list.taken;
    }

    fn change_outside(&mut self, random: &mut Random) {
        let at = self.table.length + random.below(BEHIND as u64) as usize;
        self.bytes[at] = random.byte();
    }

    /// All that was accepted is taken; then the two ends stand at one place with one cycle.
    fn drain(&mut self, tally: &mut Tally) {
        for _ in self.list.taken..=self.list.accepted.len() {
            self.take(tally);
        }
        tally.hold(&self.table, self.ring.state(), self.reader.state());
    }
}

pub fn any(random: &mut Random, worlds: u64, steps: u64) -> Tally {
    let mut tally = Tally::new("ring and reader beside a list");
    for _ in 0..worlds {
        let (most, longest) = random.pick(&[(3, 3), (16, 4), (2, 40)]);
        let mut table = Table::any(random, most, longest);
        if random.once_in(2) {
            tally.among("tables in windows that begin above 0");
            table = table.moved_to(any_start(random, table.length));
        }
        let eager = random.below(6);
        table.kinds().into_iter().for_each(|kind| tally.among(kind));
        match World::new(table.clone()) {
            Ok(mut world) => (0..steps).for_each(|_| world.step(&mut tally, random, eager)),
            Err(refusal) => tally.hold(&table, Ok(()), Err(refusal)),
        }
    }
    tally
}
