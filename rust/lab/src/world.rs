//! Guest memory, and the rings and readers on it by name. A command done gives an answer.

use crate::lines::Fault;
use crate::reports::{Doubt, Foreign, Reports};
use crate::script::{
    Command, Event, LinkedCall, MemoryCall, ReaderCall, RingCall, Source, TrbCall, ValueCall,
};
use crate::segments::of_table;
use crate::window::Window;
use lomvigast::event_ring::{EventReader, EventRing, RingState};
use lomvigast::linked_ring::{self, LinkedRing, Notes};
use lomvigast::trb::{
    self, Class, CommandTrbVariant, CompletionCode, EventTrb, LinkTrb, RawTrbBuffer,
    TransferTrbVariant, TrbDmaInfo,
};
use lomvigast::{GuestMemory, Refusal};
use std::collections::BTreeMap;

/// What came back from a command. `words` says it in words.
#[derive(Debug, Clone, PartialEq)]
pub enum Answer {
    /// A refusal, and the bytes that a parser gives back beside it.
    Refused(Refusal, Option<RawTrbBuffer>),
    /// New memory: where it begins, and its length.
    Memory(u64, usize),
    Poked(u64, usize),
    /// A part of memory: where it begins, and its bytes.
    Part(u64, Vec<u8>),
    /// A part of memory that was filled: where it begins, its length and the byte.
    Filled(u64, usize, u8),
    Inside(u64, u64, bool),
    Number(u64),
    Raw(u64, RawTrbBuffer),
    Written(u64),
    Code(CompletionCode),
    Class(u8, Class),
    Type(u8),
    CycleBit(bool),
    Link(LinkTrb),
    /// No Link, but a TRB of this type.
    NoLink(u8),
    /// No data, but a TRB of this type.
    NoData(u8),
    Command(u8, CommandTrbVariant),
    Transfer(u8, TransferTrbVariant),
    Event(u8, EventTrb),
    EventBytes(RawTrbBuffer),
    Place(LinkedRing),
    Chase(Chase),
    NotConfigured,
    Configured(RingState),
    State(RingState),
    Accepted(Accepted),
    Taken(u64, RawTrbBuffer),
    /// No event; the reader's slot, which is stale.
    None(u64),
    /// The same, where events may wait or be lost.
    NoneInDoubt(u64, Doubt),
}

/// What a chase came to, and where the ring stands after it.
#[derive(Debug, Clone, Copy, PartialEq)]
pub struct Chase {
    pub answer: linked_ring::Answer,
    pub notes: Notes,
    pub place: u64,
    pub cycle: bool,
}

/// Where an event was put, with which cycle bit, and where the ring stands after it.
#[derive(Debug, Clone, PartialEq)]
pub struct Accepted {
    pub slot: u64,
    pub cycle: bool,
    pub next: RingState,
    pub report: u64,
    /// Whose place the report was not.
    pub foreign: Option<Foreign>,
}

/// What a command stops with: a refusal of the core is an answer, a fault of the script is not.
enum Stop {
    Refusal(Refusal, Option<RawTrbBuffer>),
    /// A TRB of this type points at no data; also an answer, since the guest chose the type.
    NoData(u8),
    Fault(Fault),
}

impl From<Refusal> for Stop {
    fn from(refusal: Refusal) -> Self {
        Self::Refusal(refusal, None)
    }
}

impl From<trb::Unrecognized> for Stop {
    fn from(refused: trb::Unrecognized) -> Self {
        Self::Refusal(refused.refusal, Some(refused.buffer))
    }
}

#[derive(Default)]
pub struct World {
    window: Window,
    linked: BTreeMap<String, LinkedRing>,
    rings: BTreeMap<String, EventRing>,
    readers: BTreeMap<String, EventReader>,
    reports: Reports,
}

impl World {
    /// Does a command. A fault, such as a name that nothing has, leaves all as it was.
    pub fn execute(&mut self, command: &Command) -> Result<Answer, Fault> {
        let answer = match command {
            Command::Memory(call) => self.on_memory(call),
            Command::Value(call) => on_values(*call),
            Command::Linked(name, call) => self.on_linked(name, call),
            Command::Ring(name, call) => self.on_ring(name, call),
            Command::Reader(name, call) => self.on_reader(name, call),
            Command::Trb(call, source) => self.on_trb(*call, *source),
        };
        match answer {
            Ok(answer) => Ok(answer),
            Err(Stop::Refusal(refusal, bytes)) => Ok(Answer::Refused(refusal, bytes)),
            Err(Stop::NoData(trb_type)) => Ok(Answer::NoData(trb_type)),
            Err(Stop::Fault(fault)) => Err(fault),
        }
    }

    pub fn memory(&self) -> GuestMemory<'_> {
        self.window.lent()
    }

    /// All event rings by name.
    pub fn rings(&self) -> impl Iterator<Item = (&str, RingState)> {
        let rings = self.rings.iter();
        rings.map(|(name, ring)| (name.as_str(), ring.state()))
    }

    pub fn reader(&self, name: &str) -> Option<RingState> {
        self.readers.get(name).map(EventReader::state)
    }

    /// All readers by name.
    pub fn readers(&self) -> impl Iterator<Item = (&str, RingState)> {
        let readers = self.readers.iter();
        readers.map(|(name, reader)| (name.as_str(), reader.state()))
    }

    fn on_memory(&mut self, call: &MemoryCall) -> Result<Answer, Stop> {
        let memory = self.memory();
        Ok(match *call {
            MemoryCall::New(start, length) => {
                self.window = Window::zeroed(start, length).map_err(Stop::Fault)?;
                Answer::Memory(start, length)
            }
            MemoryCall::Poke(address, ref bytes) => {
                let part = self.window.part_mut(address, bytes.len() as u64)?;
                part.copy_from_slice(bytes);
                Answer::Poked(address, bytes.len())
            }
            MemoryCall::Peek(address, length) => {
                let part = self.window.part(address, length as u64)?;
                Answer::Part(address, part.to_vec())
            }
            MemoryCall::Inside(address, length) => {
                Answer::Inside(address, length, memory.inside(address, length))
            }
            MemoryCall::Read2(address) => Answer::Number(memory.read2(address)?.into()),
            MemoryCall::Read4(address) => Answer::Number(memory.read4(address)?.into()),
            MemoryCall::Read8(address) => Answer::Number(memory.read8(address)?),
            MemoryCall::ReadTrb(address) => Answer::Raw(address, memory.read_trb(address)?),
            MemoryCall::WriteTrb(address, trb) => {
                self.window.lent_mut().write_trb(address, &trb)?;
                Answer::Written(address)
            }
        })
    }

    fn on_trb(&mut self, call: TrbCall, source: Source) -> Result<Answer, Stop> {
        let trb = match source {
            Source::Given(trb) => trb,
            Source::At(address) => self.memory().read_trb(address)?,
        };
        let trb_type = trb::trb_type(&trb);
        Ok(match call {
            TrbCall::Type => Answer::Type(trb_type),
            TrbCall::CycleBit => Answer::CycleBit(trb::cycle_bit(&trb)),
            TrbCall::ParseLink => {
                LinkTrb::parse(trb).map_or(Answer::NoLink(trb_type), Answer::Link)
            }
            TrbCall::ParseCommand => match CommandTrbVariant::parse(trb) {
                CommandTrbVariant::Unrecognized(buffer, refusal) => {
                    Answer::Refused(refusal, Some(buffer))
                }
                command => Answer::Command(trb_type, command),
            },
            TrbCall::ParseTransfer => match TransferTrbVariant::parse(trb) {
                TransferTrbVariant::Unrecognized(buffer, refusal) => {
                    Answer::Refused(refusal, Some(buffer))
                }
                transfer => Answer::Transfer(trb_type, transfer),
            },
            TrbCall::ParseEvent => Answer::Event(trb_type, EventTrb::parse(trb)?),
            TrbCall::Data => {
                let info = dma_info(trb)?;
                let part = info.data(self.memory())?;
                Answer::Part(info.data_pointer(), part.to_vec())
            }
            TrbCall::DataMut(byte) => {
                let info = dma_info(trb)?;
                let mut memory = self.window.lent_mut();
                let part = info.data_mut(&mut memory)?;
                part.fill(byte);
                Answer::Filled(info.data_pointer(), part.len(), byte)
            }
        })
    }

    fn on_linked(&mut self, name: &str, call: &LinkedCall) -> Result<Answer, Stop> {
        let memory = self.window.lent();
        if let LinkedCall::New(place, cycle) = *call {
            let ring = LinkedRing::new(place, cycle);
            self.linked.insert(name.to_owned(), ring.clone());
            return Ok(Answer::Place(ring));
        }
        let ring = called(&mut self.linked, name, "linked", "new PLACE CYCLE")?;
        match *call {
            LinkedCall::NextTrb => return Ok(Answer::Chase(chase(ring, memory)?)),
            LinkedCall::Advance => ring.advance(),
            LinkedCall::SetPlace(place, cycle) => ring.set_dequeue_pointer(place, cycle),
            LinkedCall::Show | LinkedCall::New(..) => {}
        }
        Ok(Answer::Place(ring.clone()))
    }

    fn on_ring(&mut self, name: &str, call: &RingCall) -> Result<Answer, Stop> {
        let made = match *call {
            RingCall::New => Some(EventRing::new()),
            RingCall::FromState(state) => Some(EventRing::from(state)),
            _ => None,
        };
        if let Some(ring) = made {
            self.rings.insert(name.to_owned(), ring);
        }
        let ring = called(&mut self.rings, name, "ring", "new")?;
        let answer = match *call {
            RingCall::New => Answer::NotConfigured,
            RingCall::Reset => {
                ring.reset();
                Answer::NotConfigured
            }
            RingCall::Configure(table, entries) => {
                ring.configure(self.window.lent(), table, entries)?;
                Answer::Configured(ring.state())
            }
            RingCall::Add(report, event) => {
                let RingState { place, cycle, .. } = ring.state();
                let mut memory = self.window.lent_mut();
                ring.enqueue(&mut memory, &of_fields(event)?, report)?;
                self.reports.accepted(ring.state().table);
                return Ok(Answer::Accepted(Accepted {
                    slot: place,
                    cycle,
                    next: ring.state(),
                    report,
                    foreign: self.reports.reported(name, report),
                }));
            }
            RingCall::State => return Ok(Answer::State(ring.state())),
            RingCall::FromState(_) => Answer::State(ring.state()),
        };
        self.ring_begins(name, &answer);
        Ok(answer)
    }

    /// A ring was made, configured or reset: what was known of reports to it is over.
    fn ring_begins(&mut self, name: &str, answer: &Answer) {
        self.reports.forget_ring(name);
        let Some(ring) = self.rings.get(name).map(EventRing::state) else {
            return;
        };
        if ring.ready {
            let first = matches!(answer, Answer::Configured(_)).then_some(ring.place);
            self.reports.ring(name, first);
            if first.is_some() && self.all_zero(&ring) {
                self.reports.zeroed(ring.table);
            }
        }
        for (reader, state) in &self.readers {
            let state = state.state();
            if same_table(&ring, &state) {
                self.reports.reader(name, reader, state.place, false);
            }
        }
    }

    /// Whether the segments of a ring's table are all allowed, and zero.
    fn all_zero(&self, ring: &RingState) -> bool {
        let segments = of_table(self.memory(), ring.table, ring.entries);
        segments.iter().all(|segment| {
            let part = segment.map(|segment| self.window.part(segment.base, segment.length()));
            matches!(part, Some(Ok(part)) if part.iter().all(|byte| *byte == 0))
        })
    }

    /// The same for a reader.
    fn reader_begins(&mut self, name: &str, answer: &Answer) {
        let goes_on = matches!(answer, Answer::State(_));
        self.reports.forget_reader(name);
        let Some(reader) = self.reader(name) else {
            return;
        };
        if reader.ready {
            self.reports.begins(name, reader.table, goes_on);
        }
        for (ring, state) in &self.rings {
            if same_table(&state.state(), &reader) {
                self.reports.reader(ring, name, reader.place, goes_on);
            }
        }
    }

    fn on_reader(&mut self, name: &str, call: &ReaderCall) -> Result<Answer, Stop> {
        let memory = self.window.lent();
        let made = match *call {
            ReaderCall::New => Some(EventReader::new()),
            ReaderCall::FromState(state) => Some(EventReader::from(state)),
            _ => None,
        };
        if let Some(reader) = made {
            self.readers.insert(name.to_owned(), reader);
        }
        let reader = called(&mut self.readers, name, "reader", "new")?;
        let answer = match *call {
            ReaderCall::New => Answer::NotConfigured,
            ReaderCall::Reset => {
                reader.reset();
                Answer::NotConfigured
            }
            ReaderCall::Configure(table, entries) => {
                reader.configure(memory, table, entries)?;
                Answer::Configured(reader.state())
            }
            ReaderCall::Take => {
                let RingState { place, table, .. } = reader.state();
                let Some(trb) = reader.take(memory)? else {
                    let doubt = self.reports.doubt(name, table);
                    let in_doubt = |doubt| Answer::NoneInDoubt(place, doubt);
                    return Ok(doubt.map_or(Answer::None(place), in_doubt));
                };
                self.reports.took(name, table);
                self.reports.moved(name, reader.state().place);
                return Ok(Answer::Taken(place, trb));
            }
            ReaderCall::State => return Ok(Answer::State(reader.state())),
            ReaderCall::FromState(_) => Answer::State(reader.state()),
        };
        self.reader_begins(name, &answer);
        Ok(answer)
    }
}

/// Whether ring and reader are both configured, on the same table.
pub fn same_table(ring: &RingState, reader: &RingState) -> bool {
    let table = |state: &RingState| (state.table, state.entries);
    ring.ready && reader.ready && table(ring) == table(reader)
}

fn on_values(call: ValueCall) -> Result<Answer, Stop> {
    Ok(match call {
        ValueCall::CodeOf(byte) => Answer::Code(CompletionCode::try_from(byte)?),
        ValueCall::ClassOf(byte) => Answer::Class(byte, Class::of(byte)),
        ValueCall::EventBytes(cycle, event) => {
            Answer::EventBytes(of_fields(event)?.to_bytes(cycle)?)
        }
    })
}

/// Looks for the next TRB of a linked ring.
pub fn chase(ring: &mut LinkedRing, memory: GuestMemory<'_>) -> Result<Chase, Refusal> {
    let linked_ring::Chase { answer, notes } = ring.next_trb(memory);
    if let linked_ring::Answer::Refused(refusal) = answer {
        return Err(refusal);
    }
    let (place, cycle) = ring.get_dequeue_pointer();
    Ok(Chase {
        answer,
        notes,
        place,
        cycle,
    })
}

fn called<'a, T>(
    all: &'a mut BTreeMap<String, T>,
    name: &str,
    kind: &str,
    new: &str,
) -> Result<&'a mut T, Stop> {
    all.get_mut(name).ok_or_else(|| {
        Stop::Fault(format!(
            "there is no {kind} called {name}; it is made by: {kind} {name} {new}"
        ))
    })
}

/// The event of these fields, or refusal 12 for a code that is not listed.
fn of_fields(event: Event) -> Result<EventTrb, Refusal> {
    Ok(match event {
        Event::Transfer {
            pointer,
            length,
            code,
            flag,
            endpoint,
            slot,
        } => {
            let code = CompletionCode::try_from(code)?;
            EventTrb::new_transfer_event_trb(pointer, length, code, flag, endpoint, slot)
        }
        Event::Command {
            pointer,
            parameter,
            code,
            slot,
        } => {
            let code = CompletionCode::try_from(code)?;
            EventTrb::new_command_completion_event_trb(pointer, parameter, code, slot)
        }
        Event::Port(port) => EventTrb::new_port_status_change_event_trb(port),
    })
}

/// Where a TRB's data is, if it is of a type that has data.
fn dma_info(trb: RawTrbBuffer) -> Result<Box<dyn TrbDmaInfo>, Stop> {
    match TransferTrbVariant::parse(trb) {
        TransferTrbVariant::Normal(normal) => Ok(Box::new(normal)),
        TransferTrbVariant::DataStage(data) => Ok(Box::new(data)),
        TransferTrbVariant::Unrecognized(buffer, refusal) => {
            Err(Stop::Refusal(refusal, Some(buffer)))
        }
        _ => Err(Stop::NoData(trb::trb_type(&trb))),
    }
}
