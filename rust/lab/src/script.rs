//! A script's commands. A line is read wholly, or refused wholly, before anything of it is done.

use crate::lines::{quoted, Fault, Fields, Words};
use crate::window::has_addresses;
use lomvigast::event_ring::RingState;
use lomvigast::trb::RawTrbBuffer;

/// The longest memory, in bytes: 1 GiB.
pub const MEMORY_LIMIT: usize = 1 << 30;
/// The most bytes that one `peek` shows.
pub const PEEK_LIMIT: usize = 4096;

/// The form of each command, and what it does.
pub const FORMS: &[(&str, &str)] = &[
    (
        "memory LENGTH [at START]",
        "new guest memory, all 0, from address START on, or from 0 on",
    ),
    ("poke ADDRESS HEX", "puts bytes into memory"),
    ("peek ADDRESS LENGTH", "shows bytes of memory"),
    (
        "inside ADDRESS LENGTH",
        "whether all these bytes are in memory",
    ),
    ("read2 ADDRESS", "the little-endian number of two bytes"),
    ("read4 ADDRESS", "of four bytes"),
    ("read8 ADDRESS", "of eight bytes"),
    ("read_trb ADDRESS", "the sixteen bytes of a TRB"),
    (
        "write_trb ADDRESS HEX",
        "puts the sixteen bytes of a TRB into memory",
    ),
    ("code_of BYTE", "the completion code of a byte"),
    ("class_of BYTE", "the class of a completion code's byte"),
    ("trb_type TRB", "the type number"),
    ("cycle_bit TRB", "the cycle bit"),
    ("parse_link TRB", "the fields of a Link"),
    ("parse_command TRB", "the fields of a command"),
    ("parse_transfer TRB", "the fields of a transfer TRB"),
    ("parse_event TRB", "the fields of an event"),
    ("event_bytes CYCLE EVENT", "the bytes of an event"),
    (
        "data TRB",
        "the part of memory that a Normal or Data Stage TRB points at",
    ),
    ("data_mut BYTE TRB", "fills that part with a byte"),
    ("linked NAME new PLACE CYCLE", "a link-following reader"),
    (
        "linked NAME next_trb",
        "looks for a fresh TRB and follows links",
    ),
    ("linked NAME advance", "goes on by one TRB"),
    ("linked NAME set_place PLACE CYCLE", "puts it at a place"),
    ("linked NAME show", "its place and cycle state"),
    ("ring NAME new", "an event ring that is not configured"),
    ("ring NAME reset", "returns it to that"),
    (
        "ring NAME configure TABLE ENTRIES",
        "puts it at the first slot",
    ),
    (
        "ring NAME add REPORT EVENT",
        "adds an event; the driver's last report is REPORT",
    ),
    ("ring NAME state", "all that it holds"),
    (
        "ring NAME from_state FIELDS",
        "an event ring with these values; those left out are 0",
    ),
    ("reader NAME new", "a reader that is not configured"),
    ("reader NAME reset", "returns it to that"),
    (
        "reader NAME configure TABLE ENTRIES",
        "puts it at the first slot",
    ),
    ("reader NAME take", "takes the next event"),
    ("reader NAME state", "all that it holds"),
    (
        "reader NAME from_state FIELDS",
        "a reader with these values; those left out are 0",
    ),
];

#[derive(Debug, Clone, PartialEq)]
pub enum Command {
    Memory(MemoryCall),
    Value(ValueCall),
    Trb(TrbCall, Source),
    Linked(String, LinkedCall),
    Ring(String, RingCall),
    Reader(String, ReaderCall),
}

#[derive(Debug, Clone, PartialEq)]
pub enum MemoryCall {
    /// Where it begins, and its length.
    New(u64, usize),
    Poke(u64, Vec<u8>),
    Peek(u64, usize),
    Inside(u64, u64),
    Read2(u64),
    Read4(u64),
    Read8(u64),
    ReadTrb(u64),
    WriteTrb(u64, RawTrbBuffer),
}

/// What is asked of values alone.
#[derive(Debug, Clone, Copy, PartialEq)]
pub enum ValueCall {
    CodeOf(u8),
    ClassOf(u8),
    EventBytes(bool, Event),
}

/// What is asked of sixteen bytes.
#[derive(Debug, Clone, Copy, PartialEq)]
pub enum TrbCall {
    Type,
    CycleBit,
    ParseLink,
    ParseCommand,
    ParseTransfer,
    ParseEvent,
    Data,
    DataMut(u8),
}

/// Where the sixteen bytes are.
#[derive(Debug, Clone, Copy, PartialEq)]
pub enum Source {
    Given(RawTrbBuffer),
    At(u64),
}

#[derive(Debug, Clone, Copy, PartialEq)]
pub enum LinkedCall {
    New(u64, bool),
    NextTrb,
    Advance,
    SetPlace(u64, bool),
    Show,
}

#[derive(Debug, Clone, PartialEq)]
pub enum RingCall {
    New,
    Reset,
    Configure(u64, u16),
    Add(u64, Event),
    State,
    FromState(RingState),
}

#[derive(Debug, Clone, PartialEq)]
pub enum ReaderCall {
    New,
    Reset,
    Configure(u64, u16),
    Take,
    State,
    FromState(RingState),
}

/// An event by its fields. Its code is any byte: whether it is listed the core says.
#[derive(Debug, Clone, Copy, PartialEq)]
pub enum Event {
    Transfer {
        pointer: u64,
        length: u32,
        code: u8,
        flag: bool,
        endpoint: u8,
        slot: u8,
    },
    Command {
        pointer: u64,
        parameter: u32,
        code: u8,
        slot: u8,
    },
    Port(u8),
}

/// The command of a line, or `None` for a line without one.
pub fn parse(line: &str) -> Result<Option<Command>, Fault> {
    let mut words = Words::new(line);
    let Some(name) = words.optional() else {
        return Ok(None);
    };
    let command = command(name, &mut words).and_then(|command| {
        words.end()?;
        Ok(command)
    });
    match command {
        Ok(command) => Ok(Some(command)),
        Err(fault) => Err(with_form(line, fault)),
    }
}

/// The fault, and beside it the form of the command that was meant, if that is plain.
fn with_form(line: &str, fault: Fault) -> Fault {
    let mut words = Words::new(line);
    let (name, _, call) = (words.optional(), words.optional(), words.optional());
    let meant = |form: &str| {
        let mut form = form.split(' ');
        let same_name = form.next() == name;
        match form.next() {
            Some("NAME") => same_name && form.next() == call,
            _ => same_name,
        }
    };
    match FORMS.iter().find(|(form, _)| meant(form)) {
        Some((form, _)) => format!("{fault}; the form is: {form}"),
        None => fault,
    }
}

fn command(name: &str, words: &mut Words<'_>) -> Result<Command, Fault> {
    use MemoryCall as M;
    use ValueCall as V;
    Ok(match name {
        "memory" => Command::Memory(new_memory(words)?),
        "poke" => Command::Memory(M::Poke(words.number("ADDRESS")?, words.hex("HEX")?)),
        "peek" => {
            let address = words.number("ADDRESS")?;
            Command::Memory(M::Peek(address, limited(words, "LENGTH", PEEK_LIMIT)?))
        }
        "inside" => {
            let address = words.number("ADDRESS")?;
            Command::Memory(M::Inside(address, words.number("LENGTH")?))
        }
        "read2" => Command::Memory(M::Read2(words.number("ADDRESS")?)),
        "read4" => Command::Memory(M::Read4(words.number("ADDRESS")?)),
        "read8" => Command::Memory(M::Read8(words.number("ADDRESS")?)),
        "read_trb" => Command::Memory(M::ReadTrb(words.number("ADDRESS")?)),
        "write_trb" => Command::Memory(M::WriteTrb(words.number("ADDRESS")?, sixteen(words)?)),
        "code_of" => Command::Value(V::CodeOf(words.number("BYTE")?)),
        "class_of" => Command::Value(V::ClassOf(words.number("BYTE")?)),
        "event_bytes" => Command::Value(V::EventBytes(words.bit("CYCLE")?, event(words)?)),
        "linked" => Command::Linked(named(words)?, linked_call(words)?),
        "ring" => Command::Ring(named(words)?, ring_call(words)?),
        "reader" => Command::Reader(named(words)?, reader_call(words)?),
        _ => Command::Trb(trb_call(name, words)?, source(words)?),
    })
}

fn new_memory(words: &mut Words<'_>) -> Result<MemoryCall, Fault> {
    let length = limited(words, "LENGTH", MEMORY_LIMIT)?;
    let mut start = 0;
    if words.clone().optional().is_some() {
        words.exactly("at")?;
        start = words.number("START")?;
    }
    has_addresses(start, length)?;
    Ok(MemoryCall::New(start, length))
}

fn trb_call(name: &str, words: &mut Words<'_>) -> Result<TrbCall, Fault> {
    Ok(match name {
        "trb_type" => TrbCall::Type,
        "cycle_bit" => TrbCall::CycleBit,
        "parse_link" => TrbCall::ParseLink,
        "parse_command" => TrbCall::ParseCommand,
        "parse_transfer" => TrbCall::ParseTransfer,
        "parse_event" => TrbCall::ParseEvent,
        "data" => TrbCall::Data,
        "data_mut" => TrbCall::DataMut(words.number("BYTE")?),
        _ => {
            return Err(format!(
                "no command is called {} (`lomvigast run --help` lists them)",
                quoted(name)
            ))
        }
    })
}

fn linked_call(words: &mut Words<'_>) -> Result<LinkedCall, Fault> {
    Ok(match words.word("what to do with it")? {
        "new" => LinkedCall::New(words.number("PLACE")?, words.bit("CYCLE")?),
        "next_trb" => LinkedCall::NextTrb,
        "advance" => LinkedCall::Advance,
        "set_place" => LinkedCall::SetPlace(words.number("PLACE")?, words.bit("CYCLE")?),
        "show" => LinkedCall::Show,
        other => {
            return Err(format!(
                "a linked ring has new, next_trb, advance, set_place and show, but no {}",
                quoted(other)
            ))
        }
    })
}

fn ring_call(words: &mut Words<'_>) -> Result<RingCall, Fault> {
    Ok(match words.word("what to do with it")? {
        "new" => RingCall::New,
        "reset" => RingCall::Reset,
        "configure" => RingCall::Configure(words.number("TABLE")?, words.number("ENTRIES")?),
        "add" => RingCall::Add(words.number("REPORT")?, event(words)?),
        "state" => RingCall::State,
        "from_state" => RingCall::FromState(state(words)?),
        other => {
            return Err(format!(
                "an event ring has new, reset, configure, add, state and from_state, but no {}",
                quoted(other)
            ))
        }
    })
}

fn reader_call(words: &mut Words<'_>) -> Result<ReaderCall, Fault> {
    Ok(match words.word("what to do with it")? {
        "new" => ReaderCall::New,
        "reset" => ReaderCall::Reset,
        "configure" => ReaderCall::Configure(words.number("TABLE")?, words.number("ENTRIES")?),
        "take" => ReaderCall::Take,
        "state" => ReaderCall::State,
        "from_state" => ReaderCall::FromState(state(words)?),
        other => {
            return Err(format!(
                "a reader has new, reset, configure, take, state and from_state, but no {}",
                quoted(other)
            ))
        }
    })
}

fn limited(words: &mut Words<'_>, what: &str, limit: usize) -> Result<usize, Fault> {
    let value: u64 = words.number(what)?;
    match usize::try_from(value) {
        Ok(value) if value <= limit => Ok(value),
        _ => Err(format!("{what} is {value}, above the limit of {limit}")),
    }
}

/// A name of the user's choosing.
pub fn named(words: &mut Words<'_>) -> Result<String, Fault> {
    const LONGEST: usize = 40;
    let name = words.word("NAME")?;
    let plain = |c: char| c.is_ascii_alphanumeric() || "_-./".contains(c);
    if name.len() > LONGEST || !name.chars().all(plain) {
        return Err(format!(
            "NAME is {}, and must be up to {LONGEST} letters, digits or any of _-./",
            quoted(name)
        ));
    }
    Ok(name.to_owned())
}

fn sixteen(words: &mut Words<'_>) -> Result<RawTrbBuffer, Fault> {
    let bytes = words.hex("a TRB")?;
    bytes
        .try_into()
        .map_err(|bytes: Vec<u8>| format!("a TRB has 16 bytes, and here are {}", bytes.len()))
}

fn source(words: &mut Words<'_>) -> Result<Source, Fault> {
    let mut ahead = words.clone();
    if ahead.optional() == Some("at") {
        *words = ahead;
        return Ok(Source::At(words.number("ADDRESS")?));
    }
    Ok(Source::Given(sixteen(words)?))
}

fn event(words: &mut Words<'_>) -> Result<Event, Fault> {
    const SUCCESS: u8 = 1;
    let mut ahead = words.clone();
    let kind = ahead.word("EVENT")?;
    if matches!(kind, "transfer" | "command") {
        *words = ahead;
    }
    let mut fields = Fields::new(words)?;
    let event = match kind {
        "transfer" => Event::Transfer {
            pointer: fields.number("pointer", 0)?,
            length: fields.number("length", 0)?,
            code: fields.number("code", SUCCESS)?,
            flag: fields.bit("flag")?,
            endpoint: fields.number("endpoint", 0)?,
            slot: fields.number("slot", 0)?,
        },
        "command" => Event::Command {
            pointer: fields.number("pointer", 0)?,
            parameter: fields.number("parameter", 0)?,
            code: fields.number("code", SUCCESS)?,
            slot: fields.number("slot", 0)?,
        },
        _ if kind.starts_with("port=") => Event::Port(fields.number("port", 0)?),
        _ => {
            return Err(format!(
                "EVENT begins with transfer, command or port=, not with {}",
                quoted(kind)
            ))
        }
    };
    fields.end()?;
    Ok(event)
}

fn state(words: &mut Words<'_>) -> Result<RingState, Fault> {
    let mut fields = Fields::new(words)?;
    let mut state = RingState::default();
    state.ready = fields.bit("ready")?;
    state.table = fields.number("table", 0)?;
    state.entries = fields.number("entries", 0)?;
    state.index = fields.number("index", 0)?;
    state.place = fields.number("place", 0)?;
    state.remaining = fields.number("remaining", 0)?;
    state.cycle = fields.bit("cycle")?;
    fields.end()?;
    Ok(state)
}

#[cfg(test)]
mod tests {
    use super::*;

    fn fault(line: &str) -> Fault {
        parse(line).expect_err(line)
    }

    #[test]
    fn every_form_is_known() {
        for (form, _) in FORMS {
            if let Err(fault) = parse(form) {
                assert!(!fault.contains("no command"), "{form}: {fault}");
                assert!(fault.ends_with(&format!("the form is: {form}")), "{fault}");
            }
        }
    }

    #[test]
    fn lines_without_a_command() {
        for line in ["", "  \t", "# memory 4", "\r"] {
            assert_eq!(parse(line), Ok(None));
        }
    }

    #[test]
    fn an_event_by_its_fields() {
        let line =
            "event_bytes 1 transfer pointer=0x2010 length=5 code=13 flag=1 endpoint=3 slot=2";
        let event = Event::Transfer {
            pointer: 0x2010,
            length: 5,
            code: 13,
            flag: true,
            endpoint: 3,
            slot: 2,
        };
        let bytes = |cycle, event| Command::Value(ValueCall::EventBytes(cycle, event));
        assert_eq!(parse(line), Ok(Some(bytes(true, event))));
        let port = bytes(false, Event::Port(3));
        assert_eq!(parse("event_bytes 0 port=3"), Ok(Some(port)));
        assert!(fault("event_bytes 0 port=256").contains("2^8"));
        assert!(fault("event_bytes 0 port=1 slot=1").contains("slot"));
        assert!(fault("event_bytes 0 transfer code=256").contains("2^8"));
        assert!(fault("event_bytes 0 command length=1").contains("length"));
        assert!(fault("event_bytes 0 doorbell").contains("doorbell"));
    }

    #[test]
    fn what_cannot_be_read_says_why() {
        assert!(fault("memory 1073741825").contains("limit of 1073741824"));
        assert!(fault("memory 18446744073709551615").contains("limit"));
        assert!(fault("memory 4 at").contains("START is missing"));
        assert!(fault("memory 4 at -1").contains("START is \"-1\", which is no number"));
        assert!(fault("memory 4 at 0x10000000000000000")
            .contains("START is \"0x10000000000000000\", which is 2^64"));
        assert!(fault("memory 4 from 8").contains("\"from\" stands where at should"));
        assert!(fault("memory 4 at 8 9").contains("one word too many"));
        assert!(fault("memory 17 at 0xfffffffffffffff0").contains("would pass 2^64"));
        assert!(fault("peek 0 4097").contains("limit of 4096"));
        assert!(fault("poke 0 abc").contains("odd"));
        assert!(fault("read_trb 0 0").contains("one word too many"));
        assert!(fault("trb_type 00").contains("16 bytes, and here are 1"));
        assert!(fault("linked a dance").contains("dance"));
        assert!(fault("ring a take").contains("take"));
        assert!(fault("reader a! new").contains("letters"));
        assert!(fault("linked a new 0 2").contains("must be 0 or 1"));
        assert!(fault("fly").contains("no command is called \"fly\""));
    }
}
