//! An answer in words: first what it is, then its numbers. The sentences of refusals are the core's own.

use crate::reports::{Doubt, Foreign};
use crate::trbs::{code_name, type_name, type_words};
use crate::world::{Accepted, Answer, Chase};
use lomvigast::event_ring::RingState;
use lomvigast::linked_ring::{self, LinkedRing, Notes};
use lomvigast::trb::{
    trb_type, Class, CommandTrbVariant, EventTrb, LinkTrb, RawTrb, RawTrbBuffer,
    TransferTrbVariant, TrbDmaInfo,
};
use lomvigast::Refusal;
use std::fmt;

/// How an answer is to be taken; on a terminal, its colour.
#[derive(Debug, Clone, Copy, PartialEq, Eq)]
pub enum Tone {
    Plain,
    /// A TRB or an event is there.
    Found,
    /// There is nothing.
    Nothing,
    Refused,
    GaveUp,
    /// Nobody looked, or nobody knows.
    Unknown,
}

impl Answer {
    pub fn tone(&self) -> Tone {
        match self {
            Self::Refused(..) => Tone::Refused,
            Self::Chase(chase) => match chase.answer {
                linked_ring::Answer::Trb(_) => Tone::Found,
                linked_ring::Answer::NothingNew => Tone::Nothing,
                linked_ring::Answer::TooManyLinks => Tone::GaveUp,
                linked_ring::Answer::Refused(_) => Tone::Refused,
            },
            _ if self.warning().is_some() => Tone::Unknown,
            Self::Accepted(_) | Self::Taken(..) => Tone::Found,
            Self::None(_) => Tone::Nothing,
            _ => Tone::Plain,
        }
    }

    /// What is to be feared beside the answer.
    pub fn warning(&self) -> Option<String> {
        let why = match self {
            Self::Accepted(accepted) => {
                let who = foreign_words(accepted.foreign.as_ref()?);
                report_words(accepted.report, &who)
            }
            Self::NoneInDoubt(_, doubt) => doubt_words(doubt),
            _ => return None,
        };
        Some(format!("WARNING: {why}"))
    }

    /// The answer in a word, and its one number by name.
    pub fn brief(&self) -> (&'static str, Option<(&'static str, u64)>) {
        let (word, name, number) = match self {
            Self::Refused(refusal, _) => ("refused", "refusal", refusal.number().into()),
            Self::Chase(chase) => (chase_word(chase), "links", chase.notes.links.into()),
            Self::Number(value) => ("number", "value", *value),
            Self::Code(code) => ("code", "code", u8::from(*code).into()),
            Self::Type(n) => ("type", "type", u64::from(*n)),
            Self::NoLink(n) => ("no Link", "type", u64::from(*n)),
            Self::NoData(n) => ("no data", "type", u64::from(*n)),
            Self::Inside(_, _, inside) => ("inside", "inside", u64::from(*inside)),
            Self::CycleBit(cycle) => ("cycle bit", "cycle", u64::from(*cycle)),
            Self::Class(_, class) => ("class", "class", *class as u64),
            Self::Place(ring) => ("place", "cycle", ring.get_dequeue_pointer().1.into()),
            Self::State(state) => ("state", "ready", state.ready.into()),
            Self::Link(_) => ("read", "type", 6),
            Self::Command(n, _) | Self::Transfer(n, _) | Self::Event(n, _) => {
                ("read", "type", u64::from(*n))
            }
            Self::EventBytes(trb) => ("bytes", "type", trb_type(trb).into()),
            Self::Configured(state) => ("configured", "entry", state.index.into()),
            Self::Accepted(accepted) => ("accepted", "cycle", accepted.cycle.into()),
            Self::Taken(_, trb) => ("taken", "type", trb_type(trb).into()),
            Self::None(slot) => ("none", "slot", *slot),
            Self::NoneInDoubt(slot, _) => ("none in doubt", "slot", *slot),
            Self::NotConfigured => return ("not configured", None),
            _ => return ("done", None),
        };
        (word, Some((name, number)))
    }
}

fn chase_word(chase: &Chase) -> &'static str {
    match chase.answer {
        linked_ring::Answer::Trb(_) => "TRB",
        linked_ring::Answer::NothingNew => "nothing new",
        linked_ring::Answer::TooManyLinks => "GAVE UP",
        linked_ring::Answer::Refused(_) => "refused",
    }
}

impl fmt::Display for Answer {
    fn fmt(&self, f: &mut fmt::Formatter<'_>) -> fmt::Result {
        f.write_str(&match self {
            Self::Refused(refusal, None) => refused(*refusal),
            Self::Refused(refusal, Some(trb)) => refused(*refusal) + "; bytes " + &bytes(trb),
            Self::Memory(start, length) => memory_words(*start, *length),
            Self::Poked(at, length) => format!("poked: {} at {at:#x}", count(*length, "byte")),
            Self::Part(at, part) => part_words(*at, part),
            Self::Filled(at, length, byte) => filled_words(*at, *length, *byte),
            Self::Inside(at, length, inside) => inside_words(*at, *length, *inside),
            Self::Number(value) => format!("number: {value:#x} ({value})"),
            Self::Raw(at, trb) => format!("TRB at {at:#x}: {}", bytes(trb)),
            Self::Written(at) => format!("written: 16 bytes at {at:#x}"),
            Self::Code(code) => format!("code: {} ({})", code_name(*code), u8::from(*code)),
            Self::Class(byte, class) => format!("class of {byte}: {}", class_words(*class)),
            Self::Type(number) => format!("type: {}", type_words(*number)),
            Self::CycleBit(cycle) => format!("cycle bit: {}", u8::from(*cycle)),
            Self::Link(link) => link_words(link),
            Self::NoLink(number) => format!("no Link: the type is {}", type_words(*number)),
            Self::NoData(number) => format!(
                "no data: a Normal or a Data Stage TRB points at data, and this is of type {}",
                type_words(*number)
            ),
            Self::Command(n, command) => typed(*n, &command_fields(command)),
            Self::Transfer(n, transfer) => typed(*n, &transfer_fields(transfer)),
            Self::Event(n, event) => typed(*n, &event_fields(event)),
            Self::EventBytes(trb) => format!("bytes: {}", bytes(trb)),
            Self::Place(ring) => place_words(ring),
            Self::Chase(chase) => chase_words(chase),
            Self::NotConfigured => "not configured".to_owned(),
            Self::Configured(state) => configured_words(state),
            Self::State(state) => format!("state: {}", state_fields(state)),
            Self::Accepted(accepted) => accepted_words(accepted),
            Self::Taken(slot, trb) => format!("taken from {slot:#x}: {}", taken_words(trb)),
            Self::None(slot) => format!("none: the slot at {slot:#x} is stale"),
            Self::NoneInDoubt(slot, _) => {
                format!("none in doubt: the slot at {slot:#x} is stale")
            }
        })?;
        match self.warning() {
            Some(warning) => write!(f, "; {warning}"),
            None => Ok(()),
        }
    }
}

fn report_words(report: u64, who: &str) -> String {
    format!("{report:#x} was reported, where {who}: events that were not taken may be written over")
}

fn doubt_words(doubt: &Doubt) -> String {
    let (accepted, taken) = (count(doubt.accepted as usize, "event"), doubt.taken);
    let missed = format!("this reader has taken {taken} of {accepted} accepted on its table");
    let report = doubt
        .report
        .map(|report| report_words(report, "this reader had not stood since its last report"));
    match (report, doubt.taken < doubt.accepted) {
        (Some(report), true) => format!("{report}; {missed}"),
        (Some(report), false) => report,
        (None, _) => missed,
    }
}

fn foreign_words(foreign: &Foreign) -> String {
    match foreign {
        Foreign::NoReader => "no reader of this table has stood".to_owned(),
        Foreign::Readers(names) => match &names[..] {
            [name] => format!("reader {name} has not stood since its last report"),
            _ => {
                let names = names.join(", ");
                format!("readers {names} have not stood since their last reports")
            }
        },
    }
}

/// The number first, as in "refused 7: the ring is full ..".
pub fn refused(refusal: Refusal) -> String {
    let (number, sentence) = (refusal.number(), refusal.to_string());
    let end = format!(" (refusal {number})");
    let sentence = sentence.strip_suffix(&end).unwrap_or(&sentence);
    format!("refused {number}: {sentence}")
}

pub fn chase_words(chase: &Chase) -> String {
    let (place, notes) = (chase.place, notes_words(&chase.notes));
    let cycle = u8::from(chase.cycle);
    match chase.answer {
        linked_ring::Answer::Trb(RawTrb { address, buffer }) => format!(
            "TRB at {address:#x}: {}, bytes {} ({notes}, cycle state {cycle})",
            type_words(trb_type(&buffer)),
            bytes(&buffer)
        ),
        linked_ring::Answer::NothingNew => format!(
            "nothing new: the next TRB, at {place:#x}, is stale ({notes}, cycle state {cycle})"
        ),
        linked_ring::Answer::TooManyLinks => format!(
            "GAVE UP: {notes} and one more stands at {place:#x}, cycle state {cycle} (this is not \"nothing new\")"
        ),
        linked_ring::Answer::Refused(refusal) => refused(refusal),
    }
}

fn notes_words(notes: &Notes) -> String {
    let mut words = format!("{} followed", count(notes.links.into(), "link"));
    if notes.cleared {
        words += ", pointer bits cleared";
    }
    if notes.completion {
        words += ", completion bit met";
    }
    words
}

/// As in "1 link", "2 links".
pub fn count(number: usize, what: &str) -> String {
    match number {
        1 => format!("1 {what}"),
        _ => format!("{number} {what}s"),
    }
}

/// Text in lines of at most so many characters, where its words allow that.
pub fn wrapped(text: &str, width: usize) -> Vec<String> {
    let mut lines = vec![String::new()];
    for word in text.split_whitespace() {
        match lines.last_mut() {
            Some(line) if line.is_empty() => line.push_str(word),
            Some(line) if line.chars().count() + 1 + word.chars().count() <= width => {
                line.push(' ');
                line.push_str(word);
            }
            _ => lines.push(word.to_owned()),
        }
    }
    lines
}

/// Bytes in hex with blanks between them.
pub fn bytes(bytes: &[u8]) -> String {
    let hex: Vec<String> = bytes.iter().map(|byte| format!("{byte:02x}")).collect();
    hex.join(" ")
}

fn memory_words(start: u64, length: usize) -> String {
    let length = count(length, "byte");
    match start {
        0 => format!("memory: {length}, all 0"),
        _ => format!("memory: {length} from {start:#x} on, all 0"),
    }
}

fn part_words(at: u64, part: &[u8]) -> String {
    const SHOWN: usize = crate::script::PEEK_LIMIT;
    let head = format!("{} at {at:#x}", count(part.len(), "byte"));
    match part.len() {
        0 => head,
        length if length > SHOWN => {
            let more = length - SHOWN;
            format!("{head}: {} and {more} more", bytes(&part[..SHOWN]))
        }
        _ => format!("{head}: {}", bytes(part)),
    }
}

fn filled_words(at: u64, length: usize, byte: u8) -> String {
    let length = count(length, "byte");
    format!("filled: {length} at {at:#x} with {byte:#04x}")
}

fn inside_words(at: u64, length: u64, inside: bool) -> String {
    match inside {
        true => format!("yes: inside memory (from {at:#x} on, length {length})"),
        false => format!("no: not all inside memory (from {at:#x} on, length {length})"),
    }
}

fn place_words(ring: &LinkedRing) -> String {
    let (place, cycle) = ring.get_dequeue_pointer();
    format!("place {place:#x}, cycle state {}", u8::from(cycle))
}

fn class_words(class: Class) -> &'static str {
    match class {
        Class::Listed => "listed (one of the 36 codes)",
        Class::Reserved => "reserved (30, and 37 to 191)",
        Class::VendorError => "vendor error (192 to 223)",
        Class::VendorInfo => "vendor info (224 to 255)",
    }
}

fn link_words(link: &LinkTrb) -> String {
    format!(
        "Link: pointer={:#x} toggle={} completion={} cleared={}",
        link.ring_segment_pointer,
        u8::from(link.toggle_cycle),
        u8::from(link.interrupt_on_completion),
        u8::from(link.pointer_bits_cleared)
    )
}

fn typed(number: u8, fields: &str) -> String {
    let head = format!("{} (type {number})", type_name(number));
    match fields {
        "" => head,
        _ => format!("{head}: {fields}"),
    }
}

fn command_fields(command: &CommandTrbVariant) -> String {
    use CommandTrbVariant as C;
    match command {
        C::NoOp | C::EnableSlot | C::ForceHeader | C::Unrecognized(..) => String::new(),
        C::DisableSlot(c) => format!("slot={}", c.slot_id),
        C::AddressDevice(c) => format!(
            "pointer={:#x} block={} slot={}",
            c.input_context_pointer,
            u8::from(c.block_set_address_request),
            c.slot_id
        ),
        C::ConfigureEndpoint(c) => format!(
            "pointer={:#x} deconfigure={} slot={}",
            c.input_context_pointer,
            u8::from(c.deconfigure),
            c.slot_id
        ),
        C::EvaluateContext(c) => {
            format!("pointer={:#x} slot={}", c.input_context_pointer, c.slot_id)
        }
        C::ResetEndpoint(c) => format!("endpoint={} slot={}", c.endpoint_id, c.slot_id),
        C::StopEndpoint(c) => format!("endpoint={} slot={}", c.endpoint_id, c.slot_id),
        C::SetTrDequeuePointer(c) => format!(
            "pointer={:#x} cycle={} context_type={} stream={:#x} endpoint={} slot={}",
            c.dequeue_pointer,
            u8::from(c.dequeue_cycle_state),
            c.stream_context_type,
            c.stream_id,
            c.endpoint_id,
            c.slot_id
        ),
        C::ResetDevice(c) => format!("slot={}", c.slot_id),
    }
}

/// The fields of a TRB that points at data.
fn data_fields(trb: &dyn TrbDmaInfo, chain: bool) -> String {
    format!(
        "pointer={:#x} length={} short={} chain={} completion={} immediate={}",
        trb.data_pointer(),
        trb.transfer_length(),
        u8::from(trb.has_interrupt_on_short()),
        u8::from(chain),
        u8::from(trb.has_interrupt_on_completion()),
        u8::from(trb.has_immediate_data())
    )
}

fn transfer_fields(transfer: &TransferTrbVariant) -> String {
    use TransferTrbVariant as T;
    match transfer {
        T::Normal(t) => data_fields(t, t.chain),
        T::DataStage(t) => {
            let direction = u8::from(t.direction);
            format!("{} direction={direction}", data_fields(t, t.chain))
        }
        T::SetupStage(t) => format!(
            "request_type={:#x} request={:#x} value={:#x} index={:#x} length={} completion={}",
            t.request_type,
            t.request,
            t.value,
            t.index,
            t.length,
            u8::from(t.interrupt_on_completion)
        ),
        T::StatusStage(t) => format!(
            "chain={} completion={} direction={}",
            u8::from(t.chain),
            u8::from(t.interrupt_on_completion),
            u8::from(t.direction)
        ),
        T::EventData(t) => format!(
            "data={:#x} chain={} completion={}",
            t.event_data,
            u8::from(t.chain),
            u8::from(t.interrupt_on_completion)
        ),
        T::NoOp(t) => format!(
            "chain={} completion={}",
            u8::from(t.chain),
            u8::from(t.interrupt_on_completion)
        ),
        T::Isoch | T::Unrecognized(..) => String::new(),
    }
}

/// The fields as a script gives them.
fn event_fields(event: &EventTrb) -> String {
    match event {
        EventTrb::Transfer(e) => format!(
            "transfer pointer={:#x} length={} code={} flag={} endpoint={} slot={} ({})",
            e.trb_pointer,
            e.trb_transfer_length,
            u8::from(e.completion_code),
            u8::from(e.event_data),
            e.endpoint_id,
            e.slot_id,
            code_name(e.completion_code)
        ),
        EventTrb::CommandCompletion(e) => format!(
            "command pointer={:#x} parameter={} code={} slot={} ({})",
            e.command_trb_pointer,
            e.command_completion_parameter,
            u8::from(e.completion_code),
            e.slot_id,
            code_name(e.completion_code)
        ),
        EventTrb::PortStatusChange(e) => format!("port={}", e.port_id),
        _ => "an event without words here yet".to_owned(),
    }
}

fn taken_words(trb: &RawTrbBuffer) -> String {
    match EventTrb::parse(*trb) {
        Ok(event) => format!("{}, bytes {}", event_fields(&event), bytes(trb)),
        Err(why) => format!(
            "bytes {}, no event here: {}",
            bytes(trb),
            refused(why.refusal)
        ),
    }
}

fn configured_words(state: &RingState) -> String {
    format!(
        "configured: table {:#x} of size {}; at {:#x} in entry {}, {} left, cycle {}",
        state.table,
        state.entries,
        state.place,
        state.index,
        count(state.remaining as usize, "slot"),
        u8::from(state.cycle)
    )
}

/// The state as a script gives it.
fn state_fields(s: &RingState) -> String {
    format!(
        "ready={} table={:#x} entries={} index={} place={:#x} remaining={} cycle={}",
        u8::from(s.ready),
        s.table,
        s.entries,
        s.index,
        s.place,
        s.remaining,
        u8::from(s.cycle)
    )
}

fn accepted_words(accepted: &Accepted) -> String {
    format!(
        "accepted at {:#x} with cycle {}; the ring is now at {:#x} with cycle {}",
        accepted.slot,
        u8::from(accepted.cycle),
        accepted.next.place,
        u8::from(accepted.next.cycle)
    )
}
