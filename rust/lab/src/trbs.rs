//! A TRB in one line, in the words of Linux's own decoder (debugfs of its xHCI driver) where that has words.
//!
//! The fields are those that the core's parsers answer. Linux also shows some that the core leaves alone (TD size,
//! interrupter, some flags); those are read from the bytes here.

use lomvigast::trb::{
    trb_type, CommandTrbVariant, CompletionCode, EventTrb, LinkTrb, RawTrbBuffer, SetupStageTrb,
    TransferTrbVariant, TrbDmaInfo,
};
use lomvigast::Refusal;

/// Which parser reads a ring's TRBs.
#[derive(Debug, Clone, Copy, PartialEq, Eq)]
pub enum Kind {
    Command,
    Transfer,
    Event,
    /// Unknown: the one that a TRB's type belongs to.
    Any,
}

/// The line for a TRB, or the parser's refusal.
pub fn line(kind: Kind, trb: &RawTrbBuffer) -> Result<String, Refusal> {
    match (kind, trb_type(trb)) {
        (Kind::Any, 6) => Ok(link(trb)),
        (Kind::Command, _) | (Kind::Any, 9..=23) => command(trb),
        (Kind::Event, _) | (Kind::Any, 32..=34) => event(trb),
        (Kind::Transfer | Kind::Any, _) => transfer(trb),
    }
}

fn link(trb: &RawTrbBuffer) -> String {
    let link = LinkTrb::parse(*trb).expect("type 6 is a Link");
    let flags = flags(&[
        ('i', link.interrupt_on_completion),
        ('c', set(trb, CHAIN)),
        ('t', link.toggle_cycle),
        ('c', set(trb, CYCLE)),
    ]);
    let (pointer, intr) = (link.ring_segment_pointer, interrupter(trb));
    format!("LINK {pointer:016x} intr {intr} type 'Link' flags {flags}")
}

fn command(trb: &RawTrbBuffer) -> Result<String, Refusal> {
    let (fields, flag) = command_fields(trb)?;
    let name = type_name(trb_type(trb));
    let cycle = ('c', set(trb, CYCLE));
    let flags = match flag {
        Some(flag) => flags(&[flag, cycle]),
        None => flags(&[cycle]),
    };
    Ok(format!("{name}: {fields}flags {flags}"))
}

/// A command's fields, and the flag that it has beside the cycle bit.
fn command_fields(trb: &RawTrbBuffer) -> Result<(String, Option<(char, bool)>), Refusal> {
    use CommandTrbVariant as C;
    Ok(match CommandTrbVariant::parse(*trb) {
        C::NoOp | C::EnableSlot => (String::new(), None),
        C::DisableSlot(c) => (slot(c.slot_id), None),
        C::AddressDevice(c) => (
            context(c.input_context_pointer, c.slot_id),
            Some(('b', c.block_set_address_request)),
        ),
        C::ConfigureEndpoint(c) => (
            context(c.input_context_pointer, c.slot_id),
            Some(('d', c.deconfigure)),
        ),
        C::EvaluateContext(c) => (context(c.input_context_pointer, c.slot_id), None),
        C::ResetEndpoint(c) => (
            context(qword(trb), c.slot_id) + &endpoint(c.endpoint_id),
            Some(('t', trb[13] & PRESERVE != 0)),
        ),
        C::StopEndpoint(c) => {
            let suspend = format!("sp {} ", trb[14] >> 7);
            (slot(c.slot_id) + &suspend + &endpoint(c.endpoint_id), None)
        }
        C::SetTrDequeuePointer(c) => {
            // Linux shows the bits below the pointer with it.
            let place = format!("deq {:016x} stream {} ", qword(trb), c.stream_id);
            (place + &slot(c.slot_id) + &endpoint(c.endpoint_id), None)
        }
        C::ResetDevice(c) => (slot(c.slot_id), None),
        C::ForceHeader => ("not taken apart, ".to_owned(), None),
        C::Unrecognized(_, refusal) => return Err(refusal),
    })
}

fn slot(slot: u8) -> String {
    format!("slot {slot} ")
}

fn endpoint(endpoint: u8) -> String {
    format!("ep {endpoint} ")
}

fn context(pointer: u64, slot: u8) -> String {
    format!("ctx {pointer:016x} slot {slot} ")
}

fn transfer(trb: &RawTrbBuffer) -> Result<String, Refusal> {
    use TransferTrbVariant as T;
    let bytes = Flags::of_bytes(trb);
    Ok(match TransferTrbVariant::parse(*trb) {
        T::Normal(t) => {
            let flags = Flags::of_data(&t, t.chain).letters(trb);
            buffer(trb, t.data_pointer, t.transfer_length, &flags)
        }
        T::DataStage(t) => {
            let flags = Flags::of_data(&t, t.chain).letters(trb);
            // Without the first, which this type does not have.
            buffer(trb, t.data_pointer, t.transfer_length, &flags[1..])
        }
        T::SetupStage(t) => setup(trb, &t),
        T::StatusStage(t) => {
            let flags = [
                ('i', t.interrupt_on_completion),
                ('c', t.chain),
                ('e', set(trb, EVALUATE_NEXT)),
                ('c', set(trb, CYCLE)),
            ];
            buffer(trb, qword(trb), length(trb), &flags)
        }
        T::Isoch => buffer(trb, qword(trb), length(trb), &bytes.letters(trb)),
        T::EventData(t) => {
            let flags = bytes.with(t.interrupt_on_completion, t.chain).letters(trb);
            buffer(trb, t.event_data, length(trb), &flags)
        }
        T::NoOp(t) => {
            let flags = bytes.with(t.interrupt_on_completion, t.chain).letters(trb);
            buffer(trb, qword(trb), length(trb), &flags)
        }
        T::Unrecognized(_, refusal) => return Err(refusal),
    })
}

/// Flags of a transfer TRB. The core answers those that it takes apart for a type.
struct Flags {
    immediate: bool,
    completion: bool,
    chain: bool,
    short: bool,
}

impl Flags {
    fn of_bytes(trb: &RawTrbBuffer) -> Self {
        Self {
            immediate: set(trb, IMMEDIATE),
            completion: set(trb, COMPLETION),
            chain: set(trb, CHAIN),
            short: set(trb, SHORT),
        }
    }

    fn of_data(trb: &dyn TrbDmaInfo, chain: bool) -> Self {
        Self {
            immediate: trb.has_immediate_data(),
            completion: trb.has_interrupt_on_completion(),
            chain,
            short: trb.has_interrupt_on_short(),
        }
    }

    fn with(self, completion: bool, chain: bool) -> Self {
        Self {
            completion,
            chain,
            ..self
        }
    }

    fn letters(&self, trb: &RawTrbBuffer) -> [(char, bool); 8] {
        [
            ('b', trb[13] & BLOCK != 0),
            ('i', self.immediate),
            ('i', self.completion),
            ('c', self.chain),
            ('s', set(trb, NO_SNOOP)),
            ('i', self.short),
            ('e', set(trb, EVALUATE_NEXT)),
            ('c', set(trb, CYCLE)),
        ]
    }
}

fn setup(trb: &RawTrbBuffer, t: &SetupStageTrb) -> String {
    let flags = [
        ('i', set(trb, IMMEDIATE)),
        ('i', t.interrupt_on_completion),
        ('c', set(trb, CYCLE)),
    ];
    format!(
        "bRequestType {:02x} bRequest {:02x} wValue {:04x} wIndex {:04x} wLength {} {}",
        t.request_type,
        t.request,
        t.value,
        t.index,
        t.length,
        tail(trb, length(trb), &flags)
    )
}

fn buffer(trb: &RawTrbBuffer, pointer: u64, length: u32, flags: &[(char, bool)]) -> String {
    format!("Buffer {pointer:016x} {}", tail(trb, length, flags))
}

fn tail(trb: &RawTrbBuffer, length: u32, letters: &[(char, bool)]) -> String {
    format!(
        "length {length} TD size {} intr {} type '{}' flags {}",
        dword_2(trb) >> 17 & 0x1f,
        interrupter(trb),
        type_name(trb_type(trb)),
        flags(letters)
    )
}

fn event(trb: &RawTrbBuffer) -> Result<String, Refusal> {
    let event = EventTrb::parse(*trb).map_err(|refused| refused.refusal)?;
    let (code, length, slot, endpoint, event_data) = match event {
        EventTrb::Transfer(e) => {
            let length = e.trb_transfer_length;
            (
                e.completion_code,
                length,
                e.slot_id,
                e.endpoint_id,
                e.event_data,
            )
        }
        EventTrb::CommandCompletion(e) => {
            let parameter = e.command_completion_parameter;
            (e.completion_code, parameter, e.slot_id, 0, false)
        }
        EventTrb::PortStatusChange(_) => (CompletionCode::Success, 0, 0, 0, false),
        // Its bytes, and no guess at its fields.
        _ => return Ok(format!("an event without words here yet, bytes {trb:02x?}")),
    };
    Ok(format!(
        "TRB {:016x} status '{}' len {length} slot {slot} ep {endpoint} type '{}' flags {}",
        qword(trb),
        code_name(code),
        type_name(trb_type(trb)),
        flags(&[('e', event_data), ('c', set(trb, CYCLE))])
    ))
}

// Bits of byte 12.
const CYCLE: u8 = 0x01;
const EVALUATE_NEXT: u8 = 0x02;
const SHORT: u8 = 0x04;
const NO_SNOOP: u8 = 0x08;
const CHAIN: u8 = 0x10;
const COMPLETION: u8 = 0x20;
const IMMEDIATE: u8 = 0x40;
// Bits of byte 13: of a transfer TRB block-event-interrupt, of Reset Endpoint transfer-state-preserve.
const BLOCK: u8 = 0x02;
const PRESERVE: u8 = 0x02;

fn set(trb: &RawTrbBuffer, bit: u8) -> bool {
    trb[12] & bit != 0
}

fn qword(trb: &RawTrbBuffer) -> u64 {
    trb[..8]
        .iter()
        .rev()
        .fold(0, |n, &byte| n << 8 | u64::from(byte))
}

fn dword_2(trb: &RawTrbBuffer) -> u32 {
    u32::from_le_bytes([trb[8], trb[9], trb[10], trb[11]])
}

/// The length of 17 bits.
fn length(trb: &RawTrbBuffer) -> u32 {
    dword_2(trb) & 0x1_ffff
}

fn interrupter(trb: &RawTrbBuffer) -> u32 {
    dword_2(trb) >> 22
}

/// Letters between colons, large where the flag is set.
fn flags(letters: &[(char, bool)]) -> String {
    let letter = |&(letter, set): &(char, bool)| match set {
        true => letter.to_ascii_uppercase().to_string(),
        false => letter.to_string(),
    };
    letters.iter().map(letter).collect::<Vec<_>>().join(":")
}

/// Linux's name of a type.
pub fn type_name(trb_type: u8) -> &'static str {
    match trb_type {
        1 => "Normal",
        2 => "Setup Stage",
        3 => "Data Stage",
        4 => "Status Stage",
        5 => "Isoch",
        6 => "Link",
        7 => "Event Data",
        8 => "No-Op",
        9 => "Enable Slot Command",
        10 => "Disable Slot Command",
        11 => "Address Device Command",
        12 => "Configure Endpoint Command",
        13 => "Evaluate Context Command",
        14 => "Reset Endpoint Command",
        15 => "Stop Ring Command",
        16 => "Set TR Dequeue Pointer Command",
        17 => "Reset Device Command",
        18 => "Force Event Command",
        19 => "Negotiate Bandwidth Command",
        20 => "Set Latency Tolerance Value Command",
        21 => "Get Port Bandwidth Command",
        22 => "Force Header Command",
        23 => "No-Op Command",
        32 => "Transfer Event",
        33 => "Command Completion Event",
        34 => "Port Status Change Event",
        _ => "unknown",
    }
}

/// A type's name and number.
pub fn type_words(trb_type: u8) -> String {
    format!("{} ({trb_type})", type_name(trb_type))
}

/// Linux's name of a completion code.
pub fn code_name(code: CompletionCode) -> &'static str {
    CODE_NAMES[usize::from(u8::from(code))]
}

/// By number; 30 is reserved.
const CODE_NAMES: [&str; 37] = [
    "Invalid",
    "Success",
    "Data Buffer Error",
    "Babble Detected",
    "USB Transaction Error",
    "TRB Error",
    "Stall Error",
    "Resource Error",
    "Bandwidth Error",
    "No Slots Available Error",
    "Invalid Stream Type Error",
    "Slot Not Enabled Error",
    "Endpoint Not Enabled Error",
    "Short Packet",
    "Ring Underrun",
    "Ring Overrun",
    "VF Event Ring Full Error",
    "Parameter Error",
    "Bandwidth Overrun Error",
    "Context State Error",
    "No Ping Response Error",
    "Event Ring Full Error",
    "Incompatible Device Error",
    "Missed Service Error",
    "Command Ring Stopped",
    "Command Aborted",
    "Stopped",
    "Stopped - Length Invalid",
    "Stopped - Short Packet",
    "Max Exit Latency Too Large Error",
    "",
    "Isoch Buffer Overrun",
    "Event Lost Error",
    "Undefined Error",
    "Invalid Stream ID Error",
    "Secondary Bandwidth Error",
    "Split Transaction Error",
];

#[cfg(test)]
mod tests {
    use super::*;

    #[test]
    fn a_name_is_that_of_its_code() {
        let letters = |name: &str| name.replace([' ', '-'], "").to_lowercase();
        let others: Vec<&str> = CompletionCode::ALL
            .into_iter()
            .filter(|code| letters(code_name(*code)) != format!("{code:?}").to_lowercase())
            .map(code_name)
            .collect();
        // Linux has two names that differ from xHCI's.
        assert_eq!(others, ["Babble Detected", "Stopped - Short Packet"]);
    }
}
