//! The three parsers.

use super::{bytes, numbers, Sample};
use crate::random::Random;
use original::device::xhci::trb::{
    CommandTrbVariant, DataStageTrb, LinkTrb, NormalTrb, RawTrbBuffer,
    SetTrDequeuePointerCommandTrbData, SetupStageTrb, TransferTrbVariant, TrbParseError,
};

const LINK: u8 = 6;

pub fn record(sample: &mut Sample, random: &mut Random) {
    for trb in every_type(random)
        .chain(bits(9..=17))
        .chain(pointers(11..=13))
    {
        let trb = with_streams_alike(trb);
        sample.case('C', &bytes(&trb), &command(trb));
    }
    for trb in every_type(random).chain(bits(1..=8)).chain(lengths()) {
        sample.case('T', &bytes(&trb), &transfer(trb));
    }
    for trb in every_type(random)
        .chain(bits(LINK..=LINK))
        .chain(pointers(LINK..=LINK))
    {
        sample.case('L', &bytes(&trb), &link(trb));
    }
}

fn of_type(trb_type: u8, mut trb: RawTrbBuffer) -> RawTrbBuffer {
    trb[13] = trb_type << 2 | trb[13] & 3;
    trb
}

/// Each type with all other bits 0, with all 1, at random, and at random with an aligned pointer.
fn every_type(random: &mut Random) -> impl Iterator<Item = RawTrbBuffer> + '_ {
    (0..64).flat_map(|trb_type| {
        let mut aligned = random.trb();
        aligned[0] &= 0xf0;
        let rest = [[0; 16], [0xff; 16], random.trb(), aligned];
        rest.map(|trb| of_type(trb_type, trb))
    })
}

/// Each type of these with each single bit turned over, of its type too.
fn bits(types: std::ops::RangeInclusive<u8>) -> impl Iterator<Item = RawTrbBuffer> {
    types.flat_map(|trb_type| {
        (0..128).map(move |bit| {
            let mut trb = of_type(trb_type, [0; 16]);
            trb[bit / 8] ^= 1 << (bit % 8);
            trb
        })
    })
}

/// Each value of a pointer's low five bits.
fn pointers(types: std::ops::RangeInclusive<u8>) -> impl Iterator<Item = RawTrbBuffer> {
    types.flat_map(|trb_type| {
        (0..32).map(move |low| {
            let mut trb = of_type(trb_type, [0; 16]);
            trb[0] = low;
            trb[7] = 0x80;
            trb
        })
    })
}

/// The bounds of a length of 17 bits, with the bits above it 0 and 1.
fn lengths() -> impl Iterator<Item = RawTrbBuffer> {
    let bounds = [0u32, 1, 0xffff, 0x1_0000, 0x1_ffff];
    let with_rest = bounds.into_iter().flat_map(|n| [n, n | 0xfffe_0000]);
    with_rest.flat_map(|length| {
        [1, 3].map(|trb_type| {
            let mut trb = of_type(trb_type, [0; 16]);
            trb[8..12].copy_from_slice(&length.to_le_bytes());
            trb
        })
    })
}

/// Set TR Dequeue Pointer with bytes 10 to 12 alike and context type 0, where the original reads what xHCI says (docs/DIFFERENCES.md).
fn with_streams_alike(mut trb: RawTrbBuffer) -> RawTrbBuffer {
    if trb[13] >> 2 == 16 {
        trb[0] &= 0xf1;
        trb[11] = trb[10];
        trb[12] = trb[10];
    }
    trb
}

/// What a command shows; a field that it does not have is 0.
#[derive(Default)]
struct Command {
    trb_type: u8,
    pointer: u64,
    stream: u16,
    flag: bool,
    context_type: u8,
    endpoint: u8,
    slot: u8,
}

impl Command {
    fn plain(trb_type: u8, endpoint: u8, slot: u8) -> Self {
        Self {
            trb_type,
            endpoint,
            slot,
            ..Self::default()
        }
    }

    fn of_context(trb_type: u8, pointer: u64, flag: bool, slot: u8) -> Self {
        Self {
            pointer,
            flag,
            ..Self::plain(trb_type, 0, slot)
        }
    }

    fn of_dequeue(d: &SetTrDequeuePointerCommandTrbData) -> Self {
        Self {
            pointer: d.dequeue_pointer,
            stream: d.stream_id,
            flag: d.dequeue_cycle_state,
            context_type: d.stream_context_type,
            ..Self::plain(16, d.endpoint_id, d.slot_id)
        }
    }

    fn text(&self, refusal: u8) -> String {
        numbers([
            refusal.into(),
            self.trb_type.into(),
            self.pointer,
            self.stream.into(),
            self.flag.into(),
            self.context_type.into(),
            self.endpoint.into(),
            self.slot.into(),
        ])
    }
}

fn command(trb: RawTrbBuffer) -> String {
    use CommandTrbVariant as V;
    let command = match V::parse(trb) {
        V::NoOp => Command::plain(23, 0, 0),
        V::EnableSlot => Command::plain(9, 0, 0),
        V::DisableSlot(d) => Command::plain(10, 0, d.slot_id),
        V::AddressDevice(d) => {
            let flag = d.block_set_address_request;
            Command::of_context(11, d.input_context_pointer, flag, d.slot_id)
        }
        V::ConfigureEndpoint(d) => {
            Command::of_context(12, d.input_context_pointer, d.deconfigure, d.slot_id)
        }
        V::EvaluateContext(d) => Command::of_context(13, d.input_context_pointer, false, d.slot_id),
        V::ResetEndpoint(d) => Command::plain(14, d.endpoint_id, d.slot_id),
        V::StopEndpoint(d) => Command::plain(15, d.endpoint_id, d.slot_id),
        V::SetTrDequeuePointer(d) => Command::of_dequeue(&d),
        V::ResetDevice(d) => Command::plain(17, 0, d.slot_id),
        V::ForceHeader => Command::plain(22, 0, 0),
        V::Unrecognized(raw, error) => {
            let (number, trb_type) = refusal(&error);
            return Command::plain(trb_type, 0, 0).text(number) + &bytes(&raw);
        }
    };
    command.text(0) + &bytes(&[0; 16])
}

/// What a transfer TRB shows; a field that it does not have is 0.
#[derive(Default)]
struct Transfer {
    trb_type: u8,
    pointer: u64,
    length: u32,
    /// Setup's value and index, and its bytes 0 and 1.
    setup: (u16, u16, u8, u8),
    short: bool,
    chain: bool,
    completion: bool,
    immediate: bool,
    direction: bool,
}

impl Transfer {
    fn plain(trb_type: u8, chain: bool, completion: bool) -> Self {
        Self {
            trb_type,
            chain,
            completion,
            ..Self::default()
        }
    }

    fn of_normal(d: &NormalTrb) -> Self {
        Self {
            pointer: d.data_pointer,
            length: d.transfer_length,
            short: d.interrupt_on_short,
            immediate: d.immediate_data,
            ..Self::plain(1, d.chain, d.interrupt_on_completion)
        }
    }

    fn of_setup(d: &SetupStageTrb) -> Self {
        Self {
            length: d.length.into(),
            setup: (d.value, d.index, d.request_type, d.request),
            ..Self::plain(2, false, d.interrupt_on_completion)
        }
    }

    fn of_data(d: &DataStageTrb) -> Self {
        Self {
            pointer: d.data_pointer,
            length: d.transfer_length,
            short: d.interrupt_on_short,
            immediate: d.immediate_data,
            direction: d.direction,
            ..Self::plain(3, d.chain, d.interrupt_on_completion)
        }
    }

    fn text(&self, refusal: u8) -> String {
        let (value, index, request_type, request) = self.setup;
        numbers([
            refusal.into(),
            self.trb_type.into(),
            self.pointer,
            self.length.into(),
            value.into(),
            index.into(),
            request_type.into(),
            request.into(),
            self.short.into(),
            self.chain.into(),
            self.completion.into(),
            self.immediate.into(),
            self.direction.into(),
        ])
    }
}

fn transfer(trb: RawTrbBuffer) -> String {
    use TransferTrbVariant as V;
    let transfer = match V::parse(trb) {
        V::Normal(d) => Transfer::of_normal(&d),
        V::SetupStage(d) => Transfer::of_setup(&d),
        V::DataStage(d) => Transfer::of_data(&d),
        V::StatusStage(d) => Transfer {
            direction: d.direction,
            ..Transfer::plain(4, d.chain, d.interrupt_on_completion)
        },
        V::Isoch => Transfer::plain(5, false, false),
        V::EventData(d) => Transfer {
            pointer: d.event_data,
            ..Transfer::plain(7, d.chain, d.interrupt_on_completion)
        },
        V::NoOp(d) => Transfer::plain(8, d.chain, d.interrupt_on_completion),
        V::Unrecognized(raw, error) => {
            let (number, trb_type) = refusal(&error);
            return Transfer::plain(trb_type, false, false).text(number) + &bytes(&raw);
        }
    };
    transfer.text(0) + &bytes(&[0; 16])
}

/// Document 01's number, and the type beside it.
fn refusal(error: &TrbParseError) -> (u8, u8) {
    match *error {
        TrbParseError::UnsupportedOptionalCommand(trb_type, _) => (9, trb_type),
        TrbParseError::UnknownTrbType(trb_type) => (10, trb_type),
        TrbParseError::RsvdZViolation => (11, 0),
    }
}

fn link(trb: RawTrbBuffer) -> String {
    original::warnings();
    let Some(link) = LinkTrb::parse(trb) else {
        return numbers([0, 0, 0, 0, 0]);
    };
    let cleared = original::warnings().iter().any(|w| w.contains("RsvdZ"));
    numbers([
        1,
        link.ring_segment_pointer,
        cleared.into(),
        link.toggle_cycle.into(),
        link.interrupt_on_completion.into(),
    ])
}
