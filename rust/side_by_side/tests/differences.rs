//! docs/DIFFERENCES.md, row by row: the smallest input of each entry, on the port and, where it is at hand, on the original.

use lomvigast::event_ring::EventRing;
use lomvigast::linked_ring::{Answer, LinkedRing};
use lomvigast::trb::{
    CommandTrbVariant, CompletionCode, EventTrb, RawTrbBuffer, SetTrDequeuePointerCommandTrbData,
    TransferTrbVariant,
};
use lomvigast::{GuestMemory, GuestMemoryMut, Refusal};

/// What is run only where the original is at hand.
macro_rules! original {
    ($($what:tt)*) => {
        #[cfg(at_hand)]
        {
            $($what)*
        }
    };
}

#[cfg(at_hand)]
mod theirs {
    pub use original::device::bus::Memory;
    pub use original::device::xhci::event_ring::EventRing;
    pub use original::device::xhci::linked_ring::LinkedRing;
    pub use original::device::xhci::trb::{
        CommandTrbVariant, CompletionCode, EventTrb, LinkTrb, TransferTrbVariant, TrbParseError,
    };

    pub fn panics<T>(action: impl FnOnce() -> T) -> bool {
        std::panic::catch_unwind(std::panic::AssertUnwindSafe(action)).is_err()
    }

    pub fn configured(entries: &[(u64, u32)]) -> EventRing {
        let mut ring = EventRing::new(Memory::new(super::memory(entries)));
        ring.configure(super::TABLE, entries.len() as u16);
        ring
    }

    pub fn port(port_id: u8) -> EventTrb {
        EventTrb::new_port_status_change_event_trb(port_id)
    }
}

/// A TRB of a type, zero but for the bytes given by their places.
fn trb(trb_type: u8, bytes: &[(usize, u8)]) -> RawTrbBuffer {
    let mut raw = [0; 16];
    raw[13] = trb_type << 2;
    bytes.iter().for_each(|&(at, byte)| raw[at] = byte);
    raw
}

const TABLE: u64 = 0x40;

/// Memory of 512 bytes with a table, its entries given as base and size.
fn memory(entries: &[(u64, u32)]) -> Vec<u8> {
    let mut bytes = vec![0; 512];
    for (n, (base, size)) in entries.iter().enumerate() {
        let at = TABLE as usize + 16 * n;
        bytes[at..at + 8].copy_from_slice(&base.to_le_bytes());
        bytes[at + 8..at + 12].copy_from_slice(&size.to_le_bytes());
    }
    bytes
}

/// A ring of the port's on such a memory, or what refuses it.
fn configured(bytes: &[u8], entries: u16) -> Result<EventRing, Refusal> {
    let mut ring = EventRing::new();
    ring.configure(GuestMemory::new(bytes), TABLE, entries)?;
    Ok(ring)
}

fn add(
    ring: &mut EventRing,
    bytes: &mut [u8],
    event: EventTrb,
    report: u64,
) -> Result<(), Refusal> {
    ring.enqueue(&mut GuestMemoryMut::new(bytes), &event, report)
}

fn port(port_id: u8) -> EventTrb {
    EventTrb::new_port_status_change_event_trb(port_id)
}

fn set_dequeue_pointer(bytes: &[(usize, u8)]) -> SetTrDequeuePointerCommandTrbData {
    match CommandTrbVariant::parse(trb(16, bytes)) {
        CommandTrbVariant::SetTrDequeuePointer(data) => data,
        other => panic!("{other:?}"),
    }
}

#[test]
fn stream_id() {
    assert_eq!(set_dequeue_pointer(&[(10, 1)]).stream_id, 1);
    assert_eq!(set_dequeue_pointer(&[(11, 1)]).stream_id, 0x100);
    assert_eq!(set_dequeue_pointer(&[(12, 1)]).stream_id, 0);
    original! {
        let stream = |at| match theirs::CommandTrbVariant::parse(trb(16, &[(at, 1)])) {
            theirs::CommandTrbVariant::SetTrDequeuePointer(data) => data.stream_id,
            other => panic!("{other:?}"),
        };
        assert_eq!([10, 11, 12].map(stream), [0, 1, 0x100]);
    }
}

#[test]
fn stream_context_type() {
    assert_eq!(set_dequeue_pointer(&[(0, 2)]).stream_context_type, 1);
    original! {
        match theirs::CommandTrbVariant::parse(trb(16, &[(0, 2)])) {
            theirs::CommandTrbVariant::SetTrDequeuePointer(data) => assert_eq!(data.stream_context_type, 2),
            other => panic!("{other:?}"),
        }
    }
}

fn transfer_event(length: u32, endpoint_id: u8) -> Result<RawTrbBuffer, Refusal> {
    EventTrb::new_transfer_event_trb(0, length, CompletionCode::Success, false, endpoint_id, 0)
        .to_bytes(true)
}

#[cfg(at_hand)]
fn their_transfer_event(length: u32, endpoint_id: u8) -> RawTrbBuffer {
    let code = theirs::CompletionCode::Success;
    theirs::EventTrb::new_transfer_event_trb(0, length, code, false, endpoint_id, 0).to_bytes(true)
}

#[test]
fn long_length() {
    assert_eq!(transfer_event(0x100_0000, 0), Err(Refusal::Event));
    original! {
        assert_eq!(their_transfer_event(0x100_0000, 0), their_transfer_event(0, 0));
    }
}

#[test]
fn endpoint_id_of_a_whole_byte() {
    let byte = |endpoint_id| transfer_event(0, endpoint_id).map(|bytes| bytes[14]);
    assert_eq!(byte(32), Ok(32));
    original! {
        assert_eq!(their_transfer_event(0, 32)[14], 32);
    }
}

fn command_completion(pointer: u64, parameter: u32) -> Result<RawTrbBuffer, Refusal> {
    let code = CompletionCode::Success;
    EventTrb::new_command_completion_event_trb(pointer, parameter, code, 0).to_bytes(true)
}

#[cfg(at_hand)]
fn their_command_completion(pointer: u64, parameter: u32) -> RawTrbBuffer {
    let code = theirs::CompletionCode::Success;
    theirs::EventTrb::new_command_completion_event_trb(pointer, parameter, code, 0).to_bytes(true)
}

#[test]
fn command_pointer_with_low_bits() {
    assert_eq!(command_completion(1, 0), Err(Refusal::Event));
    assert!(command_completion(16, 0).is_ok());
    original! {
        assert!(theirs::panics(|| their_command_completion(1, 0)));
        assert_eq!(Ok(their_command_completion(16, 0)), command_completion(16, 0));
    }
}

#[test]
fn long_parameter() {
    assert_eq!(command_completion(0, 0x100_0000), Err(Refusal::Event));
    assert!(command_completion(0, 0xff_ffff).is_ok());
    original! {
        assert!(theirs::panics(|| their_command_completion(0, 0x100_0000)));
        assert_eq!(Ok(their_command_completion(0, 0xff_ffff)), command_completion(0, 0xff_ffff));
    }
}

#[test]
fn link_in_the_transfer_parser() {
    let raw = trb(6, &[]);
    let unknown = TransferTrbVariant::Unrecognized(raw, Refusal::Type(6));
    assert_eq!(TransferTrbVariant::parse(raw), unknown);
    original! {
        let error = theirs::TrbParseError::UnknownTrbType(6);
        let unknown = theirs::TransferTrbVariant::Unrecognized(raw, error);
        assert_eq!(theirs::TransferTrbVariant::parse(raw), unknown);
    }
}

#[test]
fn link_in_the_command_parser() {
    let raw = trb(6, &[]);
    let unknown = CommandTrbVariant::Unrecognized(raw, Refusal::Type(6));
    assert_eq!(CommandTrbVariant::parse(raw), unknown);
    // A Link and, where it leads, an Enable Slot.
    let bytes = [trb(6, &[(0, 0x10), (12, 1)]), trb(9, &[(12, 1)])].concat();
    let chase = LinkedRing::new(0, true).next_trb(GuestMemory::new(&bytes));
    let followed = matches!(chase.answer, Answer::Trb(trb) if trb.address == 0x10);
    assert!(followed, "{chase:?}");
    original! {
        let error = theirs::TrbParseError::UnknownTrbType(6);
        let unknown = theirs::CommandTrbVariant::Unrecognized(raw, error);
        assert_eq!(theirs::CommandTrbVariant::parse(raw), unknown);
        let mut ring = theirs::LinkedRing::new(theirs::Memory::new(bytes), 0, true);
        assert_eq!(ring.next_trb().map(|trb| trb.address), Some(0x10));
    }
}

#[test]
fn extended_property() {
    for trb_type in [24, 25] {
        let raw = trb(trb_type, &[]);
        let unknown = CommandTrbVariant::Unrecognized(raw, Refusal::Type(trb_type));
        assert_eq!(CommandTrbVariant::parse(raw), unknown);
        original! {
            let error = theirs::TrbParseError::UnknownTrbType(trb_type);
            let unknown = theirs::CommandTrbVariant::Unrecognized(raw, error);
            assert_eq!(theirs::CommandTrbVariant::parse(raw), unknown);
        }
    }
    let optional = CommandTrbVariant::Unrecognized(trb(18, &[]), Refusal::Optional(18));
    assert_eq!(CommandTrbVariant::parse(trb(18, &[])), optional);
}

#[test]
fn fields_that_are_not_read() {
    use lomvigast::trb::LinkTrb;
    for byte in [0x02, 0x40] {
        let (with, without) = (trb(1, &[(10, byte)]), trb(1, &[]));
        let parse = TransferTrbVariant::parse;
        assert_eq!(parse(with), parse(without));
        original! {
            let parse = theirs::TransferTrbVariant::parse;
            assert_eq!(parse(with), parse(without));
        }
    }
    let (suspend, stop) = (trb(15, &[(14, 0x80)]), trb(15, &[]));
    assert_eq!(
        CommandTrbVariant::parse(suspend),
        CommandTrbVariant::parse(stop)
    );
    let (chained, link) = (trb(6, &[(12, 0x10)]), trb(6, &[]));
    assert_eq!(LinkTrb::parse(chained), LinkTrb::parse(link));
    original! {
        let parse = theirs::CommandTrbVariant::parse;
        assert_eq!(parse(suspend), parse(stop));
        assert_eq!(theirs::LinkTrb::parse(chained), theirs::LinkTrb::parse(link));
    }
}

#[test]
fn not_taken_apart() {
    let full = |trb_type| trb(trb_type, &[(0, 0xff)]);
    let typed = trb(9, &[(14, 1)]);
    assert_eq!(
        TransferTrbVariant::parse(full(5)),
        TransferTrbVariant::Isoch
    );
    assert_eq!(
        CommandTrbVariant::parse(full(22)),
        CommandTrbVariant::ForceHeader
    );
    assert_eq!(
        CommandTrbVariant::parse(typed),
        CommandTrbVariant::EnableSlot
    );
    original! {
        use theirs::{CommandTrbVariant, TransferTrbVariant};
        assert_eq!(TransferTrbVariant::parse(full(5)), TransferTrbVariant::Isoch);
        assert_eq!(CommandTrbVariant::parse(full(22)), CommandTrbVariant::ForceHeader);
        assert_eq!(CommandTrbVariant::parse(typed), CommandTrbVariant::EnableSlot);
    }
}

#[test]
fn other_events() {
    let refused = |trb_type, code| {
        let bytes = trb(trb_type, &[(11, code)]);
        EventTrb::parse(bytes).map_err(|unrecognized| unrecognized.refusal)
    };
    assert_eq!(refused(35, 1), Err(Refusal::Type(35)));
    assert_eq!(refused(33, 192), Err(Refusal::Code));
    let with_vf_id = EventTrb::parse(trb(33, &[(11, 1), (14, 1)]));
    assert_eq!(with_vf_id.map_err(Refusal::from), Err(Refusal::Reserved));
    original! {
        // There is no fourth kind.
        match theirs::port(1) {
            theirs::EventTrb::Transfer(_)
            | theirs::EventTrb::CommandCompletion(_)
            | theirs::EventTrb::PortStatusChange(_) => {}
        }
    }
}

#[test]
fn short_segment() {
    let ring = configured(&memory(&[(0x100, 1)]), 1);
    assert_eq!(ring.map(|ring| ring.state().remaining), Ok(1));
    original! {
        assert_eq!(theirs::configured(&[(0x100, 1)]).state().remaining, 1);
    }
}

#[test]
fn size_of_four_bytes() {
    assert_eq!(
        configured(&memory(&[(0x100, 0x1_0001)]), 1),
        Err(Refusal::Segment)
    );
    original! {
        assert_eq!(theirs::configured(&[(0x100, 0x1_0001)]).state().remaining, 0x1_0001);
    }
}

#[test]
fn second_configure() -> Result<(), Refusal> {
    let entries = [(0x100, 1), (0x140, 1)];
    let mut bytes = memory(&entries);
    let mut ring = configured(&bytes, 2)?;
    add(&mut ring, &mut bytes, port(1), 0x100)?;
    assert_eq!(ring.state().index, 1);
    ring.configure(GuestMemory::new(&bytes), TABLE, 2)?;
    assert_eq!((ring.state().place, ring.state().index), (0x100, 0));
    original! {
        let mut ring = theirs::configured(&entries);
        ring.enqueue(&theirs::port(1), 2, TABLE, 0x100);
        ring.configure(TABLE, 2);
        assert_eq!((ring.state().place, ring.state().index), (0x100, 1));
    }
    Ok(())
}

#[test]
fn full_ring() -> Result<(), Refusal> {
    let entries = [(0x100, 2)];
    let mut bytes = memory(&entries);
    let mut ring = configured(&bytes, 1)?;
    assert_eq!(
        add(&mut ring, &mut bytes, port(1), 0x110),
        Err(Refusal::Full)
    );
    original! {
        let mut ring = theirs::configured(&entries);
        assert!(theirs::panics(|| ring.enqueue(&theirs::port(1), 1, TABLE, 0x110)));
    }
    Ok(())
}

#[test]
fn event_ring_full_error() -> Result<(), Refusal> {
    let entries = [(0x100, 2)];
    let mut bytes = memory(&entries);
    let before = bytes.clone();
    let mut ring = configured(&bytes, 1)?;
    let refused = add(&mut ring, &mut bytes, port(1), 0x110);
    assert_eq!((refused, bytes), (Err(Refusal::Full), before.clone()));
    let host_controller = EventTrb::parse(trb(37, &[(11, 21)]));
    assert_eq!(
        host_controller.map_err(Refusal::from),
        Err(Refusal::Type(37))
    );
    original! {
        let memory = theirs::Memory::new(before.clone());
        let mut ring = theirs::EventRing::new(memory.clone());
        ring.configure(TABLE, 1);
        theirs::panics(|| ring.enqueue(&theirs::port(1), 1, TABLE, 0x110));
        assert!(memory.holds(&before));
    }
    Ok(())
}

#[test]
fn empty_segment() {
    assert_eq!(configured(&memory(&[(0x100, 0)]), 1), Err(Refusal::Segment));
    original! {
        let mut ring = theirs::configured(&[(0x100, 0)]);
        // With checks of overflow the original stops, without them it counts on from 2^32.
        let stopped = theirs::panics(|| ring.enqueue(&theirs::port(1), 1, TABLE, 0x100));
        assert!(stopped || ring.state().remaining == u32::MAX);
    }
}

#[test]
fn slot_over_the_next_entry() -> Result<(), Refusal> {
    let entries = [(TABLE, 2), (0x100, 1)];
    let mut bytes = memory(&entries);
    let mut ring = configured(&bytes, 2)?;
    let code = CompletionCode::Invalid;
    let cover = EventTrb::new_transfer_event_trb(0x180, 5, code, false, 0, 0);
    add(&mut ring, &mut bytes, port(1), TABLE)?;
    add(&mut ring, &mut bytes, cover, TABLE)?;
    assert_eq!((ring.state().place, ring.state().remaining), (0x100, 1));
    original! {
        let mut ring = theirs::configured(&entries);
        let code = theirs::CompletionCode::Invalid;
        let cover = theirs::EventTrb::new_transfer_event_trb(0x180, 5, code, false, 0, 0);
        ring.enqueue(&theirs::port(1), 2, TABLE, TABLE);
        ring.enqueue(&cover, 2, TABLE, TABLE);
        assert_eq!((ring.state().place, ring.state().remaining), (0x180, 5));
    }
    Ok(())
}

#[test]
fn giving_up() {
    let circle = trb(6, &[(12, 1)]);
    let answer = |bytes: &[u8]| {
        let chase = LinkedRing::new(0, true).next_trb(GuestMemory::new(bytes));
        chase.answer
    };
    assert_eq!(answer(&circle), Answer::TooManyLinks);
    assert_eq!(answer(&[0; 16]), Answer::NothingNew);
    original! {
        let answer = |bytes: &[u8]| {
            let memory = theirs::Memory::new(bytes.to_vec());
            (theirs::LinkedRing::new(memory, 0, true).next_trb(), original::warnings().len())
        };
        assert_eq!(answer(&circle), (None, 1));
        assert_eq!(answer(&[0; 16]), (None, 0));
    }
}

#[test]
fn unaligned_or_empty_table() {
    let bytes = memory(&[(0x100, 1)]);
    let refused =
        |table, entries| EventRing::new().configure(GuestMemory::new(&bytes), table, entries);
    assert_eq!(refused(TABLE - 0x20, 1), Err(Refusal::TableBase));
    assert_eq!(refused(TABLE, 0), Err(Refusal::TableEntries));
    original! {
        let mut ring = theirs::EventRing::new(theirs::Memory::new(bytes));
        assert!(theirs::panics(|| ring.configure(TABLE - 0x20, 1)));
        assert!(theirs::panics(|| ring.configure(TABLE, 0)));
    }
}

#[test]
fn stale_trb_over_the_end() {
    let bytes = [0; 13];
    let chase = LinkedRing::new(0, true).next_trb(GuestMemory::new(&bytes));
    assert_eq!(chase.answer, Answer::Refused(Refusal::Outside));
    original! {
        let memory = theirs::Memory::new(bytes.to_vec());
        let mut ring = theirs::LinkedRing::new(memory.clone(), 0, true);
        assert_eq!((ring.next_trb(), memory.outside()), (None, 0));
    }
}

#[test]
fn notes_of_the_last_link() {
    // 256 Links in a row, and one more, the only one with a low pointer bit.
    let links = (1..=257u64).map(|next| {
        let mut link = trb(6, &[(12, 1)]);
        link[..8].copy_from_slice(&(16 * next + next / 257).to_le_bytes());
        link
    });
    let bytes: Vec<u8> = links.flatten().collect();
    let chase = LinkedRing::new(0, true).next_trb(GuestMemory::new(&bytes));
    let said = (chase.answer, chase.notes.cleared);
    assert_eq!(said, (Answer::TooManyLinks, false));
    original! {
        let mut ring = theirs::LinkedRing::new(theirs::Memory::new(bytes), 0, true);
        assert_eq!(ring.next_trb(), None);
        let warnings = original::warnings();
        assert!(warnings[0].contains("RsvdZ") && warnings[1].contains("unreasonable"));
    }
}

#[test]
fn table_of_many_entries() {
    let entries = [(0x180, 1); 17];
    assert_eq!(
        configured(&memory(&entries), 17),
        Err(Refusal::TableEntries)
    );
    original! {
        assert_eq!(theirs::configured(&entries).state().place, 0x180);
    }
}

#[test]
fn segment_out_of_limits() {
    for segment in [(0x110, 1), (0x100, 4097), (0x1c0, 5)] {
        assert_eq!(configured(&memory(&[segment]), 1), Err(Refusal::Segment));
        original! {
            let state = theirs::configured(&[segment]).state();
            assert_eq!((state.place, state.remaining), segment);
        }
    }
}

#[test]
fn unaligned_report() -> Result<(), Refusal> {
    let entries = [(0x100, 2)];
    let mut bytes = memory(&entries);
    let mut ring = configured(&bytes, 1)?;
    assert_eq!(
        add(&mut ring, &mut bytes, port(1), 0x118),
        Err(Refusal::Report)
    );
    original! {
        let mut ring = theirs::configured(&entries);
        assert!(!theirs::panics(|| ring.enqueue(&theirs::port(1), 1, TABLE, 0x118)));
    }
    Ok(())
}

#[test]
fn ring_without_configure() {
    let mut bytes = memory(&[(0x100, 2)]);
    assert_eq!(
        add(&mut EventRing::new(), &mut bytes, port(1), 0),
        Err(Refusal::State)
    );
    original! {
        let memory = theirs::Memory::new(bytes);
        let mut ring = theirs::EventRing::new(memory.clone());
        // It writes to address 0, and then underflows as for a segment of size 0.
        theirs::panics(|| ring.enqueue(&theirs::port(1), 1, TABLE, 0x100));
        assert_eq!(memory.bytes()[3], 1);
    }
}

/// The last column of each row names a test of this file, and each test but this stands in a row.
#[test]
fn every_row_has_its_test() {
    let page = include_str!("../../../docs/DIFFERENCES.md");
    let here = include_str!("differences.rs");
    let rows = page
        .lines()
        .filter(|line| line.starts_with("| ") && !line.starts_with("| Entry"));
    let mut named: Vec<&str> = rows
        .map(|row| {
            row.trim_end_matches(" |")
                .rsplit("| ")
                .next()
                .expect("a column")
        })
        .collect();
    let mut tests: Vec<&str> = here
        .split("#[test]\nfn ")
        .skip(1)
        .map(|test| test.split('(').next().expect("a name"))
        .filter(|name| *name != "every_row_has_its_test")
        .collect();
    named.sort_unstable();
    tests.sort_unstable();
    assert_eq!(named, tests);
}
