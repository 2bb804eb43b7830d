//! The marked cases of document 01, through this crate. What is expected stands there.

use lomvigast::event_ring::{EventReader, EventRing};
use lomvigast::linked_ring::{Answer, LinkedRing};
use lomvigast::trb::{
    CommandTrbVariant, CompletionCode, EventTrb, RawTrbBuffer, TransferTrbVariant,
};
use lomvigast::{GuestMemory, GuestMemoryMut, Refusal};

fn trb(trb_type: u8, bytes: &[(usize, u8)]) -> RawTrbBuffer {
    let mut raw = [0; 16];
    raw[13] = trb_type << 2;
    bytes.iter().for_each(|&(at, byte)| raw[at] = byte);
    raw
}

#[test]
fn e1_e2_e3() {
    let e1 = EventTrb::new_command_completion_event_trb(0x1000, 0, CompletionCode::Success, 1);
    let e2 = EventTrb::new_port_status_change_event_trb(3);
    let e3 = EventTrb::new_transfer_event_trb(0x2010, 5, CompletionCode::ShortPacket, true, 3, 2);
    let written = [
        (
            e1,
            true,
            [0, 0x10, 0, 0, 0, 0, 0, 0, 0, 0, 0, 1, 1, 0x84, 0, 1],
        ),
        (
            e2,
            false,
            [0, 0, 0, 3, 0, 0, 0, 0, 0, 0, 0, 1, 0, 0x88, 0, 0],
        ),
        (
            e3,
            true,
            [0x10, 0x20, 0, 0, 0, 0, 0, 0, 5, 0, 0, 0x0d, 5, 0x80, 3, 2],
        ),
    ];
    for (event, cycle, bytes) in written {
        assert_eq!(event.to_bytes(cycle), Ok(bytes));
        assert_eq!(EventTrb::parse(bytes), Ok(event));
    }
}

#[test]
fn p1_p2_p4() {
    let raw = trb(11, &[(0, 0x08)]);
    let refused = CommandTrbVariant::Unrecognized(raw, Refusal::Reserved);
    assert_eq!(
        (CommandTrbVariant::parse(raw), Refusal::Reserved.number()),
        (refused, 11)
    );

    let raw = trb(16, &[(0, 0x47), (10, 0x34), (11, 0x12), (12, 1)]);
    let CommandTrbVariant::SetTrDequeuePointer(d) = CommandTrbVariant::parse(raw) else {
        panic!("type 16")
    };
    assert_eq!((d.dequeue_cycle_state, d.stream_context_type), (true, 3));
    assert_eq!((d.dequeue_pointer, d.stream_id), (0x40, 0x1234));

    let raw = trb(6, &[]);
    let refused = TransferTrbVariant::Unrecognized(raw, Refusal::Type(6));
    assert_eq!(
        (TransferTrbVariant::parse(raw), Refusal::Type(6).number()),
        (refused, 10)
    );
    let raw = trb(18, &[]);
    let refused = CommandTrbVariant::Unrecognized(raw, Refusal::Optional(18));
    assert_eq!(
        (
            CommandTrbVariant::parse(raw),
            Refusal::Optional(18).number()
        ),
        (refused, 9)
    );
}

/// Where the guest's memory begins, each case's addresses with it: as document 01 has it, above all that 32 bits can say, and so
/// that 0x200 bytes end at 2^64.
const STARTS: [u64; 3] = [0, 0x1_0000_0040, u64::MAX - 0x1ff];

#[test]
fn l1_l2() {
    for start in STARTS {
        let mut link = trb(6, &[(12, 1)]);
        link[..8].copy_from_slice(&start.to_le_bytes());
        let mut ring = LinkedRing::new(start, true);
        let chase = ring.next_trb(GuestMemory::at(start, &link));
        assert_eq!(
            (chase.answer, chase.notes.links),
            (Answer::TooManyLinks, 256)
        );
        link[12] = 3;
        let chase = ring.next_trb(GuestMemory::at(start, &link));
        assert_eq!((chase.answer, chase.notes.links), (Answer::NothingNew, 1));
        assert_eq!(ring.get_dequeue_pointer(), (start, false));
    }
}

/// A ring in its guest's memory. Addresses are told from where that begins.
struct Guest {
    start: u64,
    bytes: [u8; 0x200],
    ring: EventRing,
}

impl Guest {
    /// With a table at its first address, given as base and size of each entry, and the ring configured on it.
    fn new(start: u64, entries: &[(u64, u8)]) -> Result<Self, Refusal> {
        let mut bytes = [0; 0x200];
        for (n, (base, size)) in entries.iter().enumerate() {
            bytes[16 * n..][..8].copy_from_slice(&(start + base).to_le_bytes());
            bytes[16 * n + 8] = *size;
        }
        let mut ring = EventRing::new();
        let memory = GuestMemory::at(start, &bytes);
        ring.configure(memory, start, entries.len() as u16)?;
        Ok(Self { start, bytes, ring })
    }

    /// Where the event was written.
    fn add(&mut self, report: u64) -> Result<u64, Refusal> {
        let place = self.ring.state().place;
        let event = EventTrb::new_port_status_change_event_trb(3);
        let mut memory = GuestMemoryMut::at(self.start, &mut self.bytes);
        self.ring
            .enqueue(&mut memory, &event, self.start + report)?;
        Ok(place - self.start)
    }
}

#[test]
fn r1() -> Result<(), Refusal> {
    for start in STARTS {
        let mut guest = Guest::new(start, &[(0x100, 2)])?;
        assert_eq!(guest.add(0x100), Ok(0x100));
        assert_eq!(guest.add(0x100), Err(Refusal::Full));
        assert_eq!(guest.add(0x110), Ok(0x110));
        assert_eq!(guest.add(0x110), Err(Refusal::Full));
        assert_eq!(guest.add(0x100), Ok(0x100));
        assert_eq!((guest.bytes[0x10c], guest.bytes[0x11c]), (0, 1));
    }
    Ok(())
}

#[test]
fn r2() -> Result<(), Refusal> {
    for start in STARTS {
        let mut guest = Guest::new(start, &[(0x100, 1)])?;
        for _ in 0..3 {
            assert_eq!(guest.add(0x100), Err(Refusal::Full));
        }
    }
    Ok(())
}

#[test]
fn r3() -> Result<(), Refusal> {
    for start in STARTS {
        let mut guest = Guest::new(start, &[(0x100, 1), (0x140, 1)])?;
        assert_eq!(guest.add(0x100), Ok(0x100));
        assert_eq!(guest.add(0x100), Err(Refusal::Full));
        assert_eq!(guest.add(0x140), Ok(0x140));
    }
    Ok(())
}

#[test]
fn a_refusal_changes_nothing() -> Result<(), Refusal> {
    for start in STARTS {
        let mut guest = Guest::new(start, &[(0x100, 2)])?;
        let (before, state) = (guest.bytes, guest.ring.state());
        assert_eq!(guest.add(0x110), Err(Refusal::Full));
        assert_eq!(guest.add(8), Err(Refusal::Report));
        assert_eq!((guest.bytes, guest.ring.state()), (before, state));
        let mut reader = EventReader::from(state);
        let memory = GuestMemory::at(start, &guest.bytes[..0x10f]);
        assert_eq!(reader.take(memory), Err(Refusal::Outside));
        assert_eq!(reader.state(), state);
    }
    Ok(())
}
