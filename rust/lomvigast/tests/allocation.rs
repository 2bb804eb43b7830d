//! Nothing allocates: every call of the crate, answered and refused, with an allocator that counts.

use lomvigast::event_ring::{EventReader, EventRing, RingState};
use lomvigast::linked_ring::{Answer, LinkedRing};
use lomvigast::trb::{
    cycle_bit, trb_type, Class, CommandTrbVariant, CompletionCode, EventTrb, LinkTrb, NormalTrb,
    TransferTrbVariant, TrbDmaInfo,
};
use lomvigast::{GuestMemory, GuestMemoryMut, Refusal};
use std::alloc::{GlobalAlloc, Layout, System};
use std::cell::Cell;
use std::hint::black_box;

struct Counting;

thread_local! {
    static COUNT: Cell<u64> = const { Cell::new(0) };
}

// SAFETY: all is left to the system's allocator. Growing goes through `alloc`, as the trait has it.
unsafe impl GlobalAlloc for Counting {
    unsafe fn alloc(&self, layout: Layout) -> *mut u8 {
        COUNT.set(COUNT.get() + 1);
        unsafe { System.alloc(layout) }
    }

    unsafe fn dealloc(&self, at: *mut u8, layout: Layout) {
        unsafe { System.dealloc(at, layout) }
    }
}

#[global_allocator]
static ALLOCATOR: Counting = Counting;

/// How often this thread allocates in an action.
fn allocations(action: impl FnOnce()) -> u64 {
    let before = COUNT.get();
    action();
    COUNT.get() - before
}

#[test]
fn the_counter_counts() {
    assert_eq!(allocations(|| drop(black_box(Box::new(1)))), 1);
    assert_eq!(allocations(|| drop(black_box(vec![1, 2]))), 1);
}

/// The refusals that were met, each at its number.
#[derive(Default)]
struct Met([bool; 14]);

impl Met {
    fn see<T>(&mut self, answer: Result<T, Refusal>) {
        if let Err(refusal) = black_box(answer) {
            self.0[usize::from(refusal.number())] = true;
        }
    }
}

#[test]
fn parsing_allocates_nothing() {
    let mut met = Met::default();
    let count = allocations(|| {
        for byte in 0..=255 {
            let trb = [byte, 0, 0, 0, 0, 0, 0, 0, 0, 0, 0, byte, byte, byte, 0, 0];
            parse(trb, &mut met);
            met.see(CompletionCode::try_from(byte));
            black_box(Class::of(byte));
        }
    });
    assert_eq!(count, 0);
    assert!([9, 10, 11, 12].iter().all(|&number| met.0[number]));
}

fn parse(trb: [u8; 16], met: &mut Met) {
    black_box((trb_type(&trb), cycle_bit(&trb), LinkTrb::parse(trb)));
    if let CommandTrbVariant::Unrecognized(_, refusal) = black_box(CommandTrbVariant::parse(trb)) {
        met.see(Err::<(), _>(refusal));
    }
    if let TransferTrbVariant::Unrecognized(_, refusal) = black_box(TransferTrbVariant::parse(trb))
    {
        met.see(Err::<(), _>(refusal));
    }
    met.see(EventTrb::parse(trb).map_err(|unrecognized| unrecognized.refusal));
}

#[test]
fn memory_and_data_parts_allocate_nothing() {
    let mut bytes = [0; 64];
    let mut met = Met::default();
    let count = allocations(|| {
        for address in [0, 48, 63, 64, u64::MAX] {
            let mut memory = GuestMemoryMut::new(&mut bytes);
            met.see(memory.write_trb(address, &[1; 16]));
            let shared = memory.shared();
            black_box(shared.inside(address, 16));
            met.see(shared.read2(address));
            met.see(shared.read4(address));
            met.see(shared.read8(address));
            met.see(shared.read_trb(address));
            for immediate_data in [false, true] {
                let trb = normal(address, immediate_data);
                met.see(trb.data(memory.shared()).map(<[u8]>::len));
                met.see(trb.data_mut(&mut memory).map(|part| part.len()));
            }
        }
    });
    assert_eq!(count, 0);
    assert!([1, 13].iter().all(|&number| met.0[number]));
}

fn normal(data_pointer: u64, immediate_data: bool) -> NormalTrb {
    NormalTrb {
        data_pointer,
        transfer_length: 1,
        interrupt_on_short: false,
        chain: false,
        interrupt_on_completion: false,
        immediate_data,
    }
}

#[test]
fn a_chase_allocates_nothing() {
    // A fresh Link to itself, and a fresh No Op.
    let mut bytes = [0; 32];
    (bytes[12], bytes[13]) = (1, 6 << 2);
    (bytes[28], bytes[29]) = (1, 8 << 2);
    let memory = GuestMemory::new(&bytes);
    let mut met = Met::default();
    let count = allocations(|| {
        let mut ring = LinkedRing::new(0, true);
        for place in [0, 16, 17, 32, u64::MAX] {
            for cycle in [false, true] {
                ring.set_dequeue_pointer(place, cycle);
                if let Answer::Refused(refusal) = black_box(ring.next_trb(memory)).answer {
                    met.see(Err::<(), _>(refusal));
                }
                ring.advance();
                black_box(ring.get_dequeue_pointer());
            }
        }
    });
    assert_eq!(count, 0);
    assert!(met.0[1]);
}

/// Memory with a table of two entries at 0, the second of which is no segment.
fn table() -> [u8; 128] {
    let mut bytes = [0; 128];
    (bytes[0], bytes[8]) = (64, 3);
    bytes[16] = 1;
    bytes
}

fn events() -> [EventTrb; 4] {
    let code = CompletionCode::Success;
    [
        EventTrb::new_port_status_change_event_trb(1),
        EventTrb::new_command_completion_event_trb(16, 0, code, 1),
        EventTrb::new_transfer_event_trb(1, 2, code, true, 3, 4),
        EventTrb::new_transfer_event_trb(1, 1 << 24, code, true, 3, 4),
    ]
}

#[test]
fn event_rings_allocate_nothing() {
    let mut bytes = table();
    let mut met = Met::default();
    let count = allocations(|| {
        let mut memory = GuestMemoryMut::new(&mut bytes);
        let (mut ring, mut reader) = (EventRing::new(), EventReader::new());
        for (table, entries) in [(1, 1), (0, 0), (1 << 20, 1), (0, 2)] {
            met.see(ring.configure(memory.shared(), table, entries));
            met.see(reader.configure(memory.shared(), table, entries));
        }
        for report in [1, 80, 0] {
            fill_and_drain(&mut memory, &mut ring, &mut reader, report, &mut met);
        }
        ring.reset();
        reader.reset();
        fill_and_drain(&mut memory, &mut ring, &mut reader, 0, &mut met);
    });
    assert_eq!(count, 0);
    assert!((1..=8).all(|number| met.0[number]));
}

fn fill_and_drain(
    memory: &mut GuestMemoryMut<'_>,
    ring: &mut EventRing,
    reader: &mut EventReader,
    report: u64,
    met: &mut Met,
) {
    for event in events() {
        met.see(event.to_bytes(true));
        met.see(ring.enqueue(memory, &event, report));
        met.see(reader.take(memory.shared()));
        let states: [RingState; 2] = [ring.state(), reader.state()];
        black_box((EventRing::from(states[0]), EventReader::from(states[1])));
    }
}
