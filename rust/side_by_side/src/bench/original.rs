//! The original, once for each bus.

macro_rules! original {
    ($name:ident = $original:ident) => {
        pub mod $name {
            use super::super::alike::{alike, answer, each};
            use super::super::inputs::{self, ROUND};
            use super::super::line::Line;
            use std::hint::black_box;
            use $original::device::bus::Memory;
            use $original::device::xhci::event_ring::EventRing;
            use $original::device::xhci::linked_ring::LinkedRing;

            alike!($original::device::xhci::trb);

            pub fn run(line: Line, rounds: u64) -> bool {
                match line {
                    Line::ParseCommand => parse_command(rounds),
                    Line::ParseTransfer => parse_transfer(rounds),
                    Line::ParseMixed => parse_mixed(rounds),
                    Line::EventWrite => event_write(rounds),
                    Line::NextTrb { links } => next_trb(links, rounds),
                    Line::Add { segments } => add(segments, rounds),
                    // It neither reads events nor takes them.
                    Line::EventRead | Line::Take => return false,
                }
                true
            }

            #[inline(never)]
            fn next_trb(links: usize, rounds: u64) {
                let mut ring = LinkedRing::new(Memory::new(inputs::linked(links)), 0, true);
                for _ in 0..rounds {
                    ring.set_dequeue_pointer(0, true);
                    for _ in 0..ROUND {
                        answer(black_box(&mut ring).next_trb());
                        black_box(&mut ring).advance();
                    }
                }
            }

            #[inline(never)]
            fn add(segments: u16, rounds: u64) {
                let bytes = inputs::event_ring(segments, &[[0; 16]; ROUND]);
                let mut ring = EventRing::new(Memory::new(bytes));
                let (table, report) = black_box((inputs::TABLE, inputs::NEVER_A_SLOT));
                ring.configure(table, segments);
                each(&events(), rounds, |event| {
                    answer(black_box(&mut ring).enqueue(event, segments, table, report));
                });
            }
        }
    };
}

original!(with_static_bus = original);
original!(with_dyn_bus = original_dyn);
