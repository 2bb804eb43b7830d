//! The calls that are written alike for the original and the port, since their names are the same.

/// Makes so many rounds of calls, one for each input.
#[inline(always)]
pub fn each<T>(inputs: &[T], rounds: u64, mut call: impl FnMut(&T)) {
    for _ in 0..rounds {
        inputs
            .iter()
            .for_each(|input| call(std::hint::black_box(input)));
    }
}

/// Has the answer made, in memory, and looked at by nobody. It is not dropped: that would be work of the original's alone.
#[inline(always)]
pub fn answer<T>(answer: T) {
    std::hint::black_box(&std::mem::ManuallyDrop::new(answer));
}

/// Parsing and writing of events with the types of a module `trb`.
macro_rules! alike {
    ($($trb:ident)::+) => {
        use $($trb)::+::{CommandTrbVariant, CompletionCode, EventTrb, TransferTrbVariant};

        #[inline(never)]
        fn parse_command(rounds: u64) {
            each(&inputs::commands(), rounds, |trb| answer(CommandTrbVariant::parse(*trb)));
        }

        #[inline(never)]
        fn parse_transfer(rounds: u64) {
            each(&inputs::transfers(), rounds, |trb| answer(TransferTrbVariant::parse(*trb)));
        }

        #[inline(never)]
        fn parse_mixed(rounds: u64) {
            each(&inputs::mixed(), rounds, |(command, trb)| match command {
                true => answer(CommandTrbVariant::parse(*trb)),
                false => answer(TransferTrbVariant::parse(*trb)),
            });
        }

        #[inline(never)]
        fn event_write(rounds: u64) {
            each(&events(), rounds, |event| answer(event.to_bytes(true)));
        }

        /// Of eight, five Transfer Events, two Command Completions and one Port Status Change.
        pub fn events() -> Vec<EventTrb> {
            (0..inputs::ROUND as u8)
                .map(|n| match n % 8 {
                    2 | 5 => EventTrb::new_command_completion_event_trb(
                        16 * u64::from(n), u32::from(n), CompletionCode::Success, n,
                    ),
                    7 => EventTrb::new_port_status_change_event_trb(n),
                    _ => EventTrb::new_transfer_event_trb(
                        u64::from(n) << 32, u32::from(n), CompletionCode::ShortPacket, n % 3 == 0, n, 1,
                    ),
                })
                .collect()
        }
    };
}

pub(super) use alike;
