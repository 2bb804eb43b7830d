//! Whatever pass the driver is on: what was written is listed once and in order, and what waits is told from what is done.
//! Rings are written here as a driver or a controller writes them, from the numbers of TRBs alone.

use lab::capture::{Capture, Driver, Ring, Start};
use lab::show::MOST;
use lab::trbs::Kind;
use lab::walk::{read, Reading, Stage};
use lab::words::Tone;

/// Slots of two segments, and behind each an address for a Link.
struct Slots {
    first: u64,
    second: u64,
    sizes: [u64; 2],
}

impl Slots {
    fn count(&self) -> u64 {
        self.sizes[0] + self.sizes[1]
    }

    /// The slot of the n-th TRB, and the cycle bit of its pass.
    fn of(&self, n: u64) -> (u64, bool) {
        let slot = n % self.count();
        let address = match slot.checked_sub(self.sizes[0]) {
            None => self.first + 16 * slot,
            Some(slot) => self.second + 16 * slot,
        };
        (address, (n / self.count()).is_multiple_of(2))
    }
}

fn put(memory: &mut [u8], address: u64, pointer: u64, trb_type: u8, byte_12: u8) {
    let trb = &mut memory[address as usize..][..16];
    trb[..8].copy_from_slice(&pointer.to_le_bytes());
    (trb[12], trb[13]) = (byte_12, trb_type << 2);
}

/// The numbers that were written and stand there, each with whether it waits.
fn expected(slots: &Slots, written: u64, taken: u64) -> Vec<(u64, Stage)> {
    let stage = |n| match n < taken {
        true => Stage::Done,
        false => Stage::Pending,
    };
    let oldest = written.saturating_sub(slots.count());
    (oldest..written).map(|n| (n, stage(n))).collect()
}

/// The numbers that are listed; a TRB's pointer holds its number times 16.
fn listed(reading: &Reading) -> Vec<(u64, Stage)> {
    let number = |trb: &[u8; 16]| u64::from_le_bytes(trb[..8].try_into().expect("eight")) / 16;
    let parts = reading.parts.iter();
    parts
        .flat_map(|part| {
            part.found
                .iter()
                .map(|found| (number(&found.trb), part.stage))
        })
        .collect()
}

fn check(memory: Vec<u8>, ring: Ring, slots: &Slots, written: u64, taken: u64) {
    let capture = Capture::new(memory, vec![ring]);
    let [reading] = <[Reading; 1]>::try_from(read(&capture, &capture.rings[0], MOST))
        .unwrap_or_else(|_| panic!("one reading"));
    let told = format!("{:?}, {written} written, {taken} taken", slots.sizes);
    assert_eq!(reading.end.tone(), Tone::Nothing, "{told}");
    assert_eq!(reading.at, slots.of(written), "{told}");
    assert_eq!(listed(&reading), expected(slots, written, taken), "{told}");
}

/// All sizes up to three, all numbers up to three passes and more; `most` may wait at once.
fn each_case(most: impl Fn(&Slots) -> u64, case: impl Fn(&Slots, u64, u64)) {
    for sizes in [[1, 1], [1, 2], [2, 1], [3, 2], [1, 3]] {
        let slots = Slots {
            first: 0x140,
            second: 0x40,
            sizes,
        };
        for written in 0..4 * slots.count() {
            for taken in written.saturating_sub(most(&slots))..=written {
                case(&slots, written, taken);
            }
        }
    }
}

#[test]
fn an_event_ring_on_any_pass() {
    // Another controller may fill the last slot too.
    each_case(Slots::count, |slots, written, taken| {
        let mut memory = vec![0; 0x200];
        for (entry, (base, size)) in [slots.first, slots.second]
            .iter()
            .zip(slots.sizes)
            .enumerate()
        {
            memory[16 * entry..][..8].copy_from_slice(&base.to_le_bytes());
            memory[16 * entry + 8] = size as u8;
        }
        for n in 0..written {
            let (address, cycle) = slots.of(n);
            put(&mut memory, address, 16 * n, 33, cycle.into());
        }
        let (dequeue, cycle) = slots.of(taken);
        let ring = Ring {
            kind: Kind::Event,
            name: "e".to_owned(),
            start: Start::Table(0, 2),
            driver: Some(Driver {
                dequeue,
                enqueue: None,
                cycle,
            }),
        };
        check(memory, ring, slots, written, taken);
    });
}

/// As Linux writes: a Link is passed, and gets the cycle bit of the pass, when the slot before it is written.
#[test]
fn a_transfer_ring_on_any_pass() {
    each_case(
        |slots| slots.count() - 1,
        |slots, written, taken| {
            let mut memory = vec![0; 0x200];
            let ends = [slots.sizes[0] - 1, slots.count() - 1];
            let links = [slots.first, slots.second].map(|base| base);
            let at = [0, 1].map(|n| links[n] + 16 * slots.sizes[n]);
            put(&mut memory, at[0], slots.second, 6, 0);
            put(&mut memory, at[1], slots.first, 6, 2);
            for n in 0..written {
                let (address, cycle) = slots.of(n);
                put(&mut memory, address, 16 * n, 1, cycle.into());
                match n % slots.count() {
                    end if end == ends[0] => put(&mut memory, at[0], slots.second, 6, cycle.into()),
                    end if end == ends[1] => {
                        put(&mut memory, at[1], slots.first, 6, 2 | u8::from(cycle))
                    }
                    _ => {}
                }
            }
            let (enqueue, cycle) = slots.of(written);
            let ring = Ring {
                kind: Kind::Transfer,
                name: "t".to_owned(),
                start: Start::Linked(slots.first, Some(true)),
                driver: Some(Driver {
                    dequeue: slots.of(taken).0,
                    enqueue: Some(enqueue),
                    cycle,
                }),
            };
            check(memory, ring, slots, written, taken);
        },
    );
}
