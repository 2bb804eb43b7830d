//! Rings that a real driver and controller wrote, beside what Linux's own decoder says of them. The captures are no part of
//! this repository: shared/captures beside it, or the folder that LOMVIGAST_CAPTURES names.

use lomvigast::event_ring::EventReader;
use lomvigast::linked_ring::{Answer, LinkedRing};
use lomvigast::trb::{
    cycle_bit, CommandTrbVariant, CompletionCode, EventTrb, LinkTrb, RawTrbBuffer,
    TransferTrbVariant,
};
use lomvigast::GuestMemory;
use std::path::{Path, PathBuf};
use std::{env, fs};

/// Guest memory is 128 MiB from address 0.
const LENGTH: usize = 128 << 20;

struct Capture {
    memory: Vec<u8>,
    rings: String,
    linux: String,
}

/// The capture, or `None` where there is none at hand.
fn capture() -> Option<Capture> {
    let beside = Path::new(env!("CARGO_MANIFEST_DIR")).join("../../../shared/captures");
    let captures = env::var_os("LOMVIGAST_CAPTURES").map_or(beside, PathBuf::from);
    let folder = captures.join("linux-6.1-qemu-xhci");
    if !folder.is_dir() {
        println!("left out: there are no captures at {}", folder.display());
        return None;
    }
    let text = |name: &str| fs::read_to_string(folder.join(name)).expect("a file of the capture");
    let mut memory = vec![0; LENGTH];
    for line in text("trbs.txt").lines() {
        let (address, bytes) = line.split_once(' ').expect("address and bytes");
        let address = hex(address) as usize;
        memory[address..address + 16].copy_from_slice(&hex_bytes(bytes));
    }
    Some(Capture {
        memory,
        rings: text("rings.txt"),
        linux: text("linux.txt"),
    })
}

fn hex(word: &str) -> u64 {
    u64::from_str_radix(word.trim_start_matches("0x"), 16).expect("a hexadecimal number")
}

fn hex_bytes(word: &str) -> RawTrbBuffer {
    let byte = |at: usize| hex(&word[2 * at..2 * at + 2]) as u8;
    std::array::from_fn(byte)
}

/// A line of Linux's decoder: words, each followed by its value.
struct Words<'a>(&'a str);

impl<'a> Words<'a> {
    fn after(&self, word: &str) -> &'a str {
        let (_, rest) = self.0.split_once(&format!("{word} ")).expect(word);
        rest.split(' ').next().expect("a value")
    }

    fn pointer(&self, word: &str) -> u64 {
        hex(self.after(word))
    }

    fn number(&self, word: &str) -> u64 {
        self.after(word).parse().expect("a decimal number")
    }

    fn quoted(&self, word: &str) -> &'a str {
        self.0
            .split_once(&format!("{word} '"))
            .expect(word)
            .1
            .split('\'')
            .next()
            .expect("a name")
    }

    /// The flags: a capital letter stands for 1.
    fn flags(&self) -> Vec<bool> {
        let letters = self.after("flags").split(':');
        letters
            .map(|letter| letter.chars().all(char::is_uppercase))
            .collect()
    }
}

#[test]
fn decoded_trbs_agree_with_linux() {
    let Some(capture) = capture() else { return };
    let memory = GuestMemory::new(&capture.memory);
    for line in capture.linux.lines() {
        let (address, words) = line.split_once(' ').expect("address and words");
        let raw = memory.read_trb(hex(address)).expect("inside memory");
        let words = Words(words);
        assert_eq!(words.flags().last(), Some(&cycle_bit(&raw)), "{line}");
        match words.0.split_once(" Command: ") {
            Some((name, _)) => assert!(command_agrees(name, &words, raw), "{line}"),
            None => assert!(other_agrees(&words, raw), "{line}"),
        }
    }
    assert_eq!(capture.linux.lines().count(), 556);
}

fn command_agrees(name: &str, words: &Words, raw: RawTrbBuffer) -> bool {
    let slot = |slot_id: u8| words.number("slot") == u64::from(slot_id);
    match (name, CommandTrbVariant::parse(raw)) {
        ("Enable Slot", CommandTrbVariant::EnableSlot) => true,
        ("Address Device", CommandTrbVariant::AddressDevice(d)) => {
            words.pointer("ctx") == d.input_context_pointer
                && words.flags()[0] == d.block_set_address_request
                && slot(d.slot_id)
        }
        ("Configure Endpoint", CommandTrbVariant::ConfigureEndpoint(d)) => {
            words.pointer("ctx") == d.input_context_pointer
                && words.flags()[0] == d.deconfigure
                && slot(d.slot_id)
        }
        ("Stop Ring", CommandTrbVariant::StopEndpoint(d)) => {
            words.number("ep") == u64::from(d.endpoint_id) && slot(d.slot_id)
        }
        ("Reset Device", CommandTrbVariant::ResetDevice(d)) => slot(d.slot_id),
        _ => false,
    }
}

fn other_agrees(words: &Words, raw: RawTrbBuffer) -> bool {
    match words.quoted("type") {
        "Link" => link_agrees(words, raw),
        name if name.ends_with(" Event") => event_agrees(name, words, raw),
        name => transfer_agrees(name, words, raw),
    }
}

fn link_agrees(words: &Words, raw: RawTrbBuffer) -> bool {
    let Some(link) = LinkTrb::parse(raw) else {
        return false;
    };
    let flags = words.flags();
    words.pointer("LINK") == link.ring_segment_pointer
        && !link.pointer_bits_cleared
        && (flags[0], flags[2]) == (link.interrupt_on_completion, link.toggle_cycle)
}

fn transfer_agrees(name: &str, words: &Words, raw: RawTrbBuffer) -> bool {
    let flags = words.flags();
    let buffer = |pointer: u64, length: u32| {
        words.pointer("Buffer") == pointer && words.number("length") == u64::from(length)
    };
    match (name, TransferTrbVariant::parse(raw)) {
        ("Normal", TransferTrbVariant::Normal(d)) => {
            let ours = [d.immediate_data, d.interrupt_on_completion, d.chain];
            buffer(d.data_pointer, d.transfer_length)
                && flags[1..4] == ours
                && flags[5] == d.interrupt_on_short
        }
        ("Data Stage", TransferTrbVariant::DataStage(d)) => {
            let ours = [d.immediate_data, d.interrupt_on_completion, d.chain];
            buffer(d.data_pointer, d.transfer_length)
                && flags[..3] == ours
                && flags[4] == d.interrupt_on_short
        }
        ("Status Stage", TransferTrbVariant::StatusStage(d)) => {
            flags[..2] == [d.interrupt_on_completion, d.chain]
        }
        ("Setup Stage", TransferTrbVariant::SetupStage(d)) => {
            let ours = [
                d.request_type.into(),
                d.request.into(),
                d.value.into(),
                d.index.into(),
            ];
            ["bRequestType", "bRequest", "wValue", "wIndex"].map(|word| words.pointer(word)) == ours
                && words.number("wLength") == u64::from(d.length)
                && flags[1] == d.interrupt_on_completion
        }
        _ => false,
    }
}

fn event_agrees(name: &str, words: &Words, raw: RawTrbBuffer) -> bool {
    let code = match words.quoted("status") {
        "Success" => CompletionCode::Success,
        "Short Packet" => CompletionCode::ShortPacket,
        other => panic!("{other}"),
    };
    let (pointer, length) = (words.pointer("TRB"), words.number("len") as u32);
    let [slot, endpoint] = ["slot", "ep"].map(|word| words.number(word) as u8);
    let expected = match name {
        "Transfer Event" => {
            let flag = words.flags()[0];
            EventTrb::new_transfer_event_trb(pointer, length, code, flag, endpoint, slot)
        }
        "Command Completion Event" => {
            EventTrb::new_command_completion_event_trb(pointer, length, code, slot)
        }
        // The port stands in the pointer's fourth byte.
        "Port Status Change Event" => {
            EventTrb::new_port_status_change_event_trb((pointer >> 24) as u8)
        }
        other => panic!("{other}"),
    };
    EventTrb::parse(raw) == Ok(expected)
}

#[test]
fn the_reader_takes_198_events_and_then_none() {
    let Some(capture) = capture() else { return };
    let memory = GuestMemory::new(&capture.memory);
    let words = Words(capture.rings.lines().next().expect("the table"));
    let ring = Words(
        capture
            .rings
            .lines()
            .find(|line| line.starts_with("event "))
            .expect("a ring"),
    );
    let mut reader = EventReader::new();
    let entries = words.number("entries") as u16;
    assert_eq!(
        reader.configure(memory, words.pointer("table"), entries),
        Ok(())
    );
    for _ in 0..198 {
        assert!(matches!(reader.take(memory), Ok(Some(_))));
    }
    assert_eq!(reader.take(memory), Ok(None));
    let end = (reader.state().place, u64::from(reader.state().cycle));
    assert_eq!(end, (ring.pointer("dequeue"), ring.number("cycle")));
}

#[test]
fn each_chase_ends_where_linux_enqueues() {
    let Some(capture) = capture() else { return };
    let memory = GuestMemory::new(&capture.memory);
    let chased = |line: &&str| line.starts_with("command ") || line.starts_with("transfer ");
    let mut rings = 0;
    for words in capture.rings.lines().filter(chased).map(Words) {
        let mut ring = LinkedRing::new(words.pointer("first"), true);
        let end = loop {
            match ring.next_trb(memory).answer {
                Answer::Trb(_) => ring.advance(),
                end => break end,
            }
        };
        assert_eq!(end, Answer::NothingNew, "{}", words.0);
        let place = (words.pointer("enqueue"), words.number("cycle") == 1);
        assert_eq!(ring.get_dequeue_pointer(), place, "{}", words.0);
        rings += 1;
    }
    assert_eq!(rings, 8);
}
