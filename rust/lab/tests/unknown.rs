//! What is not known, or was not looked at, is never told as nothing. The smallest input of each slip is here.

use lab::capture::{Capture, Driver, Ring, Start};
use lab::lesson::tell;
use lab::output::Output;
use lab::run;
use lab::show::{show, MOST};
use lab::trbs::Kind;
use lab::walk::{read, Ending, Reading, Stage};
use lab::words::Tone;
use std::fs;
use std::path::PathBuf;

const NORMAL: u8 = 1;
const LINK: u8 = 6;
const PORT: u8 = 34;

fn trb(trb_type: u8, cycle: bool) -> [u8; 16] {
    let mut trb = [0; 16];
    (trb[12], trb[13]) = (cycle.into(), trb_type << 2);
    trb
}

fn link(target: u8, toggle: bool, cycle: bool) -> [u8; 16] {
    let mut link = trb(LINK, cycle);
    link[0] = target;
    link[12] |= u8::from(toggle) << 1;
    link
}

/// Memory of zeros with these TRBs.
fn memory(length: usize, trbs: &[(usize, [u8; 16])]) -> Vec<u8> {
    let mut memory = vec![0; length];
    for (address, trb) in trbs {
        memory[*address..address + 16].copy_from_slice(trb);
    }
    memory
}

fn linked(first: u64, driver: Driver) -> Ring {
    Ring {
        kind: Kind::Transfer,
        name: "t".to_owned(),
        start: Start::Linked(first, Some(true)),
        driver: Some(driver),
    }
}

fn writes(dequeue: u64, enqueue: u64, cycle: bool) -> Driver {
    Driver {
        dequeue,
        enqueue: Some(enqueue),
        cycle,
    }
}

/// An event ring with its table at 0, one entry.
fn events(driver: Option<(u64, bool)>) -> Ring {
    Ring {
        kind: Kind::Event,
        name: "e".to_owned(),
        start: Start::Table(0, 1),
        driver: driver.map(|(dequeue, cycle)| Driver {
            dequeue,
            enqueue: None,
            cycle,
        }),
    }
}

fn shown(capture: &Capture, json: bool) -> Vec<String> {
    let mut shown = Vec::new();
    let out = &mut Output::plain(&mut shown);
    show(capture, json, MOST, out).expect("a Vec takes all");
    let shown = String::from_utf8(shown).expect("text");
    shown.lines().map(str::to_owned).collect()
}

/// The last line of what is shown, in words and as JSON.
fn last_lines(capture: &Capture) -> (String, String) {
    let last = |json| shown(capture, json).pop().expect("an end");
    (last(false), last(true))
}

fn reading(capture: &Capture) -> Reading {
    read(capture, &capture.rings[0], MOST).remove(0)
}

/// Each listed TRB's address and stage.
fn listed(reading: &Reading) -> Vec<(u64, Stage)> {
    let parts = reading.parts.iter();
    parts
        .flat_map(|part| part.found.iter().map(|found| (found.address, part.stage)))
        .collect()
}

use Stage::{Done, Pending, Unknown};

/// One segment of four slots from 0x40 on, on its second pass: 0x40 and 0x50 are of this pass (cycle bit 0), 0x60 and 0x70
/// of the pass before.
fn second_pass() -> Vec<u8> {
    let mut memory = memory(
        0x80,
        &[
            (0x40, trb(PORT, false)),
            (0x50, trb(PORT, false)),
            (0x60, trb(PORT, true)),
            (0x70, trb(PORT, true)),
        ],
    );
    (memory[0], memory[8]) = (0x40, 4);
    memory
}

/// The same with a second entry in the table, and a ring over both.
fn two_entries(base: u8, slots: u8, driver: (u64, bool)) -> (Vec<u8>, Ring) {
    let mut memory = second_pass();
    (memory[0x10], memory[0x18]) = (base, slots);
    let start = Start::Table(0, 2);
    let ring = events(Some(driver));
    (memory, Ring { start, ..ring })
}

#[test]
fn an_event_ring_that_has_gone_round_shows_its_events() {
    let at = |place, cycle| {
        let capture = Capture::new(second_pass(), vec![events(Some((place, cycle)))]);
        let reading = reading(&capture);
        assert_eq!(reading.end.tone(), Tone::Nothing);
        assert_eq!(reading.at, (0x60, false));
        listed(&reading)
    };
    // A driver on the second pass has one event to take, a late one on the first pass all four.
    let waits_for_one = [(0x60, Done), (0x70, Done), (0x40, Done), (0x50, Pending)];
    assert_eq!(at(0x50, false), waits_for_one);
    assert_eq!(
        at(0x60, true),
        [0x60, 0x70, 0x40, 0x50].map(|slot| (slot, Pending))
    );
    assert_eq!(
        at(0x60, false),
        [0x60, 0x70, 0x40, 0x50].map(|slot| (slot, Done))
    );
}

#[test]
fn a_driver_that_stands_on_no_slot() {
    let capture = Capture::new(second_pass(), vec![events(Some((0x48, true)))]);
    let told = reading(&capture);
    assert_eq!(told.end, Ending::NoSlot(0x48));
    assert_eq!(
        listed(&told),
        [0x60, 0x70, 0x40, 0x50].map(|slot| (slot, Unknown))
    );
    let (words, json) = last_lines(&capture);
    assert!(
        words.starts_with("  UNKNOWN: the driver's dequeue place, 0x48, is no slot"),
        "{words}"
    );
    assert!(json.contains(r#""end":"UNKNOWN""#), "{json}");
}

/// Three TRBs and a Link back: 0x0 is of the second pass, 0x10 and 0x20 of the first.
fn transfers_gone_round() -> Vec<u8> {
    memory(
        0x40,
        &[
            (0x00, trb(NORMAL, false)),
            (0x10, trb(NORMAL, true)),
            (0x20, trb(NORMAL, true)),
            (0x30, link(0, true, true)),
        ],
    )
}

#[test]
fn a_transfer_ring_that_has_gone_round_is_read_from_the_dequeue_place() {
    let at = |dequeue| {
        let ring = linked(0, writes(dequeue, 0x10, false));
        let capture = Capture::new(transfers_gone_round(), vec![ring]);
        let reading = reading(&capture);
        assert_eq!(
            (reading.end.tone(), reading.at),
            (Tone::Nothing, (0x10, false))
        );
        listed(&reading)
    };
    assert_eq!(at(0x20), [(0x10, Done), (0x20, Pending), (0x00, Pending)]);
    assert_eq!(at(0x00), [(0x10, Done), (0x20, Done), (0x00, Pending)]);
    assert_eq!(at(0x10), [(0x10, Done), (0x20, Done), (0x00, Done)]);
}

#[test]
fn what_the_driver_wrote_and_the_reader_never_came_to() {
    // The driver has written up to 0x20, but the TRB at 0x10 is stale.
    let memory = memory(0x30, &[(0, trb(NORMAL, true))]);
    let capture = Capture::new(memory, vec![linked(0, writes(0, 0x20, true))]);
    assert_eq!(reading(&capture).end, Ending::Unmet(0x20));
    let (words, json) = last_lines(&capture);
    assert!(
        words.starts_with("  NOT LOOKED AT: the TRB at 0x10 is stale"),
        "{words}"
    );
    assert!(words.contains("up to 0x20"), "{words}");
    assert!(json.contains(r#""end":"NOT LOOKED AT""#), "{json}");
}

#[test]
fn zeros_are_not_told_as_what_waits() {
    let blank = |ring: Ring| {
        let (words, json) = last_lines(&Capture::new(vec![0; 0x60], vec![ring]));
        assert!(
            words.starts_with("  NOT LOOKED AT: at 0x10 stands a TRB of zeros"),
            "{words}"
        );
        assert!(!words.contains("pending"), "{words}");
        assert!(json.contains(r#""end":"NOT LOOKED AT""#), "{json}");
    };
    blank(linked(0, writes(0x10, 0x20, true)));
    // Fresh zeros at the place where the driver says it writes next.
    let capture = Capture::new(vec![0; 0x60], vec![linked(0, writes(0x10, 0x10, false))]);
    assert_eq!(reading(&capture).end, Ending::Blank);
    assert_eq!(reading(&capture).trbs(), 0);
    // An event ring with a reader of the second pass, on which nothing was ever written.
    let mut memory = vec![0; 0x80];
    (memory[0], memory[8]) = (0x40, 4);
    let told = reading(&Capture::new(memory, vec![events(Some((0x40, false)))]));
    assert_eq!((told.trbs(), told.end), (0, Ending::Blank));
}

/// The driver has written 0x0 and 0x10 and says so; the TRB at 0x20 is fresh all the same, a left-over of another ring.
#[test]
fn fresh_trbs_that_the_driver_did_not_write() {
    let fresh = trb(NORMAL, true);
    let memory = memory(0x40, &[(0, fresh), (0x10, fresh), (0x20, fresh)]);
    let told = reading(&Capture::new(
        memory,
        vec![linked(0, writes(0x10, 0x20, true))],
    ));
    assert_eq!(
        listed(&told),
        [(0, Done), (0x10, Pending), (0x20, Stage::Beyond)]
    );
}

/// A driver that holds back its first TRB, whose cycle bit is then the other one, while it writes the second.
#[test]
fn a_first_trb_that_is_held_back() {
    let memory = memory(0x40, &[(0, trb(NORMAL, false)), (0x10, trb(NORMAL, true))]);
    let capture = Capture::new(memory, vec![linked(0, writes(0, 0x20, true))]);
    let told = reading(&capture);
    assert_eq!(told.end, Ending::Unmet(0x20));
    assert!(listed(&told).iter().all(|(_, stage)| *stage == Unknown));
    let (words, json) = last_lines(&capture);
    assert!(
        !words.contains("pending") && !json.contains("pending"),
        "{words}"
    );
}

#[test]
fn a_first_slot_that_does_not_lead_to_the_driver() {
    let memory = memory(0x80, &[(0, trb(NORMAL, true)), (0x40, trb(NORMAL, true))]);
    let capture = Capture::new(memory, vec![linked(0, writes(0x40, 0x50, true))]);
    let told = reading(&capture);
    assert_eq!(listed(&told), [(0, Unknown), (0x40, Pending)]);
    let line = "  history NOT LOOKED AT from 0x10 on: the TRB there is of another pass";
    let shown = shown(&capture, false);
    assert!(shown.iter().any(|shown| shown == line), "{shown:?}");
    let (_, json) = last_lines(&capture);
    assert!(json.contains(r#""history":"NOT LOOKED AT""#), "{json}");
}

/// History that is cut, that an image does not hold, that a broken entry ends: what can be seen is shown, and the rest told.
#[test]
fn history_that_was_not_come_to_is_told() {
    let told = |capture: &Capture, most| {
        let reading = read(capture, &capture.rings[0], most).remove(0);
        let unseen = reading.unseen.clone().map(|(_, why)| why);
        let listed: Vec<u64> = listed(&reading).iter().map(|(place, _)| *place).collect();
        (listed, unseen)
    };
    // The second pass of one segment: 0x60, 0x70, 0x40 are done, 0x50 waits.
    let capture = Capture::new(second_pass(), vec![events(Some((0x50, false)))]);
    assert_eq!(told(&capture, 4), (vec![0x60, 0x70, 0x40, 0x50], None));
    assert_eq!(
        told(&capture, 3),
        (vec![0x60, 0x70, 0x50], Some(Ending::Cut))
    );
    assert_eq!(told(&capture, 1), (vec![0x50], Some(Ending::Cut)));
    // Two segments, of which the second is not in the image, or broken.
    let (two, ring) = two_entries(0x80, 1, (0x50, false));
    let held = image("first_segment", &two, 0, ring);
    assert_eq!(
        told(&held, MOST),
        (vec![0x60, 0x40, 0x50], Some(Ending::Missing(0x80)))
    );
    let (two, ring) = two_entries(0x81, 1, (0x50, false));
    let broken = Capture::new(two, vec![ring]);
    let (listed, why) = told(&broken, MOST);
    assert_eq!(
        (listed, why.map(|why| why.tone())),
        (vec![0x60, 0x40, 0x50], Some(Tone::Refused))
    );
}

/// The fresh event in the last slot before a broken entry cannot be taken, and is told of.
#[test]
fn a_fresh_event_that_cannot_be_taken() {
    let (memory, ring) = two_entries(0x81, 1, (0x70, true));
    let (words, json) = last_lines(&Capture::new(memory, vec![ring]));
    assert!(
        words.contains("at 0x70 stands a fresh event that cannot be taken"),
        "{words}"
    );
    assert!(words.contains("0 or more pending"), "{words}");
    assert!(json.contains(r#""pending_at_least":0"#), "{json}");
}

/// Two entries with the same slots: which of them the driver is in nobody knows.
#[test]
fn a_driver_on_a_slot_of_two_entries() {
    let (memory, ring) = two_entries(0x40, 4, (0x50, false));
    let told = reading(&Capture::new(memory, vec![ring]));
    assert_eq!(told.end, Ending::NoSlot(0x50));
}

#[test]
fn a_link_into_the_middle_lists_each_trb_once() {
    let memory = memory(
        0x30,
        &[
            (0x00, trb(NORMAL, true)),
            (0x10, trb(NORMAL, true)),
            (0x20, link(0x10, false, true)),
        ],
    );
    let capture = Capture::new(memory, vec![linked(0, writes(0, 0x20, true))]);
    let told = reading(&capture);
    assert_eq!(told.end, Ending::GoesRound);
    assert_eq!(listed(&told), [(0x00, Pending), (0x10, Pending)]);
}

/// Fresh TRBs without an end: fewer are listed.
#[test]
fn a_ring_of_a_million_lines_is_cut() {
    let mut memory = trb(NORMAL, false).repeat(1 << 20);
    memory[..16].copy_from_slice(&link(0x10, true, true));
    let capture = Capture::new(memory, vec![linked(0, writes(0, 0, true))]);
    let told = reading(&capture);
    assert_eq!(
        (told.end, told.at),
        (Ending::Cut, (16 * (1 + MOST as u64), false))
    );
    let lines = shown(&capture, true);
    assert_eq!(lines.len(), MOST + 1);
    assert!(
        lines[MOST].contains(r#""end":"NOT LOOKED AT""#),
        "{}",
        lines[MOST]
    );
    let (words, _) = last_lines(&capture);
    assert!(
        words.starts_with("  NOT LOOKED AT: the ring goes on at 0x40010"),
        "{words}"
    );
}

/// The number is for all rings together, and a ring that is whole within it is not cut.
#[test]
fn rings_share_the_lines() {
    let ring = || linked(0, writes(0x20, 0x20, true));
    let memory = memory(0x30, &[(0, trb(NORMAL, true)), (0x10, trb(NORMAL, true))]);
    let capture = Capture::new(memory, vec![ring(), ring()]);
    let shown = |most| {
        let mut shown = Vec::new();
        let out = &mut Output::plain(&mut shown);
        show(&capture, true, most, out).expect("a Vec takes all");
        let shown = String::from_utf8(shown).expect("text");
        (
            shown.lines().count(),
            shown.matches("NOT LOOKED AT").count(),
        )
    };
    assert_eq!(shown(4), (4 + 2, 0));
    // The second ring's history is not whole: a word in `history`.
    assert_eq!(shown(3), (3 + 2, 1));
    assert_eq!(shown(0), (2, 2));
}

#[test]
fn what_is_not_known_has_a_colour_of_its_own() {
    let memory = memory(0x30, &[(0, trb(NORMAL, true))]);
    let capture = Capture::new(memory, vec![linked(0, writes(0, 0x20, true))]);
    let mut shown = Vec::new();
    show(&capture, false, MOST, &mut Output::new(&mut shown, true)).expect("a Vec takes all");
    let shown = String::from_utf8(shown).expect("text");
    assert!(shown.contains("\x1b[1;35m  NOT LOOKED AT"), "{shown}");
}

/// A raw image that begins at an address.
fn image(name: &str, bytes: &[u8], base: u64, ring: Ring) -> Capture {
    Capture::of_image(&file(name, bytes), base, vec![ring]).expect("an image")
}

fn unsaid(first: u64, cycle: Option<bool>) -> Ring {
    Ring {
        kind: Kind::Any,
        start: Start::Linked(first, cycle),
        driver: None,
        ..events(None)
    }
}

#[test]
fn memory_that_an_image_does_not_hold() {
    // A Link to 0x0, with toggle, in an image that begins at 0x10.
    let out = link(0, true, true);
    let told = reading(&image("out", &out, 0x10, unsaid(0x10, Some(true))));
    assert_eq!((told.trbs(), told.end), (0, Ending::Missing(0)));
    // The TRB before the image, the one behind it, and one that begins before it.
    for place in [0x30, 0x50, 0x38] {
        let told = reading(&image("before", &[0; 16], 0x40, unsaid(place, Some(false))));
        assert_eq!((told.trbs(), told.end), (0, Ending::Missing(place)));
    }
    // One that begins in an image which ends at 2^64: no memory whatever would do.
    let told = reading(&image(
        "last",
        &[0; 16],
        u64::MAX - 15,
        unsaid(u64::MAX - 7, Some(true)),
    ));
    assert_eq!((told.trbs(), told.end.tone()), (0, Tone::Refused));
    let told = reading(&image("inside", &[0; 16], 0x40, unsaid(0x40, Some(true))));
    assert_eq!(told.end.tone(), Tone::Nothing);
}

#[test]
fn a_table_or_a_segment_that_an_image_does_not_hold() {
    let told = reading(&image("table", &[0; 64], 0x40, events(None)));
    assert_eq!((told.trbs(), told.end), (0, Ending::Missing(0)));
    // A table in the image; its segment of two slots ends behind it, or is held.
    let mut bytes = [0; 0x60];
    (bytes[0], bytes[8]) = (0x40, 2);
    let end = |bytes: &[u8]| reading(&image("segment", bytes, 0, events(Some((0x40, true))))).end;
    assert_eq!(end(&bytes[..0x5f]), Ending::Missing(0x5f));
    assert_eq!(end(&bytes).tone(), Tone::Nothing);
    // No memory whatever would do.
    bytes[8] = 0;
    assert_eq!(end(&bytes[..0x5f]).tone(), Tone::Refused);
}

#[test]
fn a_cycle_state_that_nobody_said_is_read_as_both() {
    let fresh = trb(NORMAL, true);
    let capture = image("both", &fresh, 0, unsaid(0, None));
    let readings = read(&capture, &capture.rings[0], MOST);
    let told: Vec<_> = readings
        .iter()
        .map(|reading| (reading.supposed, listed(reading)))
        .collect();
    assert_eq!(
        told,
        [(Some(true), vec![(0, Unknown)]), (Some(false), vec![])]
    );
    let (words, json) = last_lines(&capture);
    assert!(
        words.starts_with("  UNKNOWN, as nobody said the cycle state; if it is 0: nothing new"),
        "{words}"
    );
    assert!(json.contains(r#""end":"UNKNOWN""#), "{json}");
    assert!(
        json.contains(r#""if_cycle":0,"then":"nothing new""#),
        "{json}"
    );
}

#[test]
fn events_of_an_image_whose_driver_nobody_said() {
    let capture = image("driver", &second_pass(), 0, events(None));
    let told = reading(&capture);
    assert_eq!((&told.end, told.at), (&Ending::NoDriver, (0x60, false)));
    assert_eq!(
        listed(&told),
        [0x60, 0x70, 0x40, 0x50].map(|slot| (slot, Unknown))
    );
}

#[test]
fn a_refused_table_meets_no_link() {
    let mut memory = vec![0; 0x40];
    memory[12..14].copy_from_slice(&[1, 6 << 2]);
    let ring = Ring {
        start: Start::Table(0x20, 1),
        ..events(None)
    };
    let (told, _) = last_lines(&Capture::new(memory, vec![ring]));
    assert!(
        told.contains("refused 2") && !told.contains("LINK"),
        "{told}"
    );
}

#[test]
fn a_capture_without_rings_is_a_misuse() {
    let folder = file("none/trbs.txt", b"");
    let folder = folder.parent().expect("a folder");
    fs::write(folder.join("rings.txt"), "").expect("a file");
    assert!(Capture::of_folder(folder, 64).is_err());
}

/// A lesson's lines as a script: where lines were left out it stops, and gives no answer without them.
#[test]
fn a_lesson_with_lines_left_out_is_no_script() {
    let mut told = Vec::new();
    tell(1, &mut Output::plain(&mut told)).expect("a Vec takes all");
    let told = String::from_utf8(told).expect("text");
    let script: String = told
        .lines()
        .filter_map(|line| line.trim_start().strip_prefix("> "))
        .map(|line| format!("{line}\n"))
        .collect();
    let mut answers = Vec::new();
    let done = run::run(
        &mut script.as_bytes(),
        false,
        &mut Output::plain(&mut answers),
    );
    assert!(done.is_err());
    let answers = String::from_utf8(answers).expect("text");
    assert_eq!(answers.matches("GAVE UP").count(), 1, "{answers}");
}

/// A file of these bytes in a folder of its own.
fn file(name: &str, bytes: &[u8]) -> PathBuf {
    let file = PathBuf::from(env!("CARGO_TARGET_TMPDIR")).join(name);
    fs::create_dir_all(file.parent().expect("a folder")).expect("a folder");
    fs::write(&file, bytes).expect("a file");
    file
}
