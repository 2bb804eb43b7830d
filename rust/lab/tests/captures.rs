//! What captures must come to: the small one of this repository, and those beside it where they are at hand.

use lab::capture::{Capture, LENGTH};
use lab::output::{Output, Stop};
use lab::show::{show, MOST};
use lab::trbs::{self, Kind};
use lab::walk::{read, Ending, Reading, Stage};
use lab::words::Tone;
use lab::world::Answer;
use std::io::{self, Write};
use std::path::{Path, PathBuf};
use std::{env, fs};

fn repository() -> PathBuf {
    Path::new(env!("CARGO_MANIFEST_DIR")).join("../..")
}

fn small() -> PathBuf {
    repository().join("captures/small")
}

/// The capture of Linux, if it is at hand: in shared/captures beside the repository, or where LOMVIGAST_CAPTURES says.
fn shared() -> Option<PathBuf> {
    let beside = repository().join("../shared/captures");
    let captures = env::var_os("LOMVIGAST_CAPTURES").map_or(beside, PathBuf::from);
    let folder = captures.join("linux-6.1-qemu-xhci");
    if folder.exists() {
        return Some(folder);
    }
    // Not by `eprintln!`, which the test runner would keep to itself.
    let _ = writeln!(
        io::stderr(),
        "left out: the capture of Linux, as there is no {folder:?}"
    );
    None
}

fn capture(folder: &Path) -> Capture {
    match Capture::of_folder(folder, LENGTH) {
        Ok(capture) => capture,
        Err(stop) => panic!("{stop:?}"),
    }
}

/// Every line of linux.txt is what the lab says of the TRB there. The number of lines.
fn agrees_with_linux(folder: &Path) -> usize {
    let capture = capture(folder);
    let lines = fs::read_to_string(folder.join("linux.txt")).expect("linux.txt");
    for line in lines.lines() {
        let (address, words) = line.split_once(' ').expect("address and words");
        let address = lab::lines::number("ADDRESS", address).expect("a number");
        let trb = capture.memory().read_trb(address).expect("in memory");
        assert_eq!(
            trbs::line(Kind::Any, &trb).as_deref(),
            Ok(words),
            "{address:#x}"
        );
    }
    lines.lines().count()
}

/// Each ring by its name, as it is read.
fn readings(capture: &Capture) -> Vec<(String, Reading)> {
    let reading = |ring: &lab::capture::Ring| {
        let [reading] = <[Reading; 1]>::try_from(read(capture, ring, MOST))
            .unwrap_or_else(|_| panic!("{}: its cycle state was said", ring.name));
        (ring.name.clone(), reading)
    };
    capture.rings.iter().map(reading).collect()
}

#[test]
fn the_small_capture_is_worded_as_written_by_hand() {
    assert_eq!(agrees_with_linux(&small()), 21);
}

#[test]
fn the_small_capture_ends_as_its_page_says() {
    let readings = readings(&capture(&small()));
    let told: Vec<_> = readings
        .iter()
        .map(|(name, reading)| {
            let answer = match &reading.end {
                Ending::Answer(answer) => Some(answer.brief()),
                _ => None,
            };
            let (done, pending) = (
                reading.of_stage(Stage::Done),
                reading.of_stage(Stage::Pending),
            );
            (name.as_str(), answer, reading.at.0, done, pending)
        })
        .collect();
    let nothing_new = Some(("nothing new", Some(("links", 0))));
    let gave_up = Some(("GAVE UP", Some(("links", 256))));
    let refused = Some(("refused", Some(("refusal", 1))));
    let none = Some(("none", Some(("slot", 0x2050))));
    let expected = [
        ("commands", nothing_new, 0x3000, 7, 0),
        ("control", nothing_new, 0x4030, 3, 0),
        ("circle", gave_up, 0x7110, 0, 1),
        ("outside", refused, 0x8010, 0, 1),
        ("round", None, 0x9000, 0, 1),
        ("events", none, 0x2050, 5, 0),
    ];
    assert_eq!(told, expected);
    assert_eq!(readings[4].1.end, Ending::GoesRound);
}

#[test]
fn what_is_shown_of_the_small_capture() {
    let mut shown = Vec::new();
    let out = &mut Output::plain(&mut shown);
    show(&capture(&small()), false, MOST, out).expect("a Vec takes all");
    let shown = String::from_utf8(shown).expect("text");
    for line in [
        "  0x00003050 refused 9: command type 18 is optional and not supported; bytes 00 00 00 00 00 00 00 00 00 00 00 00 01 48 00 00 (type 18, cycle 1, done)",
        "  0x00003060 refused 11: a bit is set that must be 0; bytes 08 50 00 00 00 00 00 00 00 00 00 00 01 2c 00 01 (type 11, cycle 1, done)",
        "  nothing new: the next TRB, at 0x3000, is stale (0 links followed, cycle state 0); 7 TRBs, 0 pending; the driver's own place is the same",
        "  GAVE UP: 256 links followed and one more stands at 0x7110, cycle state 1 (this is not \"nothing new\"); at 0x7110 stands LINK 0000000000007100 intr 0 type 'Link' flags i:c:t:C; 1 TRB, 1 pending; the driver's own place is 0x7010, cycle state 1",
        "  refused 1: a byte to be touched is outside the lent memory; at 0x8010 stands LINK 0000000008000000 intr 0 type 'Link' flags i:c:t:C; 1 TRB, 1 pending; the driver's own place is the same",
        "  none: the slot at 0x2050 is stale; 5 TRBs, 0 pending; the driver's own place is the same",
    ] {
        assert!(shown.lines().any(|shown| shown == line), "{line}\nis not in\n{shown}");
    }
}

#[test]
fn json_has_one_object_a_line() {
    let mut shown = Vec::new();
    let out = &mut Output::plain(&mut shown);
    show(&capture(&small()), true, MOST, out).expect("a Vec takes all");
    let shown = String::from_utf8(shown).expect("text");
    // Eighteen TRBs and six ends.
    assert_eq!(shown.lines().count(), 18 + 6);
    assert_eq!(
        shown.lines().next(),
        Some(
            r#"{"ring":"commands","address":"0x3000","type":9,"cycle":1,"links":0,"state":"done","bytes":"00 00 00 00 00 00 00 00 00 00 00 00 01 24 00 00","words":"Enable Slot Command: flags C"}"#
        )
    );
    let end = r#"{"ring":"circle","end":"GAVE UP","place":"0x7110","cycle":1,"trbs":1,"links":256,"driver":"0x7010","driver_cycle":1,"pending":1,"words":"GAVE UP: "#;
    assert!(shown.lines().any(|line| line.starts_with(end)), "{shown}");
}

#[test]
fn linux_and_the_lab_say_the_same_of_each_trb() {
    let Some(folder) = shared() else { return };
    assert_eq!(agrees_with_linux(&folder), 556);
}

/// What shared/captures/README.md says must come out, and that each TRB before Linux's dequeue place is done.
#[test]
fn the_readers_end_where_linux_stands() {
    let Some(folder) = shared() else { return };
    let capture = capture(&folder);
    let readings = readings(&capture);
    assert_eq!(readings.len(), 9);
    for ((name, reading), ring) in readings.iter().zip(&capture.rings) {
        let driver = ring.driver.expect("Linux says where it stands");
        assert_eq!(reading.at, driver.place(), "{name}");
        assert!(reading.at.1, "{name}");
        assert_eq!(reading.end.tone(), Tone::Nothing, "{name}");
        match ring.kind {
            Kind::Event => {
                let none = Ending::Answer(Answer::None(reading.at.0));
                assert_eq!((&reading.end, reading.trbs()), (&none, 198));
                assert_eq!(reading.of_stage(Stage::Done), 198);
            }
            _ => {
                // From Linux's dequeue place to its enqueue place, in one segment.
                let waiting = (driver.place().0 - driver.dequeue) / 16;
                assert_eq!(reading.of_stage(Stage::Pending) as u64, waiting, "{name}");
            }
        }
    }
}

/// Each TRB of Linux's command and transfer rings is listed once, done before its dequeue place and pending after.
#[test]
fn nothing_of_linux_is_left_out() {
    let Some(folder) = shared() else { return };
    let capture = capture(&folder);
    let readings = readings(&capture);
    let mut listed: Vec<u64> = readings
        .iter()
        .flat_map(|(_, reading)| &reading.parts)
        .flat_map(|part| &part.found)
        .map(|found| found.address)
        .collect();
    listed.sort_unstable();
    let lines = fs::read_to_string(folder.join("linux.txt")).expect("linux.txt");
    let mut said: Vec<u64> = lines
        .lines()
        .filter(|line| !line.contains(" LINK "))
        .map(|line| {
            let address = line.split(' ').next().expect("an address");
            lab::lines::number("ADDRESS", address).expect("a number")
        })
        .collect();
    said.sort_unstable();
    assert_eq!(listed, said);
}

/// What is said of the small capture with another text in place of one of its files.
fn broken(name: &str, file: &str, text: &str) -> String {
    let folder = std::env::temp_dir().join(format!("lomvigast-lab-{}-{name}", std::process::id()));
    fs::create_dir_all(&folder).expect("a folder for the test");
    for part in ["trbs.txt", "rings.txt"] {
        fs::copy(small().join(part), folder.join(part)).expect("a copy");
    }
    fs::write(folder.join(file), text).expect("a file for the test");
    let stop = Capture::of_folder(&folder, LENGTH).map(|_| ());
    fs::remove_dir_all(&folder).expect("the folder of the test");
    match stop {
        Err(Stop::Misuse(fault)) => fault,
        other => panic!("{other:?}"),
    }
}

const BROKEN: &[(&str, &str, &str)] = &[
    ("trbs.txt", "0x10 000", "line 1: BYTES has 3 hex digits"),
    ("trbs.txt", "\n0x10 0000", "line 2: 16 bytes, not 2"),
    (
        "trbs.txt",
        "0x0 00000000 00000000 00000000 00000000\n0x0 00000000 00000000 00000000 01000000",
        "line 2: 0x0 was listed before",
    ),
    (
        "trbs.txt",
        "0x08000000 00000000 00000000 00000000 00000000",
        "beyond the 134217728 bytes",
    ),
    (
        "trbs.txt",
        "0xffffffffffffffff 00000000 00000000 00000000 00000000",
        "beyond the 134217728 bytes",
    ),
    (
        "rings.txt",
        "bell b first 0 cycle 0 dequeue 0 enqueue 0",
        "\"bell\"",
    ),
    (
        "rings.txt",
        "event e first 0 cycle 0 dequeue 0 enqueue 0",
        "needs a line `table`",
    ),
    ("rings.txt", "command c first", "the first slot is missing"),
    ("rings.txt", "table 0 entries 65536", "2^16"),
];

#[test]
fn a_broken_capture_says_where() {
    for (n, (file, text, part)) in BROKEN.iter().enumerate() {
        let fault = broken(&n.to_string(), file, text);
        assert!(fault.contains(file) && fault.contains(part), "{fault}");
    }
}
