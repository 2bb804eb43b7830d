//! Random scripts, bytes and captures: each gives an answer or a fault, and never a panic.

use lab::capture::{Capture, Driver, Ring, Start};
use lab::output::{Output, Stop};
use lab::picture::picture;
use lab::run::{each, run};
use lab::script::FORMS;
use lab::show::show;
use lab::trbs::Kind;
use lab::world::Answer;
use std::collections::BTreeSet;

/// Marsaglia's xorshift with 64 bits: the same numbers at every run.
struct Random(u64);

impl Random {
    fn next(&mut self) -> u64 {
        self.0 ^= self.0 << 13;
        self.0 ^= self.0 >> 7;
        self.0 ^= self.0 << 17;
        self.0
    }

    fn below(&mut self, limit: u64) -> u64 {
        self.next() % limit
    }

    fn one_in(&mut self, n: u64) -> bool {
        self.below(n) == 0
    }

    fn pick<T: Copy>(&mut self, list: &[T]) -> T {
        list[self.below(list.len() as u64) as usize]
    }

    fn bytes(&mut self, length: u64) -> Vec<u8> {
        (0..length).map(|_| self.next() as u8).collect()
    }
}

const NUMBERS: &[u64] = &[
    0,
    1,
    2,
    13,
    16,
    30,
    0x20,
    0x40,
    0x80,
    0x100,
    0x110,
    0x140,
    0x3f0,
    255,
    0xffff_fff0,
    0x100_0000,
    0xffff_ffff_ffff_ffff,
    0xffff_ffff_ffff_fff0,
];

/// Where the memory of a script begins: at 0, high, or so that it ends at 2^64.
const STARTS: &[u64] = &[0, 0, 0x12_3456_7000, 0xffff_ffff_ffff_fc00];

/// One of the numbers, or an address so far from `start`; in decimal or hex digits.
fn number(random: &mut Random, start: u64) -> String {
    let number = random.pick(NUMBERS);
    let moved = random.pick(&[0, start, start]).wrapping_add(number);
    match random.one_in(2) {
        true => format!("{moved:#x}"),
        false => moved.to_string(),
    }
}

const UNREADABLE: &[&str] = &[
    "",
    "x",
    "-1",
    "0x",
    "18446744073709551616",
    "0xg",
    "é",
    "\u{0}",
    "=",
    "port=",
];

fn hex(bytes: &[u8]) -> String {
    bytes.iter().map(|byte| format!("{byte:02x}")).collect()
}

/// A TRB of any type, often a Link, with a pointer that is often inside memory, which begins at `start`.
fn trb(random: &mut Random, start: u64) -> [u8; 16] {
    let mut trb = [0; 16];
    let low = random.pick(&[0, 0, 0x10, 0x40, 0x80, 0x08, 0x47]);
    let high = random.pick(&[0, 0, 0x100, 0x300, 0x400]);
    trb[..8].copy_from_slice(&start.wrapping_add(low + high).to_le_bytes());
    trb[8] = random.pick(&[0, 1, 64]);
    trb[11] = random.pick(&[0, 1, 13, 30, 200]);
    trb[12] = random.next() as u8;
    let any = random.below(64) as u8;
    trb[13] = random.pick(&[6, 6, 1, 3, 11, 16, 18, 32, 33, 34, any]) << 2;
    trb[15] = random.pick(&[0, 1]);
    if random.one_in(8) {
        trb = random.bytes(16).try_into().expect("sixteen");
    }
    trb
}

fn event(random: &mut Random) -> String {
    match random.below(4) {
        0 => format!("port={}", random.below(256)),
        1 => format!(
            "command pointer={} parameter={}",
            number(random, 0),
            random.below(1 << 25)
        ),
        2 => format!(
            "transfer length={} code={}",
            random.below(1 << 25),
            random.below(256)
        ),
        _ => format!(
            "transfer pointer={} slot=3 flag=1 code=1",
            number(random, 0)
        ),
    }
}

/// One of the known forms, with what stands in brackets or without it.
fn form(random: &mut Random) -> String {
    let (form, _) = random.pick(FORMS);
    match form.split_once(" [") {
        Some((form, _)) if random.one_in(4) => form.to_owned(),
        _ => form.replace(['[', ']'], ""),
    }
}

/// A command on memory that begins at `start`.
fn line(random: &mut Random, start: u64) -> String {
    let form = form(random);
    let mut words = Vec::new();
    for word in form.split(' ') {
        let number = number(random, start);
        words.push(match word {
            _ if random.one_in(2000) => random.pick(UNREADABLE).to_owned(),
            "LENGTH" => random
                .pick(&["0", "1", "16", "0x400", "0x400", "1000"])
                .to_owned(),
            "START" => format!("{start:#x}"),
            "HEX" if form.starts_with("write_trb") => hex(&trb(random, start)),
            "HEX" => {
                let length = 1 + random.below(20);
                hex(&random.bytes(length))
            }
            "BYTE" => random.below(256).to_string(),
            "TRB" if random.one_in(2) => format!("at {number}"),
            "TRB" => hex(&trb(random, start)),
            "CYCLE" => random.below(2).to_string(),
            "EVENT" => event(random),
            "NAME" => random.pick(&["a", "b"]).to_owned(),
            "TABLE" => {
                let from_start = random.pick(&[0, 0, 0, 0x40, 0x20, 0x400]);
                start.wrapping_add(from_start).to_string()
            }
            "ENTRIES" => random.pick(&["1", "2", "2", "3", "0", "17"]).to_owned(),
            "FIELDS" => format!(
                "ready=1 place={number} entries=2 remaining={} cycle=1",
                random.below(4)
            ),
            word if word.chars().all(char::is_uppercase) => number,
            word => word.to_owned(),
        });
    }
    words.join(" ")
}

/// Memory with a table of two segments, and all names made; then random commands.
fn script(random: &mut Random, lines: u64) -> String {
    let start = random.pick(STARTS);
    let [first, second] = [0x100, 0x140].map(|base| hex(&u64::to_le_bytes(start + base)));
    let mut script = format!(
        "memory 0x400 at {start}\npoke {start} {first} 02000000 00000000 {second} 03000000\n"
    );
    for name in ["a", "b"] {
        let place = start + 0x40;
        script += &format!("linked {name} new {place} 1\nring {name} new\nreader {name} new\n");
        script += &format!("ring {name} configure {start} 2\nreader {name} configure {start} 2\n");
    }
    for _ in 0..lines {
        script += &line(random, start);
        script.push('\n');
    }
    script
}

/// A run that ended by itself or by a fault of the script.
fn fine<T>(ended: Result<T, Stop>) {
    if let Err(Stop::Output(error)) = ended {
        panic!("{error}");
    }
}

#[test]
fn random_scripts_reach_every_refusal_and_never_a_panic() {
    let mut random = Random(0x9e37_79b9_7f4a_7c15);
    let (mut refusals, mut words) = (BTreeSet::new(), BTreeSet::new());
    let mut commands = 0;
    for _ in 0..2500 {
        let script = script(&mut random, 60);
        fine(each(&mut script.as_bytes(), &mut |step| {
            if let Answer::Refused(refusal, _) = step.answer {
                refusals.insert(refusal.number());
            }
            words.insert(step.answer.brief().0);
            commands += 1;
            assert!(!step.answer.to_string().contains('\n'), "{}", step.line);
            Ok(())
        }));
    }
    assert!(refusals.into_iter().eq(1..=13));
    for word in [
        "TRB",
        "nothing new",
        "GAVE UP",
        "accepted",
        "taken",
        "none",
        "configured",
    ] {
        assert!(words.contains(word), "no script came to {word:?}");
    }
    assert!(
        commands > 50_000,
        "{commands} commands: the scripts stop too early"
    );
}

#[test]
fn random_scripts_as_json_and_as_pictures() {
    let mut random = Random(2);
    for _ in 0..150 {
        let script = script(&mut random, 40);
        let mut out = Vec::new();
        fine(run(
            &mut script.as_bytes(),
            true,
            &mut Output::plain(&mut out),
        ));
        fine(picture(
            &mut script.as_bytes(),
            false,
            &mut Output::plain(&mut out),
        ));
        fine(picture(
            &mut script.as_bytes(),
            true,
            &mut Output::plain(&mut out),
        ));
    }
}

#[test]
fn random_bytes_as_scripts() {
    let mut random = Random(3);
    for _ in 0..20_000 {
        let length = random.below(200);
        let bytes = random.bytes(length);
        fine(run(
            &mut &bytes[..],
            false,
            &mut Output::plain(&mut Vec::new()),
        ));
    }
}

#[test]
fn good_scripts_with_bytes_changed() {
    let mut random = Random(4);
    for _ in 0..2000 {
        let mut bytes = script(&mut random, 10).into_bytes();
        for _ in 0..3 {
            let at = random.below(bytes.len() as u64) as usize;
            bytes[at] = random.pick(b"0123456789abcdefx =#\n\r\t.,-_GZ\xff\x00");
        }
        fine(run(
            &mut &bytes[..],
            false,
            &mut Output::plain(&mut Vec::new()),
        ));
    }
}

/// A line that begins with "nothing new" or "none" says nothing else further on.
fn hold_to_its_beginning(shown: &str) {
    for line in shown.lines() {
        let begins = |word| line.trim_start().starts_with(word);
        if begins("nothing new") || begins("none") {
            for word in ["BUT", "UNKNOWN", "NOT LOOKED AT", "this is not"] {
                assert!(!line.contains(word), "{line}");
            }
        }
    }
}

/// Random TRBs as memory, with rings in it and outside. Memory that begins above 0 is an image.
fn capture(random: &mut Random) -> Capture {
    let base = random.pick(STARTS);
    let mut memory = Vec::new();
    for _ in 0..random.below(64) {
        memory.extend(trb(random, base));
    }
    memory.truncate(memory.len() - memory.len().min(random.below(20) as usize));
    let at = |from_base| base.wrapping_add(from_base);
    let starts = [
        Start::Linked(at(random.below(1 << 11)), Some(random.one_in(2))),
        Start::Linked(random.next(), None),
        Start::Table(at(64 * random.below(16)), random.below(4) as u16),
        Start::Table(random.next(), random.next() as u16),
    ];
    let kinds = [Kind::Command, Kind::Transfer, Kind::Event, Kind::Any];
    let places = [0x40, 0x13, u64::MAX - 15].map(|place| Some(at(place)));
    let ring = |start| Ring {
        kind: random.pick(&kinds),
        name: "\"\n".to_owned(),
        start,
        driver: random.one_in(2).then(|| Driver {
            dequeue: at(random.pick(&[0, 0x10, 0x40, 0x100, u64::MAX])),
            enqueue: random.pick(&[None, places[0], places[1], places[2]]),
            cycle: random.one_in(2),
        }),
    };
    let rings = starts.map(ring).into();
    match base {
        0 => Capture::new(memory, rings),
        _ => Capture::of_bytes(memory, base, rings).expect("it ends at 2^64 at most"),
    }
}

#[test]
fn random_memory_as_captures() {
    let mut random = Random(5);
    for _ in 0..2000 {
        let capture = capture(&mut random);
        let mut out = Vec::new();
        for (json, most) in [(false, 1000), (true, 1000), (true, 3), (false, 0)] {
            fine(show(&capture, json, most, &mut Output::plain(&mut out)));
        }
        hold_to_its_beginning(&String::from_utf8(out).expect("text"));
    }
}
