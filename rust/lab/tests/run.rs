//! Scripts: document 01's marked cases, and what stops a script.

use lab::output::{Output, Stop};
use lab::run::run;

/// The answer lines, and what stopped the script.
fn answers(script: &str) -> (Vec<String>, Result<(), String>) {
    let mut said = Vec::new();
    let ended = run(&mut script.as_bytes(), false, &mut Output::plain(&mut said));
    let said = String::from_utf8(said).expect("text");
    let ended = ended.map_err(|stop| match stop {
        Stop::Misuse(fault) => fault,
        Stop::Output(error) => panic!("{error}"),
    });
    (said.lines().map(str::to_owned).collect(), ended)
}

fn last(script: &str) -> String {
    let (answers, ended) = answers(script);
    assert_eq!(ended, Ok(()), "{script}");
    answers.last().expect("an answer").clone()
}

#[test]
fn events_of_the_marked_cases() {
    for (event, bytes) in [
        (
            "1 command pointer=0x1000 parameter=0 code=1 slot=1",
            "00 10 00 00 00 00 00 00 00 00 00 01 01 84 00 01",
        ),
        (
            "0 port=3",
            "00 00 00 03 00 00 00 00 00 00 00 01 00 88 00 00",
        ),
        (
            "1 transfer pointer=0x2010 length=5 code=13 flag=1 endpoint=3 slot=2",
            "10 20 00 00 00 00 00 00 05 00 00 0d 05 80 03 02",
        ),
    ] {
        assert_eq!(
            last(&format!("event_bytes {event}")),
            format!("bytes: {bytes}")
        );
        let read = last(&format!("parse_event {bytes}"));
        let fields = event.split_once(' ').expect("a cycle and fields").1;
        assert!(read.contains(fields), "{read}");
    }
}

#[test]
fn parsers_of_the_marked_cases() {
    assert!(last("parse_command 0800000000000000 00000000 002c0000").starts_with("refused 11: "));
    let set_dequeue = last("parse_command 4700000000000000 00003412 01400000");
    for field in [
        "cycle=1 ",
        "context_type=3 ",
        "pointer=0x40 ",
        "stream=0x1234 ",
    ] {
        assert!(set_dequeue.contains(field), "{set_dequeue}");
    }
    assert!(last("parse_transfer 0000000000000000 00000000 00180000")
        .starts_with("refused 10: type 6 "));
    assert!(last("parse_command 0000000000000000 00000000 00480000").starts_with("refused 9: "));
}

#[test]
fn links_of_the_marked_cases() {
    let itself = |flags| {
        last(&format!(
            "memory 16\nwrite_trb 0 0000000000000000 00000000 {flags}180000\nlinked a new 0 1\nlinked a next_trb"
        ))
    };
    assert!(itself("01").starts_with("GAVE UP: 256 links followed and one more stands at 0x0"));
    assert_eq!(
        itself("03"),
        "nothing new: the next TRB, at 0x0, is stale (1 link followed, cycle state 0)"
    );
}

#[test]
fn rings_of_the_marked_cases() {
    let ring = |entries: &[(u8, u8)], reports: &[&str]| {
        let mut script = "memory 0x400\nring r new\n".to_owned();
        for (n, (base, size)) in entries.iter().enumerate() {
            script += &format!("poke {} 00{base:02x}000000000000 {size:02x}\n", 16 * n);
        }
        script += &format!("ring r configure 0 {}\n", entries.len());
        let adds = reports
            .iter()
            .map(|report| format!("ring r add {report} port=1\n"));
        let (answers, ended) = answers(&(script + &adds.collect::<String>()));
        assert_eq!(ended, Ok(()));
        let start = answers.len() - reports.len();
        let brief = |answer: &String| answer.split([';', ':']).next().unwrap_or("").to_owned();
        answers[start..].iter().map(brief).collect::<Vec<_>>()
    };
    assert_eq!(
        ring(&[(1, 2)], &["0x100", "0x100", "0x110", "0x110", "0x100"]),
        [
            "accepted at 0x100 with cycle 1",
            "refused 7",
            "accepted at 0x110 with cycle 1",
            "refused 7",
            "accepted at 0x100 with cycle 0",
        ]
    );
    assert_eq!(
        ring(&[(1, 1)], &["0x100", "0x100"]),
        ["refused 7", "refused 7"]
    );
    assert_eq!(
        ring(&[(1, 1), (2, 1)], &["0x100", "0x100", "0x200"]),
        [
            "accepted at 0x100 with cycle 1",
            "refused 7",
            "accepted at 0x200 with cycle 1"
        ]
    );
}

#[test]
fn a_code_that_is_not_listed_is_refused_by_the_core() {
    assert!(last("event_bytes 1 transfer code=30").starts_with("refused 12: "));
    assert!(last("code_of 30").starts_with("refused 12: "));
}

#[test]
fn a_line_that_cannot_be_read_stops_with_nothing_of_it_done() {
    let (said, ended) =
        answers("memory 4\n\n# a comment\npoke 0 ff\npeek 0 4\npoke 0 0x00\npeek 0 4");
    assert_eq!(
        said,
        [
            "memory: 4 bytes, all 0",
            "poked: 1 byte at 0x0",
            "4 bytes at 0x0: ff 00 00 00"
        ]
    );
    let fault = ended.unwrap_err();
    assert!(fault.starts_with("line 6: HEX has 'x'"), "{fault}");
    let (_, ended) = answers("ring events configure 0 1");
    assert_eq!(
        ended.unwrap_err(),
        "line 1: there is no ring called events; it is made by: ring events new"
    );
}

#[test]
fn scripts_of_odd_kinds() {
    assert_eq!(answers(""), (vec![], Ok(())));
    assert_eq!(answers("\n\r\n  # nothing\n"), (vec![], Ok(())));
    assert_eq!(answers("memory 0").0, ["memory: 0 bytes, all 0"]);
    let far = "linked a new 18446744073709551615 1\nlinked a next_trb\nlinked a advance";
    assert_eq!(
        answers(far).0,
        [
            "place 0xffffffffffffffff, cycle state 1",
            "refused 1: a byte to be touched is outside the lent memory",
            "place 0xf, cycle state 1",
        ]
    );
    let long = format!("poke 0 {}", "0".repeat(2 << 20));
    assert!(answers(&long)
        .1
        .unwrap_err()
        .contains("longer than 1048576 bytes"));
    let mut out = Vec::new();
    let ended = run(
        &mut &b"memory 4\n\xff\n"[..],
        false,
        &mut Output::plain(&mut out),
    );
    assert!(matches!(ended, Err(Stop::Misuse(fault)) if fault == "line 2: is not text in UTF-8"));
}

#[test]
fn a_million_lines_have_a_million_answers() {
    let script = "read8 0\n".repeat(1_000_000);
    let mut said = Vec::new();
    run(&mut script.as_bytes(), false, &mut Output::plain(&mut said)).expect("each can be read");
    let answer = b"refused 1: a byte to be touched is outside the lent memory\n";
    assert!(said.chunks(answer.len()).all(|line| line == answer));
    assert_eq!(said.len(), 1_000_000 * answer.len());
}

#[test]
fn the_answers_of_a_chase_differ_in_colour_too() {
    let script = "memory 0x30\nlinked a new 0 1\nlinked a next_trb\n\
        write_trb 0 0000000000000000 00000000 01180000\nlinked a next_trb\n\
        write_trb 0 0000000000000000 00000000 01040000\nlinked a next_trb\n\
        linked a set_place 0x30 1\nlinked a next_trb\n";
    let mut said = Vec::new();
    run(
        &mut script.as_bytes(),
        false,
        &mut Output::new(&mut said, true),
    )
    .expect("can be read");
    let said = String::from_utf8(said).expect("text");
    let starts: Vec<&str> = said
        .lines()
        .filter_map(|line| line.split_once(':'))
        .map(|(start, _)| start)
        .collect();
    let coloured: Vec<&str> = starts
        .into_iter()
        .filter(|start| start.starts_with('\x1b'))
        .collect();
    assert_eq!(
        coloured,
        [
            "\x1b[36mnothing new",
            "\x1b[1;31mGAVE UP",
            "\x1b[32mTRB at 0x0",
            "\x1b[33mrefused 1"
        ]
    );
}

#[test]
fn json_has_the_number_by_its_name() {
    let mut said = Vec::new();
    let script = "\ncode_of 30\nmemory 4\n";
    run(&mut script.as_bytes(), true, &mut Output::plain(&mut said)).expect("each can be read");
    assert_eq!(
        String::from_utf8(said).expect("text"),
        "{\"line\":2,\"answer\":\"refused\",\"refusal\":12,\"words\":\"refused 12: the event cannot hold this completion code\"}\n\
         {\"line\":3,\"answer\":\"done\",\"words\":\"memory: 4 bytes, all 0\"}\n"
    );
}

/// A ring whose segment ends where memory does, its reader, a Link to its first slot, and a part of memory; all addresses are
/// counted from `start`.
fn script_at(start: u64) -> String {
    let at = |offset: u64| format!("{:#x}", start + offset);
    let bytes = |offset: u64| format!("{:016x}", (start + offset).swap_bytes());
    [
        format!("memory 0x100 at {start}"),
        format!("poke {} {} 04000000", at(0), bytes(0xc0)),
        format!("ring r new\nring r configure {} 1", at(0)),
        format!("reader d new\nreader d configure {} 1", at(0)),
        format!("ring r add {} port=1\n", at(0xc0)).repeat(4),
        "reader d take\n".repeat(4),
        format!("ring r add {} port=2\nreader d take", at(0xf0)),
        format!("write_trb {} {} 00000000 01180000", at(0x40), bytes(0xc0)),
        format!("linked l new {} 1\nlinked l next_trb", at(0x40)),
        format!(
            "linked l set_place {} 1\nlinked l advance\nlinked l next_trb",
            at(0xf0)
        ),
        format!("data_mut 7 {} 02000000 00040000", bytes(0xfe)),
        format!("peek {} 2\npeek {} 3", at(0xfe), at(0xfe)),
    ]
    .join("\n")
}

/// An answer whose addresses are told from `start` on.
fn from(start: u64, answer: &str) -> String {
    const ENDS: [char; 4] = [' ', ',', ':', ';'];
    let moved = |piece: &str| {
        let word = piece.trim_end_matches(ENDS);
        // A byte has a 0 before its one digit, an address none.
        let digits = word.strip_prefix("0x").filter(|word| *word != "07");
        match digits.and_then(|digits| u64::from_str_radix(digits, 16).ok()) {
            Some(address) => {
                let end = &piece[word.len()..];
                format!("{:#x}{end}", address.wrapping_sub(start))
            }
            None => piece.to_owned(),
        }
    };
    answer.split_inclusive(ENDS).map(moved).collect()
}

#[test]
fn memory_that_begins_elsewhere_moves_the_answers() {
    let (at_zero, ended) = answers(&script_at(0));
    assert_eq!(ended, Ok(()));
    for (beginning, times) in [
        ("accepted at 0xc0", 1),
        ("refused 7", 1),
        ("none: the slot at 0xf0 is stale", 1),
        ("accepted at 0xf0", 1),
        ("TRB at 0xc0: Port Status Change Event (34)", 1),
        ("place 0x100, cycle state 1", 1),
        ("refused 1", 2),
        ("2 bytes at 0xfe: 07 07", 1),
    ] {
        let like = |answer: &&String| answer.starts_with(beginning);
        assert_eq!(at_zero.iter().filter(like).count(), times, "{beginning}");
    }
    for start in [0x40, 0x12_3456_7000, 0xffff_ffff_ffff_ff00] {
        let (answers, ended) = answers(&script_at(start));
        assert_eq!(ended, Ok(()));
        let moved: Vec<String> = answers.iter().map(|answer| from(start, answer)).collect();
        // The first says where memory begins.
        assert_eq!(moved[1..], at_zero[1..]);
    }
}
