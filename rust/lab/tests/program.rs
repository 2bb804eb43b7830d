//! The program as a user runs it: exit status, help, and an end of the pipe.

use std::io::{BufRead, BufReader, Write};
use std::path::Path;
use std::process::{Command, Output, Stdio};

fn lab() -> Command {
    Command::new(env!("CARGO_BIN_EXE_lomvigast_lab"))
}

fn run(arguments: &[&str], input: &[u8]) -> Output {
    let mut child = lab()
        .args(arguments)
        .stdin(Stdio::piped())
        .stdout(Stdio::piped())
        .stderr(Stdio::piped())
        .spawn()
        .expect("the program starts");
    // It may stop before it has read all.
    let _ = child.stdin.take().expect("a pipe").write_all(input);
    child.wait_with_output().expect("the program ends")
}

fn text(bytes: &[u8]) -> &str {
    std::str::from_utf8(bytes).expect("text")
}

#[test]
fn help_for_each() {
    for name in ["lesson", "show", "run", "picture"] {
        let said = run(&[name, "--help"], b"");
        assert_eq!(said.status.code(), Some(0));
        assert!(text(&said.stdout).starts_with(&format!("lomvigast {name} ")));
        let whole = run(&[], b"");
        assert_eq!(whole.status.code(), Some(0));
        assert!(text(&whole.stdout).contains(&format!("lomvigast {name} ")));
    }
}

/// Arguments that are misused, and a part of what is said of them.
const MISUSES: &[(&[&str], &str)] = &[
    (&["fly"], "no command is called \"fly\""),
    (&["lesson", "4"], "the lessons are 1, 2 and 3"),
    (&["lesson", "1", "2"], "one argument too many"),
    (&["run", "--fast"], "\"--fast\" is not known"),
    (&["run", "/no/such/file"], "cannot be read"),
    (&["show"], "name a folder DIR"),
    (&["show", "/no/such/folder"], "cannot be read"),
    (&["show", "--memory"], "--memory needs a value"),
    (
        &["show", "--memory", "/dev/null"],
        "say where a ring begins",
    ),
    (
        &["show", "--memory", "/dev/null", "--table", "0"],
        "go together",
    ),
    (
        &["show", "--memory", "/dev/null", "--ring", "0,2"],
        "must be 0 or 1",
    ),
    (
        &[
            "show",
            "--memory",
            "Cargo.toml",
            "--base",
            "0xfffffffffffffff0",
            "--ring",
            "0",
        ],
        "on would pass 2^64",
    ),
    (
        &["show", "--base", "0", "x"],
        "--base goes with --memory FILE",
    ),
    (
        &["show", "--base", "0", "--base", "0", "--memory", "x"],
        "--base is given twice",
    ),
    (&["show", "--length", "1073741825", "x"], "above the limit"),
    (&["show", "--most", "all", "x"], "no number"),
    (
        &["show", "--memory", "x", "--ring", "0", "--dequeue", "0,1"],
        "--dequeue goes with --table",
    ),
    (
        &[
            "show",
            "--memory",
            "x",
            "--table",
            "0",
            "--entries",
            "1",
            "--dequeue",
            "0",
        ],
        "needs the driver's cycle state",
    ),
];

#[test]
fn misuse_is_2_and_says_why_on_standard_error() {
    for (arguments, part) in MISUSES {
        let said = run(arguments, b"");
        assert_eq!(said.status.code(), Some(2), "{arguments:?}");
        assert!(said.stdout.is_empty(), "{arguments:?}");
        let fault = text(&said.stderr);
        assert!(
            fault.starts_with("lomvigast: ") && fault.contains(part),
            "{fault}"
        );
        assert_eq!(fault.lines().count(), 1, "{fault}");
    }
}

#[test]
fn a_refusal_is_an_answer() {
    let said = run(&["run"], b"memory 4\nread8 0\n");
    assert_eq!(said.status.code(), Some(0));
    assert!(text(&said.stdout)
        .ends_with("refused 1: a byte to be touched is outside the lent memory\n"));
    assert!(said.stderr.is_empty());
}

#[test]
fn a_line_that_cannot_be_read_is_2() {
    let said = run(&["run", "-"], b"memory 4\npoke 0 f\nmemory 5\n");
    assert_eq!(said.status.code(), Some(2));
    assert_eq!(text(&said.stdout), "memory: 4 bytes, all 0\n");
    assert_eq!(
        text(&said.stderr),
        "lomvigast: line 2: HEX has 1 hex digits, an odd number: a byte has two; the form is: poke ADDRESS HEX\n"
    );
}

#[test]
fn no_colour_in_a_pipe() {
    let said = run(&["lesson", "1"], b"");
    assert!(!said.stdout.contains(&0x1b));
}

#[test]
fn a_reader_that_leaves_is_told_by_the_status_alone() {
    let mut child = lab()
        .args(["lesson"])
        .stdout(Stdio::piped())
        .stderr(Stdio::piped())
        .spawn()
        .expect("the program starts");
    drop(child.stdout.take());
    let said = child.wait_with_output().expect("the program ends");
    assert_eq!((said.status.code(), text(&said.stderr)), (Some(1), ""));
}

#[test]
fn answers_that_cannot_be_written_are_1() {
    let to = |redirection: &str| {
        let said = Command::new("sh")
            .args(["-c", &format!("exec \"$0\" lesson 1 {redirection}")])
            .arg(env!("CARGO_BIN_EXE_lomvigast_lab"))
            .output()
            .expect("a shell");
        (said.status.code(), text(&said.stderr).to_owned())
    };
    let closed = "lomvigast: the answer cannot be written: standard output is closed\n";
    assert_eq!(to(">&-"), (Some(1), closed.to_owned()));
    let (status, why) = to("> /dev/full");
    assert_eq!(status, Some(1));
    assert!(
        why.starts_with("lomvigast: the answer cannot be written: "),
        "{why}"
    );
    // Open, but not to be written to.
    assert_eq!(to("1< /dev/null").0, Some(1));
    // Both that read and write nothing.
    assert_eq!(to("> /dev/null"), (Some(0), String::new()));
    assert_eq!(to("<> /dev/null >&0"), (Some(0), String::new()));
}

/// Whoever asks one thing after another has each answer before the next question.
#[test]
fn a_script_is_answered_line_by_line() {
    let mut child = lab()
        .arg("run")
        .stdin(Stdio::piped())
        .stdout(Stdio::piped())
        .spawn()
        .expect("the program starts");
    let mut questions = child.stdin.take().expect("a pipe");
    let mut answers = BufReader::new(child.stdout.take().expect("a pipe"));
    for (question, answer) in [
        ("memory 4\n", "memory: 4 bytes, all 0\n"),
        (
            "inside 0 4\n",
            "yes: inside memory (from 0x0 on, length 4)\n",
        ),
    ] {
        questions
            .write_all(question.as_bytes())
            .expect("a question");
        let mut line = String::new();
        answers.read_line(&mut line).expect("an answer");
        assert_eq!(line, answer);
    }
    drop(questions);
    assert!(child.wait().expect("the program ends").success());
}

/// What is said of an image of these bytes.
fn shown(name: &str, bytes: &[u8], arguments: &[&str]) -> String {
    let image = Path::new(env!("CARGO_TARGET_TMPDIR")).join(name);
    std::fs::write(&image, bytes).expect("a file for the test");
    let image = image.to_str().expect("text");
    let said = run(&[&["show", "--memory", image], arguments].concat(), b"");
    assert_eq!((said.status.code(), text(&said.stderr)), (Some(0), ""));
    text(&said.stdout).to_owned()
}

#[test]
fn a_raw_image_is_shown_from_its_base() {
    // A No Op command, fresh, then a Link to address 0.
    let mut bytes = [0; 32];
    (bytes[12], bytes[13]) = (1, 23 << 2);
    (bytes[28], bytes[29]) = (1, 6 << 2);
    let said = shown("base", &bytes, &["--base", "0x1000", "--ring", "0x1000,1"]);
    assert_eq!(
        said,
        "ring 0x1000, first TRB at 0x00001000\n \
         from 0x00001000 with cycle state 1\n  \
         0x00001000 No-Op Command: flags C (type 23, cycle 1)\n  \
         UNKNOWN: what stands at 0x0 is not in the image (this is not \"nothing new\"); at 0x1010 stands LINK 0000000000000000 intr 0 type 'Link' flags i:c:t:C; 1 TRB\n"
    );
}

#[test]
fn an_image_may_begin_anywhere() {
    // Two fresh commands, and behind the image nobody knows; where it ends at 2^64 there is nothing to know.
    let mut bytes = [0; 32];
    (bytes[12], bytes[13]) = (1, 23 << 2);
    (bytes[28], bytes[29]) = (1, 9 << 2);
    for (base, end) in [
        (
            "0x123400000000",
            "UNKNOWN: what stands at 0x123400000020 is not in the image",
        ),
        (
            "0xffffffffffffffe0",
            "UNKNOWN: what stands at 0x0 is not in the image",
        ),
    ] {
        let said = shown(
            "anywhere",
            &bytes,
            &["--base", base, "--ring", &format!("{base},1")],
        );
        assert!(
            said.contains(&format!("\n  {base} No-Op Command")),
            "{said}"
        );
        assert!(said.contains(end) && said.contains("; 2 TRBs"), "{said}");
    }
}

/// Whatever is asked of it: what lies before the image is not memory that was looked at.
#[test]
fn nothing_before_an_image_is_told_as_memory() {
    // A table with one entry, whose segment lies before the image.
    let mut table = [0; 0x40];
    table[8] = 4;
    let said = shown(
        "segment_before",
        &table,
        &["--base", "0x1000", "--table", "0x1000", "--entries", "1"],
    );
    assert!(
        said.contains("UNKNOWN: what stands at 0x0 is not in the image"),
        "{said}"
    );
    assert!(
        !said.contains("refused") && !said.contains("0 pending"),
        "{said}"
    );
}

/// The two smallest images that once were told as a TRB with "nothing new", and as "refused 5".
#[test]
fn memory_that_an_image_does_not_hold_is_unknown() {
    let mut link = [0; 16];
    (link[12], link[13]) = (3, 0x18);
    for ring in ["0x10", "0x10,1"] {
        let said = shown("link", &link, &["--base", "0x10", "--ring", ring]);
        assert!(
            said.contains("UNKNOWN: what stands at 0x0 is not in the image"),
            "{said}"
        );
        assert!(!said.contains("\n  0x0000"), "a TRB is listed: {said}");
        assert!(!said.contains("\n  nothing new"), "{said}");
    }
    let arguments = ["--base", "0x40", "--table", "0", "--entries", "1"];
    let said = shown("zeros", &[0; 64], &arguments);
    assert!(
        said.contains("UNKNOWN: what stands at 0x0 is not in the image"),
        "{said}"
    );
    assert!(!said.contains("refused"), "{said}");
}

#[test]
fn an_image_with_the_drivers_place_tells_what_waits() {
    // A table at 0 of one segment, 0x40 with two slots: both hold an event of the second pass.
    let mut bytes = [0; 0x60];
    (bytes[0], bytes[8]) = (0x40, 2);
    (bytes[0x4d], bytes[0x5d]) = (34 << 2, 34 << 2);
    let with = |more: &[&str]| {
        let arguments = [&["--table", "0", "--entries", "1"], more].concat();
        shown("driver", &bytes, &arguments)
    };
    assert!(with(&[]).contains("UNKNOWN: nobody said where the driver stands"));
    let said = with(&["--dequeue", "0x50,0"]);
    assert!(
        said.contains("  0x00000040 ") && said.contains("(type 34, cycle 0, done)"),
        "{said}"
    );
    assert!(
        said.contains("  0x00000050 ") && said.contains("(type 34, cycle 0, pending)"),
        "{said}"
    );
    assert!(
        said.contains("\n  none: the slot at 0x40 is stale; 2 TRBs, 1 pending"),
        "{said}"
    );
}

/// A capture of one ring.
fn captured(name: &str, trbs: &str, ring: &str) -> String {
    let folder = Path::new(env!("CARGO_TARGET_TMPDIR")).join(name);
    std::fs::create_dir_all(&folder).expect("a folder for the test");
    let write = |name: &str, text: &str| std::fs::write(folder.join(name), text).expect("a file");
    write("trbs.txt", trbs);
    write("rings.txt", ring);
    folder.to_str().expect("text").to_owned()
}

/// One TRB, a Link that toggles, before 128 MiB of zeros: once 8,388,607 lines.
#[test]
fn one_trb_before_zeros_is_few_lines() {
    let trb = "0x0 10000000 00000000 00000000 03180000";
    let ring = "transfer t first 0x0 cycle 1 dequeue 0x0 enqueue 0x0";
    let said = run(&["show", &captured("zeros_behind", trb, ring)], b"");
    let said = text(&said.stdout);
    let end = said.lines().last().expect("an end");
    assert_eq!(said.lines().count(), 3, "{said}");
    assert!(
        end.starts_with("  NOT LOOKED AT: at 0x10 stands a TRB of zeros"),
        "{end}"
    );
}

#[test]
fn as_many_lines_as_the_user_says() {
    let mut trbs = String::new();
    for n in 0..20_000 {
        trbs += &format!("{:#x} 00000000 00000000 00000000 01040000\n", 16 * n);
    }
    let ring = "transfer t first 0x0 cycle 1 dequeue 0x0 enqueue 0x4e200";
    let folder = captured("long", &trbs, ring);
    for (more, lines) in [
        (&[][..], 16_384),
        (&["--most", "5"], 5),
        (&["--most", "20000"], 20_000),
    ] {
        let said = run(&[&["show", &folder], more].concat(), b"");
        let said = text(&said.stdout);
        let listed = said.lines().filter(|line| line.starts_with("  0x")).count();
        let end = said.lines().last().expect("an end");
        assert_eq!(listed, lines);
        assert_eq!(
            end.starts_with("  NOT LOOKED AT: the ring goes on"),
            lines < 20_000,
            "{end}"
        );
        assert_eq!(end.contains("--most N"), lines < 20_000, "{end}");
    }
}
