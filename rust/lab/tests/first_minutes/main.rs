//! `./lomvigast` as a new user meets it: what is missing, what is wrong, what is waited for, the second run, and `pack`.

mod archives;
mod lab;
mod pack;

use std::ffi::OsString;
use std::fs::Permissions;
use std::io::{BufRead, BufReader, Read, Write};
use std::os::unix::fs::PermissionsExt;
use std::path::{Path, PathBuf};
use std::process::{Child, Command, Output, Stdio};
use std::sync::atomic::{AtomicUsize, Ordering};
use std::{env, fs};

fn repository() -> PathBuf {
    let root = Path::new(env!("CARGO_MANIFEST_DIR")).join("../..");
    root.canonicalize().expect("the repository")
}

/// The target folder of this build, which has the archives.
fn target() -> &'static Path {
    let scratch = Path::new(env!("CARGO_TARGET_TMPDIR"));
    scratch.parent().expect("the target folder")
}

/// A folder with nothing in it.
fn empty(name: &str) -> PathBuf {
    let scratch = Path::new(env!("CARGO_TARGET_TMPDIR"));
    let folder = scratch.join("first_minutes").join(name);
    remove(&folder);
    fs::create_dir_all(&folder).expect("a folder for the test");
    folder
}

fn remove(folder: &Path) {
    if folder.exists() {
        fs::remove_dir_all(folder).expect("a folder of the test");
    }
}

fn copy(from: &Path, to: &Path) {
    let copied = Command::new("cp").arg("-R").args([from, to]).status();
    assert!(copied.expect("cp runs").success());
}

fn append(file: PathBuf, text: &str) {
    let file = fs::File::options().append(true).open(file);
    let written = file.and_then(|mut file| file.write_all(text.as_bytes()));
    written.expect("a file of the test");
}

/// This machine's PATH without these commands: in the place of a folder that has one of them stands one with a script for each of
/// its other commands. Links would be shorter, but `rt ci` refuses them, wherever below the checkout they are.
fn path_without(names: &[&str]) -> OsString {
    static NEXT: AtomicUsize = AtomicUsize::new(0);
    let folder = empty(&format!("path_{}", NEXT.fetch_add(1, Ordering::Relaxed)));
    let path = env::var_os("PATH").expect("PATH is set");
    let places = env::split_paths(&path).enumerate().map(|(at, place)| {
        if names.iter().all(|name| !place.join(name).exists()) {
            return place;
        }
        let other = folder.join(at.to_string());
        fs::create_dir(&other).expect("a folder for the test");
        let commands = fs::read_dir(&place).expect("it has a command");
        for command in commands.filter_map(Result::ok) {
            if names.iter().all(|name| command.file_name() != *name) {
                let script = other.join(command.file_name());
                let text = format!("#!/bin/sh\nexec '{}' \"$@\"\n", command.path().display());
                let written = fs::write(&script, text);
                let made = written
                    .and_then(|()| fs::set_permissions(&script, Permissions::from_mode(0o755)));
                made.expect("a script for the test");
            }
        }
        other
    });
    env::join_paths(places).expect("a path")
}

fn lomvigast(arguments: &[&str], target: &Path) -> Command {
    let mut command = Command::new(repository().join("lomvigast"));
    command.args(arguments).env("CARGO_TARGET_DIR", target);
    command
}

/// How a program ended, and what it wrote to standard output and to standard error.
type Said = (Option<i32>, String, String);

fn said(command: &mut Command) -> Said {
    texts(command.output().expect("it runs"))
}

fn texts(said: Output) -> Said {
    let text = |bytes| String::from_utf8(bytes).expect("text");
    (said.status.code(), text(said.stdout), text(said.stderr))
}

/// Nothing is done: status 2 and this one line.
fn stops(command: &mut Command, sentence: &str) {
    let line = format!("lomvigast: {sentence}\n");
    assert_eq!(said(command), (Some(2), String::new(), line));
}

/// The checksums of a folder are of so many files, and hold.
fn sums_hold(folder: &Path, count: usize) {
    let mut check = Command::new("sha256sum");
    let (status, out, fault) = said(check.args(["-c", "SHA256SUMS"]).current_dir(folder));
    assert_eq!((status, out.lines().count()), (Some(0), count), "{fault}");
}

/// Two at once: while the other holds a lock the program, whose input is there, says this one line and waits. Then `meanwhile`
/// is done and the lock is let go. None where there is no `flock`.
fn waits(
    command: &mut Command,
    (lock, sentence): (&Path, &str),
    meanwhile: impl FnOnce(),
    input: &[u8],
) -> Option<Said> {
    let mut other = Command::new("flock");
    other.arg(lock).args(["sh", "-c", "echo held; cat"]);
    let Ok(mut other) = piped(&mut other).spawn() else {
        println!("left out: there is no flock");
        return None;
    };
    assert_eq!(line(&mut other.stdout), "held\n");
    let mut waiting = piped(command).spawn().expect("it runs");
    send(&mut waiting, input);
    let line = line(&mut waiting.stderr);
    assert_eq!(line, format!("lomvigast: {sentence}; waiting for it\n"));
    meanwhile();
    send(&mut other, b"");
    other.wait().expect("it ends");
    Some(texts(waiting.wait_with_output().expect("it ends")))
}

fn piped(command: &mut Command) -> &mut Command {
    command.stdin(Stdio::piped());
    command.stdout(Stdio::piped()).stderr(Stdio::piped())
}

/// The next line, and no byte more.
fn line(from: &mut Option<impl Read>) -> String {
    let from = from.as_mut().expect("a pipe");
    let mut line = String::new();
    let mut from = BufReader::with_capacity(1, from);
    from.read_line(&mut line).expect("a line");
    line
}

/// All of a program's input.
fn send(to: &mut Child, input: &[u8]) {
    let mut pipe = to.stdin.take().expect("a pipe");
    pipe.write_all(input).expect("it is read");
}
