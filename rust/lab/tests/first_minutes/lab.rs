//! The lab through `./lomvigast`, built in the target folder of these tests.

use super::archives::NO_RT;
use super::{empty, line, lomvigast, path_without, piped, said, send, stops, target, waits};
use std::fs;
use std::io::Write;
use std::process::Command;
use std::sync::{Mutex, MutexGuard, PoisonError};

/// Tests that build take turns: no two of them wait for each other's lock.
pub fn turn() -> MutexGuard<'static, ()> {
    static TURN: Mutex<()> = Mutex::new(());
    TURN.lock().unwrap_or_else(PoisonError::into_inner)
}

/// What the lab says.
pub fn lesson() -> String {
    let mut lab = Command::new(env!("CARGO_BIN_EXE_lomvigast_lab"));
    said(lab.args(["lesson", "1"])).1
}

/// A run without a word on standard error and without `rt`, by the lab that is there.
pub fn runs_without_building() {
    let lab = target().join("release/lomvigast_lab");
    let built = || fs::metadata(&lab).and_then(|data| data.modified());
    let before = built().expect("the lab");
    let mut run = lomvigast(&["lesson", "1"], target());
    run.env("PATH", path_without(&["rt"]));
    assert_eq!(said(&mut run), (Some(0), lesson(), String::new()));
    assert_eq!(built().expect("the lab"), before);
}

#[test]
fn what_is_missing_is_said_before_anything_is_begun() {
    let target = empty("missing");
    let mut run = lomvigast(&["lesson", "1"], &target);
    run.env_remove("LOMVIGAST_ARCHIVE");
    stops(
        run.env("PATH", path_without(&["cargo", "rt"])),
        "cargo is missing: install Rust with cargo, or use a lab that `./lomvigast pack` made on another machine",
    );
    stops(run.env("PATH", path_without(&["rt"])), NO_RT);
    let left = fs::read_dir(target).expect("the folder");
    assert_eq!(left.count(), 0);
}

#[test]
fn the_second_run_builds_nothing() {
    let _turn = turn();
    let (status, out, fault) = said(&mut lomvigast(&["lesson", "1"], target()));
    assert_eq!((status, out), (Some(0), lesson()), "{fault}");
    runs_without_building();
}

#[test]
fn a_second_run_waits_for_the_lab_and_then_reads_its_input() {
    let _turn = turn();
    let folder = target().join("lomvigast");
    fs::create_dir_all(&folder).expect("the lock's folder");
    let said = waits(
        &mut lomvigast(&["run"], target()),
        (&folder.join("lab.lock"), "another run is building the lab"),
        || {},
        b"memory 4\n",
    );
    if let Some((status, out, fault)) = said {
        assert_eq!(out, "memory: 4 bytes, all 0\n", "{fault}");
        assert_eq!(status, Some(0));
    }
}

#[test]
fn a_lab_at_work_holds_up_no_other() {
    let _turn = turn();
    let mut command = lomvigast(&["run"], target());
    let mut at_work = piped(&mut command).spawn().expect("it runs");
    let input = at_work.stdin.as_mut().expect("a pipe");
    input.write_all(b"memory 4\n").expect("it is read");
    assert_eq!(line(&mut at_work.stdout), "memory: 4 bytes, all 0\n");
    let mut other = Command::new("flock");
    let lock = target().join("lomvigast/lab.lock");
    match other.arg("-n").arg(lock).arg("true").status() {
        Ok(status) => assert!(status.success(), "the lock is held"),
        Err(_) => println!("left out: there is no flock"),
    }
    send(&mut at_work, b"");
    assert!(at_work.wait().expect("it ends").success());
}
