//! Every export, called by the tests of `layout` and watched by valgrind's memcheck: no byte is read that nobody wrote, and none
//! outside what was lent.

use std::io::ErrorKind;
use std::process::Command;
use std::string::String;

#[test]
fn every_call_is_clean() {
    let this = std::env::current_exe().expect("these tests are a program");
    let mut run = Command::new("valgrind");
    run.args(["--error-exitcode=9", "-q"]).arg(this);
    let said = match run.args(["ffi::layout::", "--test-threads=1"]).output() {
        Err(error) if error.kind() == ErrorKind::NotFound => {
            return println!("left out: there is no valgrind");
        }
        other => other.expect("valgrind runs"),
    };
    let text = String::from_utf8_lossy(&said.stdout) + String::from_utf8_lossy(&said.stderr);
    assert!(said.status.success(), "{text}");
    assert!(!text.contains("running 0 tests"), "{text}");
}
