//! include/lomvigast.h, compiled and run: the program beside this file, by itself and watched by valgrind's memcheck.

use std::ffi::OsString;
use std::io::ErrorKind;
use std::path::{Path, PathBuf};
use std::process::{Command, Output};

/// What a program said and how it ended; none where there is no such program.
fn output(command: &mut Command) -> Option<Output> {
    match command.output() {
        Err(error) if error.kind() == ErrorKind::NotFound => None,
        other => Some(other.expect("it runs")),
    }
}

fn hold(output: &Output) {
    let (said, errors) = (&output.stdout, &output.stderr);
    let text = String::from_utf8_lossy(said) + String::from_utf8_lossy(errors);
    assert!(output.status.success() && said.is_empty(), "{text}");
}

/// The program, or none where there is no C compiler.
fn compiled(name: &str) -> Option<PathBuf> {
    let here = Path::new(env!("CARGO_MANIFEST_DIR"));
    let program = Path::new(env!("CARGO_TARGET_TMPDIR")).join(name);
    let compiler = std::env::var_os("CC").unwrap_or(OsString::from("cc"));
    let mut compile = Command::new(compiler);
    compile.args(["-std=c11", "-Wall", "-Wextra", "-Werror", "-g", "-I"]);
    compile.arg(here.join("../../include"));
    compile
        .arg(here.join("tests/header.c"))
        .arg("-o")
        .arg(&program);
    compile.arg("-L").arg(env!("LOMVIGAST_ARCHIVES"));
    compile.args(["-llomvigast_ffi", "-ltrb_ffi"]);
    let Some(said) = output(&mut compile) else {
        println!("left out: there is no C compiler");
        return None;
    };
    hold(&said);
    Some(program)
}

#[test]
fn a_program_in_c_gets_the_answers() {
    let Some(program) = compiled("header") else {
        return;
    };
    hold(&output(&mut Command::new(program)).expect("it was made"));
}

#[test]
fn a_program_in_c_is_clean() {
    let Some(program) = compiled("header_watched") else {
        return;
    };
    let mut watch = Command::new("valgrind");
    match output(watch.args(["--error-exitcode=9", "-q"]).arg(program)) {
        Some(said) => hold(&said),
        None => println!("left out: there is no valgrind"),
    }
}
