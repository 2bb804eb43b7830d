//! Says whether the original is at hand, and compiles the floor of the speed comparison where a C compiler is: CC, or gcc.

use std::ffi::OsString;
use std::path::PathBuf;
use std::process::Command;
use std::{env, io};

const SOURCE: &str = "src/bench/floor.c";

fn main() {
    println!("cargo:rustc-check-cfg=cfg(at_hand)");
    println!("cargo:rustc-check-cfg=cfg(floor)");
    println!("cargo:rerun-if-env-changed=CC");
    println!("cargo:rerun-if-changed={SOURCE}");
    // What the build script of the crate `original` says.
    if env::var_os("DEP_USBVFIOD_AT_HAND").is_some() {
        println!("cargo:rustc-cfg=at_hand");
    }
    if compile_floor() {
        println!("cargo:rustc-cfg=floor");
    }
}

/// Whether there is a floor: not without a C compiler.
fn compile_floor() -> bool {
    let out = PathBuf::from(env::var_os("OUT_DIR").expect("cargo sets OUT_DIR"));
    let (object, archive) = (out.join("floor.o"), out.join("libfloor.a"));
    let compiler = env::var_os("CC").unwrap_or("gcc".into());
    let mut compile = Command::new(&compiler);
    compile.args(["-std=c11", "-O3", "-Wall", "-Wextra", "-Werror"]);
    compile.args(["-c", SOURCE, "-o"]).arg(&object);
    let mut collect = Command::new("ar");
    collect.arg("crs").args([&archive, &object]);
    println!("cargo:rustc-link-search=native={}", out.display());
    let made = runs(compile, compiler) && runs(collect, "ar".into());
    if made {
        println!("cargo:rustc-link-lib=static=floor");
    }
    made
}

/// Whether the program is at hand. If it is, it must do its work.
fn runs(mut command: Command, name: OsString) -> bool {
    match command.status() {
        Ok(status) if status.success() => true,
        Err(error) if error.kind() == io::ErrorKind::NotFound => false,
        other => panic!("{name:?} on {SOURCE}: {other:?}"),
    }
}
