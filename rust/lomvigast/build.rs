//! Links the proved archives. Where they stand is said by the script beside this file, which proves and builds them first
//! where there are none of these sources yet.

use std::env;
use std::fs;
use std::path::PathBuf;
use std::process::{exit, Command, Stdio};

fn main() {
    for source in ["archives", "../../crates.txt"] {
        println!("cargo:rerun-if-changed={source}");
    }
    // Not the crates whole: beside their sources stands out/, which `rt` writes to.
    for folder in fs::read_dir("../../crates").expect("the crates stand beside rust/") {
        let folder = folder.expect("a crate").path();
        let parts = ["src", "specs", "proofs"].map(|part| folder.join(part));
        for source in parts.iter().filter(|part| part.is_dir()) {
            println!("cargo:rerun-if-changed={}", source.display());
        }
    }
    println!("cargo:rerun-if-env-changed=LOMVIGAST_ARCHIVE");
    let said = Command::new("sh")
        .arg("archives")
        .arg(target())
        .stderr(Stdio::inherit())
        .output()
        .expect("a shell can be run");
    if !said.status.success() {
        // It has said why.
        exit(1);
    }
    let folder = String::from_utf8(said.stdout).expect("the folder's name is UTF-8");
    let folder = folder.trim_end();
    println!("cargo:rustc-link-search=native={folder}");
    println!("cargo:rustc-link-lib=static=lomvigast_ffi");
    println!("cargo:rustc-link-lib=static=trb_ffi");
    // For the test that links a program in C.
    println!("cargo:rustc-env=LOMVIGAST_ARCHIVES={folder}");
}

/// Cargo's target folder, which all profiles share. Below it stands PROFILE/build/NAME/out, with --target in a folder of that name.
fn target() -> PathBuf {
    let out = PathBuf::from(env::var_os("OUT_DIR").expect("cargo sets OUT_DIR"));
    let triple = env::var_os("TARGET").expect("cargo sets TARGET");
    let build = out.ancestors().find(|folder| folder.ends_with("build"));
    let mut above = build.expect("OUT_DIR is in build/").ancestors().skip(2);
    let target = above.find(|folder| !folder.ends_with(&triple));
    target.expect("it is in a target folder").to_owned()
}
