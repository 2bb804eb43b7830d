//! `./lomvigast pack`.

use super::lab::{lesson, runs_without_building, turn};
use super::{empty, lomvigast, path_without, said, stops, sums_hold, target};
use std::fs;
use std::path::Path;
use std::process::Command;

#[test]
fn a_folder_is_asked_for_that_has_nothing_in_it() {
    let target = empty("pack_misused");
    let file = target.join("file");
    fs::write(&file, "mine").expect("a file");
    let (full, file) = (target.to_str().expect("text"), file.to_str().expect("text"));
    let no_rt = path_without(&["rt"]);
    let see = "(see `lomvigast pack --help`)";
    let misuses: &[(&[&str], String)] = &[
        (&["pack"], format!("name a folder DIR {see}")),
        (&["pack", "--all"], format!("\"--all\" is not known {see}")),
        (&["pack", "a", "b"], format!("one argument too many {see}")),
        (&["pack", full], format!("the folder {full} is not empty")),
        (&["pack", file], format!("{file} is not a folder")),
    ];
    for (arguments, sentence) in misuses {
        let mut pack = lomvigast(arguments, &target);
        pack.env("PATH", &no_rt);
        stops(&mut pack, &format!("pack: {sentence}"));
    }
    assert_eq!(fs::read(file).expect("the file"), b"mine");
}

#[test]
fn its_help_needs_nothing() {
    let mut help = lomvigast(&["pack", "--help"], Path::new("/"));
    let (status, out, fault) = said(help.env("PATH", path_without(&["cargo"])));
    assert_eq!((status, fault.as_str()), (Some(0), ""));
    assert!(out.starts_with("lomvigast pack DIR\n"));
}

/// Whether a program asks for a loader, and so for libraries (a program header of type 3 in ELF).
fn asks_for_libraries(program: &[u8]) -> bool {
    let number = |at: usize, bytes: usize| {
        let digits = program[at..at + bytes].iter().rev();
        digits.fold(0, |sum, digit| (sum << 8) | usize::from(*digit))
    };
    assert!(program.starts_with(b"\x7fELF\x02\x01"));
    let (first, length, count) = (number(32, 8), number(54, 2), number(56, 2));
    assert!(count > 0);
    (0..count).any(|header| number(first + header * length, 4) == 3)
}

#[test]
fn a_machine_without_kit_and_cargo_has_all_it_needs() {
    let _turn = turn();
    // There is a lab already, which must stay.
    said(&mut lomvigast(&[], target()));
    let scratch = empty("pack");
    let folder = scratch.join("packed");
    let mut pack = lomvigast(&["pack", "packed"], target());
    let (status, out, fault) = said(pack.current_dir(&scratch));
    assert_eq!(status, Some(0), "{fault}");
    assert!(
        out.contains(&format!("Run {}/lomvigast.", folder.display())),
        "{out}"
    );
    runs_without_building();

    let files = fs::read_dir(&folder).expect("what is packed");
    let mut names: Vec<_> = files
        .map(|file| file.expect("a file").file_name())
        .collect();
    names.sort();
    assert_eq!(
        names,
        [
            "NOTICE",
            "SHA256SUMS",
            "VERSION",
            "liblomvigast_ffi.a",
            "libtrb_ffi.a",
            "lomvigast",
            "lomvigast.h",
        ]
    );
    sums_hold(&folder, names.len() - 1);

    let lab = folder.join("lomvigast");
    let mut run = Command::new(&lab);
    run.args(["lesson", "1"]).current_dir("/").env_clear();
    assert_eq!(said(&mut run), (Some(0), lesson(), String::new()));
    assert!(!asks_for_libraries(&fs::read(lab).expect("the lab")));

    // In a clone on a machine with cargo and without the kit.
    let mut build = lomvigast(&["lesson", "1"], &scratch.join("target"));
    build
        .env("LOMVIGAST_ARCHIVE", "packed")
        .current_dir(&scratch);
    let built = said(build.env("PATH", path_without(&["rt"])));
    assert_eq!(
        built,
        (Some(0), lesson(), "lomvigast: building the lab\n".into())
    );
    assert!(!scratch.join("target/lomvigast/proved.tar").exists());
}
