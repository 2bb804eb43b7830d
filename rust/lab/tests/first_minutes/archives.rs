//! rust/lomvigast/archives, from which `./lomvigast` and the build of rust/lomvigast have the archives. Nothing is proved
//! here: stand_in/rt answers for `rt`.

use super::{append, copy, empty, lomvigast, path_without, remove, repository, said};
use super::{stops, sums_hold, target, waits};
use std::path::{Path, PathBuf};
use std::process::Command;
use std::{env, fs};

/// What is run has the stand-in for `rt`.
fn with_stand_in(mut command: Command) -> Command {
    let folder = repository().join("rust/lab/tests/first_minutes/stand_in");
    let path = env::var_os("PATH").expect("PATH is set");
    let folders = [folder].into_iter().chain(env::split_paths(&path));
    command.env("PATH", env::join_paths(folders).expect("a path"));
    for name in [
        "ARCHIVES",
        "CHANGES",
        "NOTES",
        "REFUSES",
        "LOMVIGAST_ARCHIVE",
    ] {
        command.env_remove(name);
    }
    command
}

fn script(target: &Path) -> Command {
    let mut command = Command::new(repository().join("rust/lomvigast/archives"));
    command.arg(target);
    command
}

fn archives(target: &Path) -> Command {
    with_stand_in(script(target))
}

/// The folder that the stand-in's archives are put in.
fn made(target: &Path) -> PathBuf {
    let (status, folder, fault) = said(&mut archives(target));
    assert_eq!(status, Some(0), "{fault}");
    PathBuf::from(folder.trim_end())
}

/// The script's answer if it takes this folder without a word.
fn taken(folder: &Path) -> super::Said {
    (Some(0), format!("{}\n", folder.display()), String::new())
}

pub const NO_RT: &str = "rt, the command of the Rattle kit, is missing: install the kit, or set LOMVIGAST_ARCHIVE to a folder that `./lomvigast pack` made of these sources";

const PROGRESS: &str = "\
lomvigast: proving the core, which is done once and takes some minutes
lomvigast: proving guest (1 of 10)
lomvigast: proving codes (2 of 10)
lomvigast: proving trb (3 of 10)
lomvigast: proving words (4 of 10)
lomvigast: proving linked_ring (5 of 10)
lomvigast: proving event_ring (6 of 10)
lomvigast: proving trb_ffi (7 of 10)
lomvigast: proving lomvigast_ffi (8 of 10)
lomvigast: proving trb_ffi_c (9 of 10)
lomvigast: proving lomvigast_ffi_c (10 of 10)
";

#[test]
fn the_core_is_proved_crate_by_crate_and_once() {
    let target = empty("proved");
    let (notes, work) = (target.join("notes"), target.join("work"));
    fs::create_dir(&work).expect("a folder for the test");
    let mut first = archives(&target);
    first.env("NOTES", &notes).env("TMPDIR", &work);
    let (status, folder, progress) = said(&mut first);
    assert_eq!((status, progress.as_str()), (Some(0), PROGRESS));
    let folder = Path::new(folder.trim_end());
    let name = folder.file_name().and_then(|name| name.to_str());
    let name = name.expect("text").replace('-', " ");
    let version = fs::read_to_string(folder.join("VERSION")).expect("the version");
    let line = format!("lomvigast {name}\nproved with a stand-in\n");
    assert_eq!(version, line);
    sums_hold(folder, 3);

    // What the compiler read of each crate is beside the archives.
    let heads = fs::read_to_string(folder.join("HEADS")).expect("the heads");
    assert!(heads.starts_with("== crates/guest/src/lib.rt\npub fn f ( ) ;\n== crates/codes/"));
    assert!(heads.ends_with("== crates/lomvigast_ffi_c\nfn lomvigast_ffi_c::f\n"));
    assert_eq!(heads.lines().count(), 10 * 2);

    let mut second = archives(&target);
    second.env("PATH", path_without(&["rt"]));
    assert_eq!(said(&mut second), taken(folder));

    // `rt` writes nothing to the checkout: it works in a temporary folder, and that is gone.
    let notes = fs::read_to_string(notes).expect("the stand-in's notes");
    assert_eq!(notes.lines().count(), 10 * 2);
    for place in notes.lines() {
        assert!(Path::new(place).starts_with(&work), "{place}");
    }
    assert_eq!(fs::read_dir(work).expect("the folder").count(), 0);
}

#[test]
fn a_crate_that_is_not_proved_is_told_and_no_archive_is_left_to_take() {
    for name in ["guest", "codes", "trb_ffi", "lomvigast_ffi_c"] {
        let target = empty("refused");
        let (status, out, fault) = said(archives(&target).env("REFUSES", name));
        // What stands after it is not begun.
        let begun = PROGRESS
            .find(&format!("proving {name} ("))
            .expect("its line");
        let begun = begun + PROGRESS[begun..].find('\n').expect("its end");
        let progress = &PROGRESS[..begun];
        let told = format!(
            "{progress}\nthe stand-in's words on {name}\nlomvigast: {name} is not proved\n"
        );
        assert_eq!((status, out, fault), (Some(1), String::new(), told));
        let mut again = archives(&target);
        stops(again.env("PATH", path_without(&["rt"])), NO_RT);
    }
}

#[test]
fn what_was_proved_is_kept() {
    let target = empty("kept");
    let mut first = archives(&target);
    assert_eq!(said(first.env("REFUSES", "linked_ring")).0, Some(1));
    let mut second = archives(&target);
    let notes = target.join("notes");
    assert_eq!(said(second.env("NOTES", &notes)).0, Some(0));
    let notes = fs::read_to_string(notes).expect("the stand-in's notes");
    let again = notes.lines().filter(|line| line.ends_with(" once more"));
    let again: Vec<_> = again.collect();
    let proved = [
        "guest once more",
        "codes once more",
        "trb once more",
        "words once more",
    ];
    assert_eq!(again, proved);
}

#[test]
fn cargo_alone_builds_once() {
    let (status, real, fault) = said(&mut script(target()));
    assert_eq!(status, Some(0), "{fault}");
    let target = empty("cargo_alone");
    let cargo = || {
        let mut cargo = Command::new("cargo");
        cargo.current_dir(repository().join("rust/lomvigast"));
        cargo.args(["build", "--quiet", "--locked", "--offline"]);
        cargo.arg("--target-dir").arg(&target);
        let mut cargo = with_stand_in(cargo);
        cargo.env("ARCHIVES", real.trim_end());
        cargo
    };
    let built = |command: &mut Command| {
        let (status, _, fault) = said(command);
        assert_eq!(status, Some(0), "{fault}");
        let data = fs::metadata(target.join("debug/liblomvigast.rlib")).expect("the crate");
        data.modified().expect("its time")
    };
    let first = built(&mut cargo());
    assert!(target.join("lomvigast/proved.tar").exists());
    assert_eq!(built(&mut cargo()), first);

    // The archives are there for every profile and for --target.
    let about = said(Command::new("cargo").arg("-vV")).1;
    let host = about.lines().find_map(|line| line.strip_prefix("host: "));
    let mut other = cargo();
    other.args(["--release", "--target", host.expect("a host")]);
    other.env("PATH", path_without(&["rt"]));
    built(&mut other);
}

#[test]
fn a_second_run_waits_for_the_core_and_takes_what_the_first_made() {
    let (first, target) = (made(&empty("first")), empty("second"));
    let folder = target.join("lomvigast");
    fs::create_dir(&folder).expect("a folder for the test");
    let said = waits(
        &mut archives(&target),
        (
            &folder.join("core.lock"),
            "another run is building the core",
        ),
        || copy(&first, &folder),
        b"",
    );
    let name = first.file_name().expect("a name");
    assert!(said.is_none_or(|said| said == taken(&folder.join(name))));
}

/// What the script reads, in a folder outside of the repository (`rt ci` finds every Rattle file in it), which goes when this does.
struct Clone(PathBuf);

const SCRIPT: &str = "rust/lomvigast/archives";

impl Clone {
    fn new(name: &str) -> Self {
        let unique = format!("lomvigast-{name}-{}", std::process::id());
        let clone = Clone(env::temp_dir().join(unique));
        fs::create_dir_all(clone.0.join("rust/lomvigast")).expect("a folder for the test");
        for part in ["crates.txt", SCRIPT, "rust/lomvigast/Cargo.toml"] {
            copy(&repository().join(part), &clone.0.join(part));
        }
        // Without out/, in which `rt` keeps much.
        let crates = fs::read_dir(repository().join("crates")).expect("the crates");
        for folder in crates.map(|folder| folder.expect("a crate").path()) {
            let name = folder.file_name().expect("a name");
            let to = clone.0.join("crates").join(name);
            fs::create_dir_all(&to).expect("a folder for the test");
            for part in ["src", "specs", "proofs", "must-fail"] {
                if folder.join(part).exists() {
                    copy(&folder.join(part), &to);
                }
            }
        }
        clone
    }

    fn script(&self, target: &Path) -> Command {
        let mut command = Command::new("sh");
        command.arg(self.0.join(SCRIPT)).arg(target);
        with_stand_in(command)
    }
}

impl Drop for Clone {
    fn drop(&mut self) {
        let _ = fs::remove_dir_all(&self.0);
    }
}

#[test]
fn archives_belong_to_the_content_of_the_sources() {
    let (target, clone) = (empty("content"), Clone::new("content"));
    let folder = made(&target);
    let path = path_without(&["rt"]);
    let run = || {
        let mut command = clone.script(&target);
        command.env("PATH", &path);
        command
    };
    // Other files of the same content, and changes to what no archive is made of.
    append(clone.0.join("crates/delivery/src/lib.rt"), "// more\n");
    append(clone.0.join("crates.txt"), "more: guest\n");
    fs::write(clone.0.join("crates/guest/must-fail/more.edit"), "").expect("an edit");
    fs::create_dir(clone.0.join("crates/guest/out")).expect("what a check leaves");
    fs::write(clone.0.join("crates/guest/out/lib.rt"), "// more\n").expect("a print");
    assert_eq!(said(&mut run()), taken(&folder));

    let source = clone.0.join("crates/guest/src/lib.rt");
    let text = fs::read(&source).expect("a source");
    append(source.clone(), "// more\n");
    stops(&mut run(), NO_RT);
    fs::write(source, text).expect("a source");
    assert_eq!(said(&mut run()), taken(&folder));

    let list = clone.0.join("crates.txt");
    let lines = fs::read_to_string(&list).expect("the list");
    fs::write(&list, lines.replace("codes:\n", "codes: bytes\n")).expect("the list");
    stops(&mut run(), NO_RT);
}

#[test]
fn sources_that_change_meanwhile_are_not_taken_as_proved() {
    let (target, clone) = (empty("changed"), Clone::new("changed"));
    let source = clone.0.join("crates/codes/src/lib.rt");
    let text = fs::read(&source).expect("a source");
    let (status, out, fault) = said(clone.script(&target).env("CHANGES", &source));
    assert_eq!((status, out.as_str()), (Some(1), ""));
    let end = "lomvigast: the sources were changed while they were proved: begin again\n";
    assert!(fault.ends_with(end), "{fault}");
    // Nor for what they were: there are no archives. Crate by crate it was a copy that was proved, and what is kept of it is that
    // copy's: `rt` takes it for the same text alone.
    fs::write(source, text).expect("a source");
    let mut again = clone.script(&target);
    stops(again.env("PATH", path_without(&["rt"])), NO_RT);
    let (status, _, fault) = said(&mut clone.script(&target));
    assert_eq!((status, fault.as_str()), (Some(0), PROGRESS));
}

/// What is wrong with a folder, and what is said of it.
type Wrong = (fn(&Path), &'static str);

fn lose(folder: &Path, name: &str) {
    fs::remove_file(folder.join(name)).expect("a file of the folder");
}

const WRONG: &[Wrong] = &[
    (remove, "there is no folder HERE"),
    (
        |folder| lose(folder, "liblomvigast_ffi.a"),
        "the folder HERE has no liblomvigast_ffi.a",
    ),
    (
        |folder| lose(folder, "libtrb_ffi.a"),
        "the folder HERE has no libtrb_ffi.a",
    ),
    (
        |folder| lose(folder, "VERSION"),
        "the folder HERE has no VERSION, which says what its archives are",
    ),
    (
        |folder| lose(folder, "SHA256SUMS"),
        "the folder HERE has no SHA256SUMS, which says what its archives are",
    ),
    (
        |folder| fs::write(folder.join("VERSION"), "lomvigast 0.0.9 0\n").expect("the version"),
        "the archives in HERE are of another version (lomvigast 0.0.9 0, and not OURS)",
    ),
    (
        |folder| append(folder.join("libtrb_ffi.a"), "more"),
        "libtrb_ffi.a in the folder HERE is not the one that its SHA256SUMS lists",
    ),
];

#[test]
fn archives_from_elsewhere_are_judged() {
    let target = empty("judged");
    let right = made(&target);
    let version = fs::read_to_string(right.join("VERSION")).expect("the version");
    let version = version.lines().next().expect("a line");
    let given = target.join("given");
    for (spoil, sentence) in WRONG {
        remove(&given);
        copy(&right, &given);
        spoil(&given);
        let name = given.to_str().expect("text");
        let sentence = sentence.replace("HERE", name).replace("OURS", version);
        stops(
            lomvigast(&["lesson", "1"], &target).env("LOMVIGAST_ARCHIVE", &given),
            &format!("LOMVIGAST_ARCHIVE: {sentence}; name one that `./lomvigast pack` made of these sources"),
        );
    }
    // A right one needs no kit, and is looked for from where the caller stands.
    remove(&given);
    copy(&right, &given);
    let mut command = archives(&target.join("unused"));
    command
        .env("PATH", path_without(&["rt"]))
        .current_dir(&target);
    assert_eq!(
        said(command.env("LOMVIGAST_ARCHIVE", "given")),
        taken(&given)
    );
    assert!(!target.join("unused").exists());
}
