//! Runs the program over a small repository, as the gate does.

use std::fs;
use std::path::{Path, PathBuf};
use std::process::{Command, Output};

/// A repository in a folder of its own, which goes when it does.
struct Repository(PathBuf);

impl Repository {
    fn new(name: &str) -> Self {
        let unique = format!("contracts-{name}-{}", std::process::id());
        let folder = std::env::temp_dir().join(unique);
        fs::create_dir(&folder).expect("a folder of that name is not there yet");
        Repository(folder)
    }

    fn write(&self, name: &str, text: &str) {
        let file = self.0.join(name);
        let folder = file.parent().unwrap_or(Path::new("."));
        fs::create_dir_all(folder).expect("the folder can be made");
        fs::write(file, text).expect("the file can be written");
    }

    fn check(&self) -> (Option<i32>, String) {
        Self::said(&[self.0.as_os_str()])
    }

    /// The check with what the compiler read.
    fn check_beside(&self, heads: &str) -> (Option<i32>, String) {
        self.write("target/HEADS", heads);
        Self::said(&[self.0.as_os_str(), self.0.join("target/HEADS").as_os_str()])
    }

    fn said(arguments: &[&std::ffi::OsStr]) -> (Option<i32>, String) {
        let output = run(arguments);
        let text = String::from_utf8(output.stdout).expect("the output is text");
        (output.status.code(), text)
    }
}

impl Drop for Repository {
    fn drop(&mut self) {
        let _ = fs::remove_dir_all(&self.0);
    }
}

fn run(arguments: &[&std::ffi::OsStr]) -> Output {
    Command::new(env!("CARGO_BIN_EXE_contracts"))
        .args(arguments)
        .output()
        .expect("the program can be run")
}

const PROMISES: &str = "| `trb::ring::Ring::new` | ring_at |
| `trb::ring::fill` | length |

## Theorems that belong to no function

| Statement | File | Edit |
|---|---|---|
| All is well: `law` | crates/trb/proofs/Laws.antt | trb/lawless |

## Demands

1. `law`, of `rings`.
";

const LAWS: &str = "use Rattle.std.specs.Prelude.{◌≡◌}

pub law : (n : ℕ) → n ≡ n
law n = refl
";

const RING: &str = "ghost use Rattle.std.specs.Prelude.{◌≡◌};
ghost use Rattle.trb.specs.Lib.{ring_at};

impl Ring {
    pub fn new(place: u64) -> Self
        ensures { result ≡ ring_at place }
    {
        Ring { place }
    }
}

pub fn fill(mem: &mut [u8])
    ensures { length mem.new ≡ length mem.old }
{
}

pub struct Ring { place: u64 }
";

fn repository(name: &str) -> Repository {
    let made = Repository::new(name);
    made.write("crates.txt", "trb:\nshow: trb io\n");
    made.write("crates/trb/src/lib.rt", "pub mod ring;\n");
    made.write("crates/trb/src/ring.rt", RING);
    made.write("crates/trb/specs/Lib.antt", "pub rings : ℕ\nrings = 1\n");
    made.write("crates/show/src/main.rt", "fn main() {}\n");
    made.write("docs/LOOSE.md", "- `trb::ring::fill`: any bytes will do.\n");
    made.write("crates/trb/proofs/Laws.antt", LAWS);
    made.write("crates/trb/must-fail/lawless.edit", "");
    made.write("docs/PROMISES.md", PROMISES);
    made.write("docs/THEOREMS.md", "");
    let page = run(&["--theorems".as_ref(), made.0.as_os_str()]).stdout;
    made.write("docs/THEOREMS.md", &String::from_utf8_lossy(&page));
    made
}

#[test]
fn a_good_repository_passes() {
    let (status, text) = repository("good").check();
    assert_eq!(text, "contracts: 2 public functions, 1 loose, 0 faults\n");
    assert_eq!(status, Some(0));
}

#[test]
fn faults_are_told_in_order() {
    let made = repository("bad");
    made.write("docs/LOOSE.md", "- `trb::fill`: any bytes will do.\n");
    made.write("crates/show/specs/Lib.antt", "◌<◌ : ℕ → ℕ → Type 0\n");
    let (status, text) = made.check();
    let expected = "\
crates/show/specs/Lib.antt:1: ◌<◌: is defined here, but a contract's symbol means what the library says
crates/trb/src/ring.rt:12: trb::ring::fill: its `ensures` has an equation of `length mem . new`
docs/LOOSE.md:1: trb::fill: names no public function
contracts: 2 public functions, 0 loose, 3 faults
";
    assert_eq!(text, expected);
    assert_eq!(status, Some(1));
}

#[test]
fn a_theorem_that_is_gone_is_told() {
    let made = repository("gone");
    made.write("crates/trb/proofs/Laws.antt", "-- pub law : ℕ\n");
    let (status, text) = made.check();
    let expected = "\
docs/PROMISES.md:8: law: is not declared in crates/trb/proofs/Laws.antt
docs/THEOREMS.md:9: crates/trb/proofs/Laws.antt: has no theorem of the table
contracts: 2 public functions, 1 loose, 2 faults
";
    assert_eq!(text, expected);
    assert_eq!(status, Some(1));
}

/// What the compiler read: `RING` as it prints it.
const HEADS: &str = "== crates/trb/src/lib.rt
pub mod ring ;
== crates/trb/src/ring.rt
ghost use Rattle.std.specs.Prelude.{◌≡◌};
impl Ring {
pub fn new ( place : u64 ) -> Self
        ensures { result ≡ ring_at place } ;
}
pub fn fill ( mem : & mut [ u8 ] )
    ensures { length mem.new ≡ length mem.old } ;
pub struct Ring { place : u64 , }
";

#[test]
fn what_the_compiler_read_is_read_too() {
    let made = repository("printed");
    let (status, text) = made.check_beside(HEADS);
    let expected = "\
contracts: 1 crates are read twice, here and by the compiler
contracts: 2 public functions, 1 loose, 0 faults
";
    assert_eq!(text, expected);
    assert_eq!(status, Some(0));
    let (status, text) = made.check_beside(&HEADS.replace("ring_at place", "ring_at 1"));
    let what = "crates/trb/src/ring.rt:5: trb::ring::Ring::new: is not as the compiler read it";
    assert!(text.starts_with(what), "{text}");
    assert_eq!(status, Some(1));
    let (status, text) = made.check_beside("");
    let what =
        "crates/trb/src/ring.rt:5: trb::ring::Ring::new: is not among what the compiler read";
    assert!(text.starts_with(what), "{text}");
    assert_eq!(status, Some(1));
}

/// A library with a type that holds a reference, a trait and a conversion.
const WINDOW: &str = "ghost use Rattle.std.specs.Prelude.{◌≡◌, ℕ};
ghost use Rattle.trb.specs.Lib.{Memory, window, number_at, pair_of};

#[derive(Drop)]
pub struct Window<'a> { start: u64, bytes: &'a [u8] }

impl<'a> Model for Window<'a> {
    ghost Value = { Memory };
    ghost view = { λ w. window w.start w.bytes.now };
}

pub trait FromWindow {
    ghost width: { ℕ };
    fn read(mem: &Window<'_>, address: u64) -> Option<Self>
        ensures { result ≡ number_at mem.now address width };
}

impl FromWindow for u16 {
    ghost width = { 2 };
    fn read(mem: &Window<'_>, address: u64) -> Option<u16> { Some(2) }
}

impl From<u16> for Pair {
    ghost from_gives = { λ x r. r ≡ pair_of x };
    fn from(x: u16) -> Pair { Pair(x, x) }
}

pub struct Pair(u16, u16);
";

/// The same as the compiler prints it.
const WINDOW_HEADS: &str = "== crates/trb/src/window.rt
ghost use Rattle.std.specs.Prelude.{◌≡◌, ℕ};
ghost use Rattle.trb.specs.Lib.{Memory, window, number_at, pair_of};
# [ derive ( Drop ) ] pub struct Window < 'a > { start : u64 , bytes : & 'a [ u8 ] , }
impl < 'a > Model for Window < 'a > {
    ghost Value = { Memory };
    ghost view = { λ w. window w.start w.bytes.now };
}
pub trait FromWindow {
    ghost width: { ℕ };
fn read ( mem : & Window < '_ > , address : u64 ) -> Option < Self >
        ensures { result ≡ number_at mem.now address width } ;
}
# [ read_as = \"0f\" ] impl FromWindow for u16 as U16FromWindow {
    ghost width = { 2 };
fn read ( mem : & Window < '_ > , address : u64 ) -> Option < u16 > ;
}
# [ read_as = \"0f\" ] impl From < u16 > for Pair as PairFromU16 {
    ghost from_gives = { λ x r. r ≡ pair_of x };
fn from ( x : u16 ) -> Pair ;
}
pub struct Pair ( u16 , u16 ) ;
";

#[test]
fn traits_and_impls_are_read_twice() {
    let made = repository("window");
    made.write("crates/trb/src/lib.rt", "pub mod ring;\npub mod window;\n");
    made.write("crates/trb/src/window.rt", WINDOW);
    let rows = "| `trb::window::FromWindow::read` | number_at |
| `trb::window::<Pair as From<u16>>::from` | pair_of |\n";
    made.write("docs/PROMISES.md", &format!("{rows}{PROMISES}"));
    let heads = format!("{HEADS}{WINDOW_HEADS}");
    let (status, text) = made.check_beside(&heads);
    let expected = "\
contracts: 1 crates are read twice, here and by the compiler
contracts: 4 public functions, 1 loose, 0 faults
";
    assert_eq!(text, expected);
    assert_eq!(status, Some(0));
    for (printed, other, what) in [
        (
            "width = { 2 }",
            "width = { 4 }",
            "window.rt:18: trb::window::<u16 as FromWindow>: is not as",
        ),
        (
            "pair_of x",
            "pair_of 0",
            "trb::window::<Pair as From<u16>>::from: is not as",
        ),
        (
            "window w.start",
            "window 0",
            "window.rt:7: trb::window::<Window<'a> as Model>: is not as",
        ),
    ] {
        let (status, text) = made.check_beside(&heads.replace(printed, other));
        assert!(text.contains(what), "{text}");
        assert_eq!(status, Some(1));
    }
}

#[test]
fn what_cannot_be_read_is_told() {
    let made = repository("unread");
    let gone = made.0.join("target/HEADS");
    made.write("target/OTHER", "lomvigast 0.1.0\n");
    let other = made.0.join("target/OTHER");
    for file in [gone, other] {
        let output = run(&[made.0.as_os_str(), file.as_os_str()]);
        assert_eq!(output.status.code(), Some(2));
        let line = String::from_utf8_lossy(&output.stderr).into_owned();
        let first = format!("contracts: {} ", file.display());
        assert!(
            line.starts_with(&first) && line.lines().count() == 1,
            "{line}"
        );
    }
}

#[test]
fn misuse_is_one_clear_line() {
    let made = repository("misused");
    fs::remove_file(made.0.join("docs/PROMISES.md")).expect("the page is there");
    let root = made.0.as_os_str();
    for arguments in [&[][..], &[root], &[root, root], &[root, root, root]] {
        let output = run(arguments);
        assert_eq!(output.status.code(), Some(2));
        assert!(output.stdout.is_empty());
        let line = String::from_utf8_lossy(&output.stderr).into_owned();
        assert!(line.starts_with("contracts: ") && line.lines().count() == 1);
    }
}
