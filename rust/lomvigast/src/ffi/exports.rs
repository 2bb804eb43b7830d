//! The list of exports, three times: in the Rattle sources, in include/lomvigast.h and in this crate. Held beside each other.

use crate::types::{LinkedState, State};
use crate::Refusal;
use std::borrow::ToOwned;
use std::fs;
use std::mem::{offset_of, size_of};
use std::path::{Path, PathBuf};
use std::string::{String, ToString};
use std::vec::Vec;

/// Exports that have no use here: `lomvigast_data` answers the same number.
const UNUSED: [&str; 1] = ["lomvigast_data_refusal"];

/// The repository.
fn root() -> PathBuf {
    Path::new(env!("CARGO_MANIFEST_DIR")).join("../..")
}

/// The text without comments and with single spaces.
fn plain(text: &str) -> String {
    let mut kept = String::new();
    let mut rest = text;
    while let Some((before, comment)) = rest.split_once("/*") {
        kept += before;
        (_, rest) = comment.split_once("*/").expect("an end");
    }
    kept += rest;
    let lines = kept
        .lines()
        .map(|line| line.split("//").next().expect("a part"));
    let words: Vec<_> = lines.flat_map(str::split_whitespace).collect();
    words.join(" ").replace("( ", "(").replace(", )", ")")
}

fn header() -> String {
    plain(&fs::read_to_string(root().join("include/lomvigast.h")).expect("the header"))
}

/// The texts of the crates that export, of those whose functions they call, and of what crosses.
fn sources() -> Vec<String> {
    let folder = |name| root().join("crates").join(name).join("src");
    let crates = [
        "lomvigast_ffi_c",
        "trb_ffi_c",
        "lomvigast_ffi",
        "trb_ffi",
        "words",
    ];
    let entries = crates
        .into_iter()
        .flat_map(|name| fs::read_dir(folder(name)).expect("the exports stand beside this crate"));
    let mut files: Vec<_> = entries.map(|entry| entry.expect("a file").path()).collect();
    files.sort();
    let text = |file: &PathBuf| plain(&fs::read_to_string(file).expect("text"));
    files.iter().map(text).collect()
}

/// A function: its name, its parameters with their types, and the type of its result.
#[derive(Debug, PartialEq, Eq, PartialOrd, Ord)]
struct Function {
    name: String,
    parameters: Vec<(String, String)>,
    result: String,
}

impl Function {
    /// The same with its types in other words.
    fn with(mut self, words: impl Fn(&str) -> &'static str) -> Self {
        for (_, kind) in &mut self.parameters {
            *kind = words(kind).to_owned();
        }
        self.result = words(&self.result).to_owned();
        self
    }
}

/// `name(a: A, b: B) -> R`, up to one of the ends, as Rust and Rattle write it.
fn rust_like(text: &str, ends: &[&str]) -> Function {
    let (name, rest) = text.split_once('(').expect("parameters");
    let (parameters, rest) = rest.split_once(')').expect("their end");
    let end = ends.iter().filter_map(|end| rest.find(end)).min();
    let result = rest[..end.expect("an end")].trim().trim_start_matches("->");
    let parameters = parameters.split(", ").map(|parameter| {
        let (name, kind) = parameter.split_once(": ").expect("a type");
        (name.to_owned(), kind.to_owned())
    });
    Function {
        name: name.to_owned(),
        parameters: parameters.collect(),
        result: result.trim().to_owned(),
    }
}

fn in_rattle() -> Vec<Function> {
    let mut all = Vec::new();
    for text in sources() {
        let parts = text
            .split("#[unsafe(no_mangle)] pub extern \"C\" fn ")
            .skip(1);
        all.extend(parts.map(|part| {
            let part = part
                .replacen("mem: &[u8]", "mem: *const u8, len: usize", 1)
                .replacen("mem: &mut [u8]", "mem: *mut u8, len: usize", 1);
            rust_like(&part, &["ensures", "requires", "{"])
        }));
    }
    all.sort();
    all
}

fn in_rust() -> Vec<Function> {
    let text = plain(include_str!("../ffi.rs"));
    let (_, block) = text.split_once("unsafe extern \"C\" {").expect("a block");
    let (block, _) = block.split_once('}').expect("its end");
    let mut all: Vec<_> = block
        .split(" fn ")
        .skip(1)
        .map(|part| rust_like(part, &[";"]))
        .collect();
    all.sort();
    all
}

/// `R name(A a, B *b)`, as C writes it.
fn c_like(text: &str) -> Option<Function> {
    let (head, parameters) = text.trim().strip_suffix(')')?.split_once('(')?;
    let (result, name) = head.rsplit_once(' ')?;
    // A pointer's star stands at its name.
    let parameters = parameters.split(", ").map(|parameter| {
        let (kind, name) = parameter.rsplit_once(' ').expect("a type");
        match name.strip_prefix('*') {
            Some(name) => (name.to_owned(), format!("{kind} *")),
            None => (name.to_owned(), kind.to_owned()),
        }
    });
    Some(Function {
        name: name.to_owned(),
        parameters: parameters.collect(),
        result: result.trim().to_owned(),
    })
}

fn in_c() -> Vec<Function> {
    let text = header();
    // Each statement that ends with a bracket, without what a `}` or a line for the preprocessor left before it.
    let mut all: Vec<_> = text
        .split(';')
        .filter_map(|part| c_like(part.rsplit(['}', '{', '"']).next().expect("a part")))
        .collect();
    all.sort();
    all
}

/// A row for each type that crosses: in C, in Rust, and in Rattle.
const TYPES: [(&str, &str, &str); 24] = [
    ("void", "", ""),
    ("bool", "bool", "bool"),
    ("uint8_t", "u8", "u8"),
    ("uint16_t", "u16", "u16"),
    ("uint32_t", "u32", "u32"),
    ("uint64_t", "u64", "u64"),
    ("size_t", "usize", "usize"),
    ("uint8_t", "Class", "u8"),
    ("uint8_t", "CompletionCode", "u8"),
    ("const uint8_t *", "*const u8", "*const u8"),
    ("uint8_t *", "*mut u8", "*mut u8"),
    (
        "struct lomvigast_linked_ring *",
        "&mut LinkedState",
        "&mut CLinkedRing",
    ),
    (
        "struct lomvigast_event_ring *",
        "&mut State",
        "&mut CEventRing",
    ),
    (
        "struct lomvigast_trb *",
        "&mut MaybeUninit<CTrb>",
        "&mut [u64; 2]",
    ),
    ("const union lomvigast_event *", "&EventTrb", "&[u64; 3]"),
    ("union lomvigast_event *", "&mut EventTrb", "&mut [u64; 3]"),
    (
        "union lomvigast_command *",
        "&mut MaybeUninit<CommandTrbVariant>",
        "&mut [u64; 3]",
    ),
    (
        "union lomvigast_transfer *",
        "&mut MaybeUninit<TransferTrbVariant>",
        "&mut [u64; 4]",
    ),
    ("struct lomvigast_chase", "Chase", "CChase"),
    ("struct lomvigast_trb", "CTrb", "CTrb"),
    ("struct lomvigast_link", "CLink", "CLink"),
    ("struct lomvigast_part", "CPart", "CPart"),
    ("struct lomvigast_coded", "CCoded", "CCoded"),
    ("struct lomvigast_number", "CNumber", "CNumber"),
];

fn row(of: impl Fn(&(&str, &str, &str)) -> bool, kind: &str) -> (&'static str, &'static str) {
    let row = TYPES.into_iter().find(of);
    let row = row.unwrap_or_else(|| panic!("no row for {kind}"));
    (row.0, row.2)
}

fn rust_as_c(kind: &str) -> &'static str {
    row(|row| row.1 == kind, kind).0
}

fn c_as_rattle(kind: &str) -> &'static str {
    row(|row| row.0 == kind, kind).1
}

#[test]
fn the_three_lists_of_exports_are_the_same() {
    let rattle = in_rattle();
    assert!(rattle.len() > UNUSED.len());
    let as_rattle: Vec<_> = in_c().into_iter().map(|f| f.with(c_as_rattle)).collect();
    assert_eq!(as_rattle, rattle);
    let used = |f: &Function| !UNUSED.contains(&f.name.as_str());
    let c: Vec<_> = in_c().into_iter().filter(used).collect();
    let rust: Vec<_> = in_rust().into_iter().map(|f| f.with(rust_as_c)).collect();
    assert_eq!(rust, c);
}

#[test]
fn every_export_is_called_by_the_tests_of_the_layouts() {
    let tests = include_str!("layout.rs");
    for function in in_rust() {
        let call = function.name.replacen("lomvigast_", "", 1) + "(";
        assert!(tests.contains(&call), "{call}");
    }
}

/// The fields of a record, with their types: `pub a: A,` or `A a;`.
fn fields(text: &str, start: &str, end: char) -> Vec<(String, String)> {
    let (_, body) = text.split_once(start).unwrap_or_else(|| panic!("{start}"));
    let (body, _) = body.split_once('}').expect("its end");
    let fields = body.split(end).map(str::trim).filter(|f| !f.is_empty());
    let field = |field: &str| match field.trim_start_matches("pub ").split_once(": ") {
        Some((name, kind)) => (name.to_owned(), kind.to_owned()),
        None => {
            let (kind, name) = field.rsplit_once(' ').expect("a type");
            (name.to_owned(), kind.to_owned())
        }
    };
    fields.map(field).collect()
}

#[test]
fn records_in_registers_have_the_same_fields() {
    let (c, rust) = (header(), plain(include_str!("../ffi.rs")));
    let rattle = sources().join(" ");
    let as_words = |fields: Vec<(String, String)>, words: fn(&str) -> &'static str| {
        let field = |(name, kind): (String, String)| (name, words(&kind).to_owned());
        fields.into_iter().map(field).collect::<Vec<_>>()
    };
    for (name, short) in [
        ("trb", "CTrb"),
        ("link", "CLink"),
        ("part", "CPart"),
        ("coded", "CCoded"),
        ("number", "CNumber"),
    ] {
        let theirs = fields(&c, &format!("struct lomvigast_{name} {{"), ';');
        let ours = fields(
            &rust,
            &format!("#[derive(Debug, Clone, Copy, PartialEq, Eq)] pub struct {short} {{"),
            ',',
        );
        let proved = fields(
            &rattle,
            &format!("#[repr(C)] #[derive(Clone, Copy)] pub struct {short} {{"),
            ',',
        );
        assert_eq!(as_words(ours, rust_as_c), theirs, "{short}");
        assert_eq!(as_words(theirs, c_as_rattle), proved, "{short}");
    }
}

/// The names of a record's words in C.
fn words_in_c(name: &str) -> Vec<String> {
    let fields = fields(&header(), &format!("struct lomvigast_{name} {{"), ';');
    assert!(fields.iter().all(|(_, kind)| kind == "uint64_t"));
    fields.into_iter().map(|(name, _)| name).collect()
}

#[test]
fn the_state_has_the_same_words_in_the_same_order() {
    let text = sources().join(" ");
    // `const TABLE: usize = 0;` and so on.
    let places = text.split("const ").skip(1).filter_map(|part| {
        let (name, rest) = part.split_once(": usize = ")?;
        let (place, _) = rest.split_once(';')?;
        Some((name.to_lowercase(), place.parse().expect("a place")))
    });
    let rattle: Vec<(String, usize)> = places.collect();
    assert!(text.contains(&format!("pub type CEventRing = [u64; {}];", rattle.len())));
    let word = |(name, at): &(&str, usize)| (name.to_string(), at / 8);
    let rust: Vec<_> = State::WORDS.iter().map(word).collect();
    assert_eq!(rust, rattle);
    assert_eq!(size_of::<State>(), 8 * rattle.len());
    let c: Vec<_> = words_in_c("event_ring").into_iter().zip(0..).collect();
    assert_eq!(c, rattle);
}

#[test]
fn a_linked_ring_has_the_same_words_in_the_same_order() {
    assert!(sources()
        .join(" ")
        .contains("pub type CLinkedRing = [u64; 2];"));
    assert_eq!(words_in_c("linked_ring"), ["place", "cycle"]);
    assert_eq!(offset_of!(LinkedState, place), 0);
    assert_eq!(offset_of!(LinkedState, cycle), 8);
    assert_eq!(size_of::<LinkedState>(), 16);
}

/// `TABLE_BASE` for `TableBase`.
fn upper(name: &str) -> String {
    let mut upper = String::new();
    for letter in name.chars() {
        if letter.is_uppercase() && !upper.is_empty() {
            upper.push('_');
        }
        upper.extend(letter.to_uppercase());
    }
    upper
}

#[test]
fn refusals_have_the_same_names_and_numbers() {
    let header = header();
    let (_, c) = header
        .split_once("enum lomvigast_refusal {")
        .expect("an enum");
    let (c, _) = c.split_once('}').expect("its end");
    let path = root().join("crates/guest/src/refusal.rt");
    let rattle = plain(&fs::read_to_string(path).expect("the numbers"));
    let mut rust = Vec::new();
    for number in 1..=13 {
        let name = format!("{:?}", Refusal::of(number, 0));
        let name = name.split('(').next().expect("a name");
        rust.push(format!("LOMVIGAST_{} = {number}", upper(name)));
        let line = format!("{name} = {number},");
        assert!(rattle.contains(&line), "{line}");
    }
    assert_eq!(c.trim(), rust.join(", "));
    assert!(header.contains(&format!("#define LOMVIGAST_NOTHING {}", super::NOTHING)));
    assert!(header.contains(&format!(
        "#define LOMVIGAST_REFUSED_BELOW {}",
        super::REFUSED_BELOW
    )));
    let nothing = format!("const NOTHING: u8 = {};", super::NOTHING);
    assert!(sources().join(" ").contains(&nothing));
}
