//! The whole check over a repository that has been read.

use std::collections::HashSet;
use std::fmt;

use crate::fault::Fault;
use crate::heads::Heads;
use crate::reach::Known;
use crate::source::{source, Function, Source};
use crate::tree::{Crate, Tree, CRATES};
use crate::{edits, pages, rules, symbols, theorems};

/// What the check found.
#[derive(Debug)]
pub struct Report {
    pub functions: usize,
    pub loose: usize,
    /// The crates that were read a second time, as the compiler read them.
    pub twice: usize,
    pub faults: Vec<Fault>,
}

impl fmt::Display for Report {
    fn fmt(&self, f: &mut fmt::Formatter<'_>) -> fmt::Result {
        for fault in &self.faults {
            writeln!(f, "{fault}")?;
        }
        if self.twice > 0 {
            let crates = self.twice;
            writeln!(
                f,
                "contracts: {crates} crates are read twice, here and by the compiler"
            )?;
        }
        writeln!(
            f,
            "contracts: {} public functions, {} loose, {} faults",
            self.functions,
            self.loose,
            self.faults.len()
        )
    }
}

/// Checks every rule, the last of them where what the compiler read is at hand. The faults are in the order of their
/// files and lines.
pub fn check(tree: &Tree, heads: Option<&Heads>) -> Report {
    let (sources, mut faults) = sources(tree);
    let all: Vec<&Function> = sources
        .iter()
        .flat_map(|source| &source.functions)
        .collect();
    faults.extend(list_faults(tree));
    faults.extend(symbol_faults(tree, &sources));
    faults.extend(theorems::faults(tree));
    faults.extend(edits::faults(tree));
    faults.extend(tree.crates.iter().flat_map(|one| exports(tree, one, &all)));
    faults.extend(heads.map_or(Vec::new(), |heads| heads.faults(&tree.crates, &sources)));
    let known = Known::over(&sources);
    let loose = pages::loose(&tree.loose);
    let promises = pages::promises(&tree.promises);
    for source in &sources {
        for function in source.functions.iter().filter(|one| one.public) {
            faults.extend(rules::contract(function, &source.imports, &loose));
            faults.extend(rules::promise(function, &promises));
        }
        let blocks = source.blocks.iter();
        faults.extend(blocks.flat_map(|block| rules::block(block, source, &known)));
        faults.extend(known.faults(source));
    }
    let public: Vec<&Function> = all.into_iter().filter(|one| one.public).collect();
    let paths: HashSet<&str> = public.iter().map(|one| one.path.as_str()).collect();
    faults.extend(rules::loose_page(&loose, &paths));
    faults.extend(rules::promises_page(&promises, &paths));
    faults.sort();
    let is_loose = |function: &&&Function| rules::reason(function, &loose).is_some();
    Report {
        functions: public.len(),
        loose: public.iter().filter(is_loose).count(),
        twice: heads.map_or(0, Heads::count),
        faults,
    }
}

/// The Rattle files of every crate, programs among them, and those that cannot be read.
fn sources(tree: &Tree) -> (Vec<Source>, Vec<Fault>) {
    let (mut found, mut faults) = (Vec::new(), Vec::new());
    for (file, module) in tree.crates.iter().flat_map(Crate::modules) {
        match source(&file.name, &module, &file.text) {
            Ok(source) => found.push(source),
            Err(fault) => faults.push(fault),
        }
    }
    (found, faults)
}

/// Symbols that mean something else, in what the Rattle files bring in and in specs/.
fn symbol_faults(tree: &Tree, sources: &[Source]) -> Vec<Fault> {
    let uses = sources.iter().map(|source| (&source.file, &source.uses));
    let files = tree.crates.iter().flat_map(|one| &one.files);
    let specs = files
        .filter(|file| file.name.contains("/specs/"))
        .map(|file| (&file.name, &file.text));
    uses.chain(specs)
        .flat_map(|(file, text)| symbols::faults(file, text))
        .collect()
}

/// Functions of a crate of exports, NAME_c, that are not the same as those of the crate NAME, which they call.
fn exports(tree: &Tree, one: &Crate, all: &[&Function]) -> Vec<Fault> {
    let library = one.name.strip_suffix("_c");
    let library = library.filter(|name| tree.crates.iter().any(|other| other.name == *name));
    let (Some(library), own) = (library, format!("{}::", one.name)) else {
        return Vec::new();
    };
    let mut found = Vec::new();
    for function in all {
        let Some(path) = function.path.strip_prefix(&own) else {
            continue;
        };
        let path = format!("{library}::{path}");
        let called = all.iter().find(|other| other.path == path);
        if called.map(|other| other.head()) != Some(function.head()) {
            let what = format!("has another head than {path}, for which it stands");
            let Function {
                file, line, path, ..
            } = function;
            found.push(Fault::new(file, *line, path, what));
        }
    }
    found
}

/// Faults of crates.txt: every crate that it lists is there, and every crate that is there is listed.
fn list_faults(tree: &Tree) -> Vec<Fault> {
    let mut found = Vec::new();
    let mut listed = HashSet::new();
    for (at, line) in tree.listed.lines().enumerate() {
        let line = line.split('#').next().unwrap_or("");
        let Some((name, _)) = line.split_once(':') else {
            continue;
        };
        // `NAME staticlib` is a static library.
        let name = name.split_whitespace().next().unwrap_or("");
        listed.insert(name);
        let has_source = |one: &Crate| one.has("src/lib.rt") || one.has("src/main.rt");
        if !tree.crates.iter().any(|c| c.name == name && has_source(c)) {
            let what = "is listed, but has neither src/lib.rt nor src/main.rt";
            found.push(Fault::new(CRATES, at + 1, name, what));
        }
    }
    for one in &tree.crates {
        if !listed.contains(one.name.as_str()) {
            let what = "stands in crates/, but is not listed";
            found.push(Fault::new(CRATES, 1, &one.name, what));
        }
    }
    found
}

#[cfg(test)]
mod tests {
    use super::*;
    use crate::demo::{demo, lines, one_fault};
    use crate::tree::File;

    /// The faults of a function `demo::f` that docs/PROMISES.md names, and of the items of docs/LOOSE.md.
    fn faults(source: &str, loose: &str) -> Vec<String> {
        lines(&demo(source, loose, "`demo::f`"))
    }

    const NO_RESULT: &str = "crates/demo/src/lib.rt:1: demo::f: no equation of its result";

    /// Contracts of each form that is asked for.
    const GOOD: &str = r#"
// The lowest that is set, or 32.
#![tactic(auto)]

ghost use Rattle.std.specs.Prelude.{◌≡◌, ◌+◌, ◌<◌};
ghost use Rattle.demo.specs.Demo.{first, bit, data_of, start_of, code, put, advanced, ring_at, added, added_to};

pub fn lowest(w: u32) -> u32
    ensures { (result ≡ first (bit w) 32) × (result < 33) }
{
    u32::trailing_zeros(w)
}

fn bit(c: bool) -> u8
    requires { c ≡ true }
{
    if c { 1 } else { 0 }
}

// The part itself, empty on refusal.
pub fn data(mem: &[u8], pointer: u64) -> &[u8]
    ensures { (result.now ≡ data_of mem.now pointer)
        × (result.ref_ptr ≡ (mem.entry.ref_ptr.0, start_of mem.now pointer + mem.entry.ref_ptr.1)) }
{
    &mem[0..0]
}

/* Writes the 16 bytes at `at`, and answers 0; or changes nothing, and answers 1. */
pub fn write(mem: &mut [u8], at: u64, b: [u8; 16]) -> u8
    ensures answer { result ≡ code mem.old at }
    ensures memory { mem.new ≡ put mem.old at b }
{
    word(b"}{");
    1
}

#[derive(Clone, Copy)]
pub struct LinkedRing {
    pub place: u64,
}

pub struct Moved {
    pub ring: LinkedRing,
}

impl LinkedRing {
    pub const TRB_SIZE: u64 = 16;

    pub fn new(place: u64, cycle_bit: bool) -> Self
        ensures { result ≡ ring_at place «cycle_bit» }
    {
        Self { place, cycle }
    }

    #[tactic(auto, using(advanced_by))]
    pub fn advance(&mut self)
        ensures { self.new ≡ advanced self.old }
    {
        *self = self.advanced();
    }

    pub fn add(self, mem: &mut [u8], trb: [u8; 16], report: u64) -> Moved
        ensures { (result ≡ added mem.old self report) × (mem.new ≡ added_to mem.old self trb report) }
    {
        self.moved(step)
    }
}

#[unsafe(no_mangle)]
pub extern "C" fn exported(x: u8) -> u8
    ensures { result ≡ x }
{
    x
}
"#;

    #[test]
    fn good_contracts_pass() {
        let promises = "| `demo::lowest` | ..\n| `demo::data` | `demo::write`, `demo::exported`
            `demo::LinkedRing::new`\n`demo::LinkedRing::advance`\n`demo::LinkedRing::add`";
        let tree = demo(GOOD, "Nothing is loose.\n", promises);
        assert_eq!(
            check(&tree, None).to_string(),
            "contracts: 7 public functions, 0 loose, 0 faults\n"
        );
    }

    /// The faults of a crate with this source, of which the compiler read the heads.
    fn beside(source: &str, heads: &str) -> Vec<String> {
        let mut tree = demo(source, "", "");
        let named = ["f", "g", "R::f"].map(|name| format!("`demo::{name}`"));
        tree.promises = format!("{}\n{}", named.join(" "), crate::demo::TABLE);
        let heads = crate::heads::heads(heads).expect("what the compiler read");
        let report = check(&tree, Some(&heads));
        report.faults.iter().map(Fault::to_string).collect()
    }

    #[test]
    fn what_the_compiler_printed_is_what_is_read() {
        let heads = "== crates/demo/src/lib.rt\n# [ read_as = \"0f\" ] pub const A : u8 = 1 ;
pub fn f ( x : u8 ) -> u8\n    ensures { result ≡ x } ;\n";
        for (source, told) in [
            ("pub fn f(x: u8) -> u8 ensures {\n result ≡ x } { x }", 0),
            ("pub fn f(x: u8) -> u8 ensures { result ≡ 1 } { x }", 1),
            (
                "pub fn f(x: u8) -> u8 requires { x < 1 } ensures { result ≡ x } { x }",
                2,
            ),
            ("pub fn f(x: &u8) -> u8 ensures { result ≡ x.now } { x }", 1),
            (
                "pub fn f(x: u8) -> u8 ensures { result ≡ x } { x } fn g() {}",
                1,
            ),
            ("", 1),
        ] {
            let found = beside(source, heads);
            assert_eq!(found.len(), told, "{source}\n{found:#?}");
        }
        let hidden = "pub struct R; impl R { pub fn f(x: u8) -> u8 ensures { result ≡ x } { x } }";
        let heads = "== crates/demo/src/lib.rt\npub struct R ; impl R { pub fn f ( x : u8 ) -> u8 ensures { result ≡ x } ; }";
        assert_eq!(beside(hidden, heads), [""; 0]);
        one_fault(
            &beside("", heads),
            "demo::R::f: is not as the compiler read it",
        );
    }

    #[test]
    fn what_the_compiler_proved_is_what_is_read() {
        let source = "pub fn f(x: u8) -> u8 ensures { result ≡ x } { x }";
        let proved = "== crates/demo\nfn demo::f\n";
        assert_eq!(beside(source, proved), [""; 0]);
        let hidden = "crates.txt:1: demo::g: was proved by the compiler, and is not read here";
        one_fault(&beside(source, &format!("{proved}fn demo::g\n")), hidden);
        let what = "demo::f: is not among what the compiler proved";
        one_fault(&beside(source, "== crates/demo\n"), what);
        // A crate that the compiler did not read has no function.
        let what = "demo::f: is not among what the compiler read";
        one_fault(&beside(source, ""), what);
        assert_eq!(beside("", ""), [""; 0]);
        let what = "crates.txt:1: gone: was read by the compiler, and is no crate";
        one_fault(&beside("", "== crates/gone\n"), what);
        let heads = crate::heads::heads(proved).expect("what the compiler read");
        let report = check(&demo(source, "", "`demo::f`"), Some(&heads)).to_string();
        let first = "contracts: 1 crates are read twice, here and by the compiler\n";
        assert!(report.starts_with(first), "{report}");
    }

    #[test]
    fn an_export_has_the_contract_of_its_function() {
        let good = "pub fn f(x: u8) -> u8 ensures { result ≡ x } { x }";
        for (export, told) in [
            (
                "#[unsafe(no_mangle)] pub extern \"C\" fn f(x: u8) -> u8 ensures { result ≡ x } { x }",
                0,
            ),
            ("pub fn f(x: u8) -> u8 ensures { result ≡ 1 } { x }", 1),
            ("pub fn f(y: u8) -> u8 ensures { result ≡ y } { y }", 1),
            ("pub fn g(x: u8) -> u8 ensures { result ≡ x } { x }", 1),
        ] {
            let mut tree = demo(good, "", "`demo::f` `demo_c::f` `demo_c::g`");
            tree.listed.push_str("demo_c staticlib: demo\n");
            tree.crates.push(Crate {
                name: "demo_c".to_string(),
                files: vec![File {
                    name: "crates/demo_c/src/lib.rt".to_string(),
                    text: export.to_string(),
                }],
            });
            let found = lines(&tree);
            assert_eq!(found.len(), told, "{export}\n{found:#?}");
            let what = "has another head than demo::";
            assert!(found.iter().all(|line| line.contains(what)), "{found:#?}");
        }
    }

    #[test]
    fn a_requires_is_a_fault() {
        let source = "pub fn f(x: u8) -> u8 requires { x < 9 } ensures { result ≡ x } { x }";
        one_fault(&faults(source, ""), "demo::f: has a `requires`");
        one_fault(
            &faults(source, "- `demo::f`: it is loose."),
            "has a `requires`",
        );
    }

    #[test]
    fn a_program_is_read_as_a_library_is() {
        let mut tree = demo("pub fn f(x: u8) -> u8 { x }", "", "`demo::f`");
        for (file, path) in [("main.rt", "demo::f"), ("part.rt", "demo::part::f")] {
            tree.crates[0].files[0].name = format!("crates/demo/src/{file}");
            tree.promises = format!("`{path}`");
            let place = format!("crates/demo/src/{file}:1: {path}: no equation of its result");
            let of_function = |line: &String| line.contains(&place);
            assert!(lines(&tree).iter().any(of_function), "{:?}", lines(&tree));
        }
    }

    #[test]
    fn a_result_without_equation_is_a_fault() {
        for clauses in ["", "// ensures { result ≡ x }\n"] {
            let found = faults(&format!("pub fn f(x: u8) -> u8 {clauses} {{ x }}"), "");
            one_fault(&found, NO_RESULT);
        }
        let part = "pub fn f(x: &[u8]) -> &[u8] ensures { result.now ≡ x.now } { x }";
        one_fault(
            &faults(part, ""),
            "demo::f: no equation of its result's place: `result.ref_ptr ≡ ..`",
        );
    }

    #[test]
    fn a_lent_parameter_without_equation_is_a_fault() {
        let missing = "demo::f: no equation of `mem` at exit: `mem.new ≡ ..`";
        for head in [
            "pub fn f(mem: &mut [u8])",
            "pub fn f<'a>(mem: &'a mut [u8]) -> u8 ensures { result ≡ 1 }",
            "pub fn f(mem: &mut [u8], n: &mut u8) ensures { n.new ≡ 1 }",
        ] {
            one_fault(&faults(&format!("{head} {{}}"), ""), missing);
        }
    }

    #[test]
    fn a_reason_lets_a_loose_contract_through() {
        let loose = "pub fn f(x: u8) -> u8 ensures { result ≤ x } { x }";
        let tree = demo(
            loose,
            "- `demo::f`: any smaller number will do.",
            "`demo::f`",
        );
        assert_eq!(
            check(&tree, None).to_string(),
            "contracts: 1 public functions, 1 loose, 0 faults\n"
        );
        let unreasoned = faults(loose, "- `demo::f` is loose.");
        assert_eq!(unreasoned.len(), 2, "{unreasoned:?}");
        let bare = "pub fn f(x: u8) -> u8 { x }";
        one_fault(&faults(bare, "- `demo::f`: why not."), "has no `ensures`");
        let told = "- `demo::f`: it has no ensures, since no value is promised.";
        assert_eq!(faults(bare, told), [""; 0]);
    }

    #[test]
    fn the_pages_name_what_is_there() {
        let good = "pub fn f(x: u8) -> u8 ensures { result ≡ x } { x }";
        one_fault(
            &lines(&demo(good, "", "demo::f, `f`")),
            "crates/demo/src/lib.rt:1: demo::f: is not named in docs/PROMISES.md",
        );
        one_fault(
            &faults(good, "# Loose\n\n- `demo::gone`: it was loose."),
            "docs/LOOSE.md:3: demo::gone: names no public function",
        );
        one_fault(
            &faults(good, "- `demo::f` without a colon"),
            "docs/LOOSE.md:1: demo::f: has no reason",
        );
        one_fault(
            &lines(&demo(good, "", "`demo::f`\n| `demo::gone` | x |")),
            "docs/PROMISES.md:2: demo::gone: names no public function",
        );
    }

    #[test]
    fn a_redefined_symbol_is_a_fault() {
        let mut tree = demo("", "", "");
        tree.crates[0].files.push(File {
            name: "crates/demo/specs/Eq.antt".to_string(),
            text: "-- all is one\nabbrev pub ◌≡◌ : ℕ → ℕ → Type 0\na ≡ b = Unit\n".to_string(),
        });
        one_fault(
            &lines(&tree),
            "crates/demo/specs/Eq.antt:2: ◌≡◌: is defined here",
        );
    }

    #[test]
    fn the_list_and_the_folders_agree() {
        let mut tree = demo("", "", "");
        tree.listed = "# demo: is not here\ngone: demo\n".to_string();
        assert_eq!(
            lines(&tree),
            [
                "crates.txt:1: demo: stands in crates/, but is not listed",
                "crates.txt:2: gone: is listed, but has neither src/lib.rt nor src/main.rt",
            ]
        );
    }

    #[test]
    fn a_file_that_is_no_rattle_is_a_fault() {
        one_fault(
            &lines(&demo("\npub fn f() { {", "", "")),
            "crates/demo/src/lib.rt:2: demo: ends in the middle of an item",
        );
    }
}
