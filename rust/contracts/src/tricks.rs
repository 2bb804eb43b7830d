//! Texts that would have a function pass whose contract says less than it seems to, each with what the check must say.
//! Those of the first four lines once passed.

use crate::demo::{demo, lines};

const HEAD: &str = "ghost use Rattle.std.specs.Prelude.{◌≡◌, ◌+◌, ◌<◌};
ghost use Rattle.demo.specs.Demo.{g, last};
";

/// What stands for an honest function `f`, which the others change.
const HONEST: &str = "pub fn f(x: u8) -> u8 ensures { result ≡ g x } { x }";

const NO_RESULT: &str = "demo::f: no equation of its result";
const UNKNOWN: &str = "which the reader of contracts does not know";
const HIDDEN: &str = "demo::h: no equation of its result";
const COMMENT: &str = "in a clause";

/// Tricks with a whole file.
const FILES: [(&str, &str); 102] = [
    ("pub fn f(x: u8) -> u8 /* ensures { result ≡ g x } */ { x }", NO_RESULT),
    ("/* \" */ pub fn h(x: u8) -> u8 { x } /* \" */", HIDDEN),
    ("pub fn f(n: &mut u8) ensures { do v ← ⟦*n⟧.exit; n.new ≡ v } {}", "an equation of `do v"),
    ("pub fn f(x: u8) -> u8 ensures { result ≡ g x // × (result < 9)\n } { x }", COMMENT),
    // Comments.
    ("pub fn f(x: u8) -> u8 /* /* */ ensures { result ≡ g x } */ { x }", NO_RESULT),
    ("// /*\npub fn h(x: u8) -> u8 { x }\n// */", HIDDEN),
    ("/* // */ pub fn h(x: u8) -> u8 { x }", HIDDEN),
    ("// a\rpub fn h(x: u8) -> u8 { x }", "has a character that cannot be seen"),
    ("// a\u{202e}\npub fn h(x: u8) -> u8 { x }", "has a character that cannot be seen"),
    ("/* pub fn h(x: u8) -> u8 { x }", "has a comment that never ends"),
    ("pub fn f(x: u8) -> u8 requires /* none */ { x < 9 } ensures { result ≡ g x } { x }", "has a `requires`"),
    ("pub fn f(x: u8) -> u8 ensures { result < 9 -- } ensures { result ≡ g x\n } { x }", COMMENT),
    ("pub fn f(x: u8) -> u8 ensures { {- result ≡ g x } -} result < 9 } { x }", COMMENT),
    ("pub fn f(x: u8) -> u8 ensures { result < \"}\" } ensures { result ≡ g x } { x }", COMMENT),
    ("ghost use a.B.{result\u{a0}≡\u{a0}g}; pub fn f(x: u8) -> u8 ensures { result\u{a0}≡\u{a0}g } { x }", "cannot be seen"),
    ("ghost use a.B.{ｒ}; pub fn f(x: u8) -> u8 ensures { result ≡ ｒ } { x }", "has `ｒ`"),
    // Literals.
    ("fn a() -> u8 { b'\"' } pub fn h(x: u8) -> u8 { x } fn b() -> u8 { b'\"' }", HIDDEN),
    ("fn a() { b\"\\\\\"; } pub fn h(x: u8) -> u8 { x } fn b() { b\"\\\"\"; }", HIDDEN),
    ("fn a() { br\"\\\"; } pub fn h(x: u8) -> u8 { x } fn b() { b\"\"; }", "has a literal that begins with `br`"),
    ("fn a() { '\"'; } pub fn h(x: u8) -> u8 { x } fn b() { '\"'; }", HIDDEN),
    ("fn a() { '\\''; } pub fn h(x: u8) -> u8 { x } fn b() { '\\''; }", HIDDEN),
    ("pub fn f(x: u8) -> u8 { b\"ensures { result ≡ g x }\"; x }", NO_RESULT),
    ("fn a() { \"\\\"\"; } pub fn h(x: u8) -> u8 { x } fn b() { \"\\\"\"; }", HIDDEN),
    ("fn a() { \"\\\\\"; } pub fn h(x: u8) -> u8 { x } fn b() { \"\\\\\"; }", HIDDEN),
    ("fn a() { f\"{\"; } pub fn h(x: u8) -> u8 { x } fn b() { f\"}\"; }", "has a literal that begins with `f`"),
    ("pub fn f(x: u8) -> u8 { \"ensures { result ≡ g x }\"; x }", NO_RESULT),
    ("pub fn f(x: u8) -> u8 \"ensures { result ≡ g x }\" { x }", UNKNOWN),
    // Items.
    ("mod inner { pub fn h(x: u8) -> u8 { x } }", "demo::inner::h: no equation of its result"),
    ("#[cfg(any())] pub fn f(x: u8) -> u8 ensures { result ≡ g x } { x }", "has `cfg` in an attribute"),
    ("#[ensures { result ≡ g x }] pub fn f(x: u8) -> u8 { x }", "has `ensures` in an attribute"),
    ("#![no_mangle] pub fn h(x: u8) -> u8 { x }", "has `!` where `[` is expected"),
    ("#[tactic(auto, fn h() {})] pub fn f(x: u8) -> u8 ensures { result ≡ g x } { x }", UNKNOWN),
    ("#[derive(Clone, Model)] struct R { x: u8 }", UNKNOWN),
    ("macro_rules! m { () => { pub fn h(x: u8) -> u8 { x } } } m!();", UNKNOWN),
    ("make! { pub fn h(x: u8) -> u8 { x } }", UNKNOWN),
    ("fn a() { impl R { pub fn h(x: u8) -> u8 { x } } }", UNKNOWN),
    ("const A: u8 = { pub fn h(x: u8) -> u8 { x } 1 };", UNKNOWN),
    ("impl R { pub const fn h(x: u8) -> u8 { x } }", UNKNOWN),
    ("impl Made for R { fn h(x: u8) -> u8 { x } }", "is of the trait `Made`, which is not known here"),
    ("pub unsafe fn h(x: u8) -> u8 { x }", UNKNOWN),
    ("extern \"C\" { pub fn h(x: u8) -> u8; }", UNKNOWN),
    ("pub use crate::inner::h;", UNKNOWN),
    ("type M = &mut [u8]; pub fn f(m: M) {}", UNKNOWN),
    ("struct W { to: &mut [u8] } pub fn f(w: W) {}", "has `demo::W`, which is private, in a public head"),
    ("pub fn f(w: &[W; 2]) {} pub(crate) enum W { A(u8) }", "has `demo::W`, which is private, in a public head"),
    ("pub trait T { fn f() -> Option<W>; } struct W;", "has `demo::W`, which is private, in a public head"),
    ("pub fn f(w: Writer<'a>) {}", "has `Writer` in a public head, which the reader of contracts does not know"),
    ("struct L<'a> { to: &'a mut [u8] } pub struct W<'a> { l: L<'a> } pub fn f(w: W<'_>) {}", "demo::W: has `demo::L`, which is private, in a public type"),
    ("struct C { x: u8, ghost small: { x < 9 } } pub struct W { c: C } pub fn f(w: W) -> u8 ensures { result ≡ g w.c.x } { w.c.x }", "demo::W: has `demo::C`, which is private, in a public type"),
    ("struct C { x: u8, ghost small: { x < 9 } } impl C { pub fn f(self) -> u8 ensures { result ≡ g self.x } { self.x } }", "demo::C::f: has `demo::C`, which is private, in a public head"),
    ("struct C { x: u8, ghost small: { x < 9 } } type M = C; pub fn f(m: M) -> u8 ensures { result ≡ g m.x } { m.x }", "has `demo::M`, which is private, in a public head"),
    ("struct C { x: u8, ghost small: { x < 9 } } type u8 = C; pub fn f(m: u8) -> bool ensures { result ≡ g m.x } { m.x }", "has `demo::u8`, which is private, in a public head"),
    ("type M = Option<&'static mut [u8]>; pub fn f(m: M) {}", "has `demo::M`, which is private, in a public head"),
    ("type M = Option<&'static mut [u8]>; pub type N = [M; 2]; pub fn f(n: N) {}", "demo::N: has `demo::M`, which is private, in a public type"),
    ("type M = Option<&'static mut [u8]>; impl From<M> for u8 { ghost from_gives = { λ m r. r ≡ g m }; fn from(m: M) -> u8 { 1 } }", "has `demo::M`, which is private, in a public head"),
    ("pub struct W; struct P; impl TryFrom<u8> for W { type Error = P; ghost try_from_gives = { λ x r. r ≡ g x }; fn try_from(x: u8) -> Result<W, P> { 1 } }", "try_from: has `demo::P`, which is private, in a public head"),
    ("type M = Option<&'static mut [u8]>; pub trait R { fn f(self); } impl R for M { fn f(self) {} }", "demo::<M as R>: has `demo::M`, which is private, in an impl of a public trait"),
    ("mod a { pub(crate) struct C { x: u8, ghost small: { x < 9 } } } use a::C; pub fn f(c: C) -> u8 ensures { result ≡ g c.x } { c.x }", "has `demo::a::C`, which is private, in a public head"),
    ("mod a { pub(crate) struct C { x: u8, ghost small: { x < 9 } } } pub fn f(c: a::C) -> u8 ensures { result ≡ g c.x } { c.x }", "has `demo::a::C`, which is private, in a public head"),
    ("use std::slice::IterMut; pub fn f(w: IterMut<'_>) {}", "has `IterMut` in a public head, which the reader of contracts does not know"),
    ("use std::io::Result; pub fn f(w: Result<()>) {}", "has `Result` in a public head, which the reader of contracts does not know"),
    ("pub fn f<W: std::io::Write>(out: W) {}", "has `std::io::Write` in a public head, which is no public trait"),
    ("use std::io::Write; pub fn f<W: Write>(out: W) {}", "has `Write` in a public head, which is no public trait"),
    ("trait Near { ghost m: { ℕ }; } impl Near for u8 { ghost m = { Rattle.demo.proofs.Laws.sly }; } pub fn f<T: Near>(x: u8) -> u8 ensures { result ≡ T.m } { x }", "has `Near` in a public head, which is no public trait"),
    ("trait Near { ghost m: { ℕ }; } pub trait R: Near { fn f(x: u8) -> u8 ensures { result ≡ Self.m }; }", "demo::R: has `Near` above a public trait, which is no public trait"),
    ("mod a { trait Near { fn f(); } } pub trait R { ghost m: { Self }; } use R as Near; impl Near for u8 { ghost m = { Rattle.demo.proofs.Laws.sly }; }", "its `m` has `Rattle`"),
    ("pub struct W<'a> { to: &'a mut [u8] } pub fn f(w: W<'_>) {}", "has `&` in a public type"),
    ("pub struct W<'a> { to: Option<&'a mut [u8]> } pub fn f(w: W<'_>) {}", "has `&` in a public type"),
    ("pub struct W { x: u8, ghost small: { x < 9 } } pub fn f(w: W) {}", "has `ghost` in a public type"),
    ("pub fn f(x: Option<&mut u8>) {}", "has `&` in a public head"),
    ("pub fn f(x: (&mut u8, u8)) {}", "has `(` in a public head"),
    ("pub fn f(x: Cell<u8>) {}", "has `u8` in a public head"),
    ("impl From<&mut u8> for u8 { ghost from_gives = { λ x r. r ≡ g x }; fn from(x: &mut u8) -> u8 { 1 } }", "has `&` in a public head"),
    ("trait From { ghost from_gives: { g }; fn from(x: u8) -> u8; }", "for a trait that is not std's"),
    ("use crate::near::From; impl From<u8> for u8 { ghost from_gives = { λ x r. r ≡ g x }; fn from(x: u8) -> u8 { 1 } }", "in a `use` that is not of std"),
    ("pub fn f(x: u8) -> u8 where ensures: { result ≡ g x } { x }", UNKNOWN),
    ("pub fn f(x: u8) -> u8 ghost k: { ℕ } ensures { result ≡ k } { x }", UNKNOWN),
    ("pub fn f(x: u8) -> u8 ensures unless x { result ≡ g x } { x }", "has `x` where `{` is expected"),
    ("pub fn f(x: u8) -> u8 ensures* { result ≡ g x } { x }", UNKNOWN),
    // What is brought in.
    ("ghost use Rattle.demo.specs.Demo.{◌≡◌};", "brings in `◌≡◌` from two places"),
    ("ghost use Rattle.demo.specs.Demo.{Ok, ◌≤◌};", "◌≤◌: is taken from Rattle.demo.specs.Demo"),
    ("ghost use Rattle.demo.specs.Demo.{◌//◌};", "has `//` in a `ghost use`"),
    ("ghost use Rattle.demo.specs.Demo.{◌⊕◌};", "◌⊕◌: is an operator that the reader of contracts does not know"),
    ("ghost use Rattle.other.proofs.Laws.{sly};", "sly: is taken from Rattle.other.proofs.Laws, and a contract is made of specs/"),
    ("ghost use Rattle.demo.specs.Demo.{first as length};", "length: is given to another name here"),
    ("ghost use Rattle.demo.specs.Demo;", "names nothing in braces"),
    ("ghost use Rattle.demo.specs.Demo.*;", "names nothing in braces"),
    ("impl R { ghost use Rattle.demo.specs.Sly.{g}; pub fn f(x: u8) -> u8 ensures { result ≡ g x } { x } }", "brings in `g` from two places"),
    ("pub trait R { ghost length: { Self }; fn f(x: u8) -> u8 ensures { result ≡ length }; }", "its `length` has a name that means what the library says"),
    ("pub trait R { ghost cond: { Self }; fn f(x: u8) -> u8 ensures { result ≡ cond }; }", "its `cond` has a name that means what the library says"),
    ("pub trait R { ghost min: { Self }; fn f(x: u8) -> u8 ensures { result ≡ min }; }", "its `min` has a name that means what the library says"),
    ("pub trait R { ghost Some: { Self → Self }; fn f(x: u8) -> u8 ensures { result ≡ Some x }; }", "its `Some` has a name that means what the library says"),
    ("pub trait R { ghost Rattle: { Self }; fn f(x: u8) -> u8 ensures { result ≡ Rattle.demo.proofs.Laws.sly }; }", "its `Rattle` has a name that means what the library says"),
    ("pub trait R { fn f(); } pub fn h<Rattle: R>(x: u8) -> u8 ensures { result ≡ Rattle.demo.proofs.Laws.sly } { x }", "has `Rattle` for what a function is over"),
    ("pub fn f<const length: usize>() -> u8 ensures { result ≡ length } { x }", "has `length` for what a function is over"),
    ("pub trait R { ghost g: { g }; fn f(x: u8) -> u8 ensures { result ≡ g x }; }", "its `g` is also brought in by a `ghost use`"),
    ("ghost use Rattle.demo.specs.Sly as m; pub trait R { ghost m: { g }; fn f(x: u8) -> u8 ensures { result ≡ m.x }; }", "its `m` is also brought in by a `ghost use`"),
    ("ghost use Rattle.demo.specs.Demo.{result}; pub fn f(x: u8) -> u8 ensures { result ≡ g x } { x }", "which is another thing's"),
    ("pub fn f(result: u8) -> u8 ensures { result ≡ g 1 } { x }", "which is another thing's"),
    // Models.
    ("ghost use Rattle.std.specs.Prelude.{◌-◌}; pub struct W<'a> { start: u64, bytes: &'a [u8] } impl<'a> Model for W<'a> { ghost Value = { g }; ghost view = { λ w. g (w.start - w.start) w.bytes.now }; }", "its `view` does not have each field once"),
    ("pub struct W<'a> { start: u64, bytes: &'a [u8] } impl<'a> Model for W<'a> { ghost Value = { g }; ghost view = { λ w. g (last w.start) w.bytes.now }; }", "its `view` does not have each field once"),
    ("pub struct W<'a> { start: u64, bytes: &'a [u8] } impl<'a> Model for W<'a> { ghost Value = { g }; ghost view = { λ w. g w.start w.start w.bytes.now }; }", "its `view` does not have each field once"),
];

/// Tricks with the clause of `f(x: u8, s: &[u8], mem: &mut [u8]) -> u8`, whose other clauses are honest.
const CLAUSES: [(&str, &str); 48] = [
    ("result ≡ result", "its own subject"),
    ("result ≡ g (g result)", "its own subject"),
    ("result ≡ «result»", "has `«result»`"),
    ("result ≡ _", "has `_`"),
    ("result ≡ ?hole", "has `?hole`"),
    ("result ≡ y", "neither a parameter nor brought in"),
    ("result ≣ g x", "no equation"),
    ("result ≡′ g x", "no equation"),
    ("result ≡' g x", "no equation"),
    ("result≡ g x", "no equation"),
    ("result ≡ g x ≡ x", "has `≡`"),
    ("(λ result. result ≡ g x) x", "has `λ`"),
    ("λ result. result ≡ g x", "has `λ`"),
    ("< < 9", "speaks of `<`"),
    ("λ (result : ℕ). result ≡ g x", "has `λ`"),
    ("x ≡ g 1", "which is not the result"),
    ("now ≡ g x", "which is not the result"),
    ("(result ≡ g x) ⊎ (result ≡ x)", "an equation of `( result`"),
    ("result ≡ g x ⊎ x ≡ 1", "has `⊎`"),
    ("x < 9 → result ≡ g x", "which is not the result"),
    ("result ≡ g x → x < 9", "has `→`"),
    ("¬ (result ≡ g x)", "an equation of"),
    ("cond (x < 9) (result ≡ g x) Unit", "an equation of"),
    (
        "(x < 9 → result ≡ g x) × (result < 9)",
        "which is not the result",
    ),
    ("(k : ℕ) × (result ≡ k)", "no equation"),
    (
        "(result ≡ g x) × result < 9",
        "joins by `×` what is not in parentheses",
    ),
    ("let k = result in result ≡ k", "an equation of `let"),
    ("⌜ result ≡ g x ⌝ ∨ₛ ⊤ₛ", "an equation of `⌜ result`"),
    ("⌜ x < 9 ⌝ →ₛ ⌜ result ≡ g x ⌝", "an equation of `⌜ x"),
    ("result ≡ g mem.new", "a value at exit"),
    ("result ≡ g x.exit", "a value at exit"),
    ("result ≡ g s.new", "a value at exit"),
    ("result ≡ g mem", "has `mem` whole"),
    ("result ≡ g mem .old", "has `mem .`"),
    ("mem .new ≡ g x", "has `mem .`"),
    ("result ≡ g mem.now", "has `mem.now`"),
    ("result ≡ g s.old", "has `s.old`"),
    ("result ≡ g x.now", "has `.now`"),
    ("result ≡ (◌+ 1) x", "has `◌+`"),
    ("result ≡ Rattle.demo.proofs.Laws.sly x", "has `Rattle`"),
    ("result ≡ Prim.search", "has `Prim`"),
    ("mem.new ≡ mem.new", "a value at exit"),
    ("mem.new ≡ last mem", "has `mem` whole"),
    ("mem.new ≡ last mem.entry", "has `mem.entry`"),
    ("mem.old ≡ g x", "an equation of `mem . old`"),
    ("s.new ≡ mem.old", "lends nothing to be changed"),
    ("x.new ≡ g x", "lends nothing to be changed"),
    ("let v = mem.exit in mem.new ≡ v.now", "an equation of `let"),
];

fn told(source: &str) -> Vec<String> {
    lines(&demo(
        &format!("{HEAD}{source}"),
        "",
        "`demo::f`, `demo::h`, `demo::inner::h`",
    ))
}

fn of_f(clause: &str) -> String {
    let honest = "ensures out { result ≡ g x } ensures memory { mem.new ≡ g x }";
    format!("pub fn f(x: u8, s: &[u8], mem: &mut [u8]) -> u8 {honest} {clause} {{ x }}")
}

#[test]
fn what_is_honest_passes() {
    assert_eq!(told(HONEST), [""; 0]);
    assert_eq!(told(&of_f("")), [""; 0]);
    assert_eq!(
        told(&of_f("ensures both { (result ≡ x) × (mem.new ≡ g s.now) }")),
        [""; 0]
    );
}

#[test]
fn no_trick_with_a_file_passes() {
    for (trick, what) in FILES {
        let told = told(trick);
        assert!(
            told.iter().any(|line| line.contains(what)),
            "{trick}\n{told:#?}"
        );
    }
}

#[test]
fn no_trick_with_a_clause_passes() {
    for (trick, what) in CLAUSES {
        let told = told(&of_f(&format!("ensures other {{ {trick} }}")));
        assert!(
            told.iter().any(|line| line.contains(what)),
            "{trick}\n{told:#?}"
        );
    }
}
