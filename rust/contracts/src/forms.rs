//! Texts with the forms that stand beside plain functions: traits, impls of them, models, conversions, types by a bound. Each is
//! accepted as it is, and told where one thing in it is other.

use crate::check::check;
use crate::demo::{demo, lines};
use crate::fault::Fault;

const SOURCE: &str = "
ghost use Rattle.std.specs.Prelude.{◌≡◌, ℕ, Bool};
ghost use Rattle.demo.specs.Demo.{Memory, window, inside, number_at, dwords_of, bytes_of, refusal_at};

use std::fmt;
use std::marker::Model;

#[derive(Clone, Copy, Debug, PartialEq, Eq, Hash)]
pub enum Refusal {
    Outside = 1,
    At(Place),
}

pub struct Place {
    pub at: u8,
}

pub struct Dwords(u32, u32, u32, u32);

#[derive(Drop)]
pub struct Window<'a> {
    start: u64,
    bytes: &'a [u8],
}

impl<'a> Model for Window<'a> {
    ghost Value = { Memory };

    ghost view = { λ w. window w.start w.bytes.now };
}

impl<'a> Window<'a> {
    pub fn at(start: u64, bytes: &'a [u8]) -> Self
        ensures { result ≡ window start bytes.now }
    {
        Window { start, bytes }
    }

    pub fn inside(&self, address: u64) -> bool
        ensures { result ≡ inside self.now address }
    {
        self.bytes.iter().any(|b| *b == 1)
    }
}

pub trait FromWindow: Sized {
    ghost width: { ℕ };

    ghost made: { ℕ → Self };

    fn read(mem: &Window, address: u64) -> Result<Self, Refusal>
        ensures { result ≡ number_at made mem.now address width };
}

impl FromWindow for u16 {
    ghost width = { 2 };

    ghost made = { λ n. n };

    fn read(mem: &Window, address: u64) -> Result<u16, Refusal> {
        Ok(2)
    }
}

pub fn both<T: FromWindow, const N: usize>(mem: &Window<'_>, at: [u64; N]) -> Result<Option<T>, Refusal>
    ensures { result ≡ number_at T.made mem.now at.entry T.width }
{
    T::read(mem, at[0])
}

impl From<[u8; 16]> for Dwords {
    ghost use Rattle.demo.specs.Demo.{more};

    ghost from_gives = { λ x r. r ≡ dwords_of x };

    fn from(x: [u8; 16]) -> Self {
        four(x)
    }
}

impl TryFrom<u8> for Refusal {
    type Error = Place;

    ghost try_from_gives = { λ x r. r ≡ refusal_at x };

    fn try_from(x: u8) -> Result<Refusal, Place> {
        Err(Place { at: x })
    }
}

impl fmt::Display for Refusal {
    fn fmt<W: fmt::Write>(&self, f: &mut fmt::Formatter<W>) -> fmt::Result {
        f.write_str(\"refused\")
    }
}
";

const NAMES: &str =
    "`demo::Window::at`, `demo::Window::inside`, `demo::FromWindow::read`, `demo::both`,
`demo::<Dwords as From<[u8; 16]>>::from`, `demo::<Refusal as TryFrom<u8>>::try_from`";

/// What stands in the source, what stands there in place of it, and what is told.
const NEAR: [(&str, &str, &str); 35] = [
    // Types.
    (
        "bytes: &'a [u8],",
        "bytes: &'a mut [u8],",
        "has `&` in a public type",
    ),
    (
        "Outside = 1,",
        "Outside(&'static u8),",
        "has `&` in a public type",
    ),
    ("Eq, Hash)]", "Eq, Hash, Model)]", "among what is derived"),
    ("mem: &Window<'_>", "mem: &mut Window<'_>", "has `mem.now`"),
    // Models.
    (
        "w.start w.bytes.now",
        "w.start _",
        "its `view` does not say `w.bytes`",
    ),
    (
        "w.start w.bytes.now",
        "w.start w.bytes.now _",
        "its `view` has `_`",
    ),
    (
        "w.start w.bytes.now",
        "w.start w.bytes.now ?rest",
        "its `view` has `?rest`",
    ),
    (
        "w.start w.bytes.now",
        "0 w.bytes.now",
        "its `view` does not say `w.start`",
    ),
    (
        "λ w. window w.start",
        "λ w. sly w.start",
        "its `view` has `sly`",
    ),
    (
        "= { Memory };",
        "= { List Memory };",
        "its `Value` has `List`",
    ),
    (
        "= { Memory };",
        "= { Memory };\n ghost invariant = { λ w. window w.start w.bytes };",
        "its `invariant` is none of a model's members",
    ),
    (
        "impl<'a> Model for Window<'a>",
        "impl Model for Refusal",
        "its `view` is of a type whose fields have no names here",
    ),
    // Traits.
    (
        "made mem.now address width };",
        "made mem.now address width } requires { address };",
        "demo::FromWindow::read: has a `requires`",
    ),
    (
        "\n        ensures { result ≡ number_at made mem.now address width };",
        ";",
        "demo::FromWindow::read: no equation of its result",
    ),
    (
        "{ result ≡ number_at made mem.now",
        "{ OnOk result number_at ≡ mem.now",
        "an equation of `OnOk result",
    ),
    (
        "{ result ≡ number_at made mem.now",
        "{ made result ≡ mem.now",
        "an equation of `made result`",
    ),
    (
        "made mem.now address width",
        "made mem.now address Self",
        "has `Self`",
    ),
    (
        "{ ℕ → Self };",
        "{ Self → Type 0 };",
        "its `made` has `Type`",
    ),
    ("{ ℕ → Self };", "{ ℕ → _ };", "its `made` has `_`"),
    (
        "{ ℕ → Self };",
        "{ ℕ → Self } = { λ n. n };",
        "has `=` where `;` is expected",
    ),
    (
        "= { λ n. n };",
        "= { λ n. ? };",
        "demo::<u16 as FromWindow>: its `made` has `?`",
    ),
    ("= { λ n. n };", "= { λ n. λ m. n };", "its `made` has `λ`"),
    (
        "Result<u16, Refusal> {",
        "Result<u16, Refusal> ensures { result ≡ 1 } {",
        "in a function's head",
    ),
    (
        "impl FromWindow for u16",
        "impl FromGone for u16",
        "is of the trait `FromGone`, which is not known here",
    ),
    (
        "T.made mem.now at.entry T.width",
        "T.made mem.now at.entry U.width",
        "has `U`",
    ),
    (
        "T: FromWindow, const",
        "T, const",
        "has `,` where `:` is expected",
    ),
    // Conversions.
    (
        "λ x r. r ≡ dwords_of x",
        "λ x r. r.low ≡ dwords_of x",
        "from_gives` has an equation of `r . low`",
    ),
    (
        "λ x r. r ≡ dwords_of x",
        "λ x r. dwords_of r ≡ x",
        "from_gives` has an equation of `dwords_of r`",
    ),
    (
        "λ x r. r ≡ dwords_of x",
        "λ x r. r < 9",
        "from_gives` has no equation of `r`",
    ),
    (
        "λ x r. r ≡ dwords_of x",
        "dwords_of",
        "from_gives` is not of the form",
    ),
    (
        "from_gives = { λ x r. r ≡ dwords_of",
        "gives = { λ x r. r ≡ dwords_of",
        "from_gives` is not of the form",
    ),
    (
        "λ x r. r ≡ refusal_at x",
        "λ x r. IfOk r (λ y. y ≡ x)",
        "its `try_from_gives` has `λ`",
    ),
    (
        "for Dwords {",
        "for Words {",
        "demo::<Words as From<[u8; 16]>>::from: is not named",
    ),
    (
        "fn from(x: [u8; 16])",
        "fn from(x: [u8; 16]) requires { x }",
        "in a function's head",
    ),
    (
        "pub trait FromWindow",
        "trait From { fn from(); } pub trait FromWindow",
        "for a trait that is not std's",
    ),
];

#[test]
fn each_form_is_accepted() {
    let told = check(&demo(SOURCE, "", NAMES), None).to_string();
    let expected = "contracts: 6 public functions, 0 loose, 0 faults\n";
    assert_eq!(told, expected);
}

#[test]
fn what_is_near_to_a_form_is_told() {
    for (form, near, what) in NEAR {
        assert!(SOURCE.contains(form), "{form}");
        let told = lines(&demo(&SOURCE.replacen(form, near, 1), "", NAMES));
        assert!(
            told.iter().any(|line| line.contains(what)),
            "{near}\n{told:#?}"
        );
    }
}

#[test]
fn a_private_trait_may_say_more() {
    let near = "trait Near { ghost can: { Self → Type 0 }; fn f(self) requires { can self }; }
        impl Near for u8 { ghost can = { λ x. x ≡ 3 }; fn f(self) {} }";
    assert_eq!(lines(&demo(near, "", "")), [""; 0]);
    let public = lines(&demo(&format!("pub {near}"), "", "`demo::Near::f`"));
    assert_eq!(public.len(), 3, "{public:#?}");
}

#[test]
fn the_compiler_s_text_of_each_form_is_read() {
    let heads = |text: &str| crate::heads::heads(text).expect("what the compiler read");
    let told = |text: &str| {
        let report = check(&demo(SOURCE, "", NAMES), Some(&heads(text)));
        report
            .faults
            .iter()
            .map(Fault::to_string)
            .collect::<Vec<_>>()
    };
    assert_eq!(told(PRINTED), [""; 0]);
    for (printed, other, what) in [
        (
            "from_gives = { λ x r. r ≡ dwords_of x",
            "from_gives = { λ x r. r ≡ bytes_of x",
            "demo::<Dwords as From<[u8; 16]>>::from: is not as",
        ),
        (
            "λ n. n }",
            "λ n. 1 }",
            "demo::<u16 as FromWindow>: is not as",
        ),
        (
            "window w.start w.bytes.now",
            "window 0 w.bytes.now",
            "demo::<Window<'a> as Model>: is not as",
        ),
        (
            "pub trait FromWindow",
            "trait FromWindow",
            "demo::FromWindow::read: is not as",
        ),
        (
            "for Refusal as RefusalDisplay",
            "for Place as PlaceDisplay",
            "demo::<Refusal as fmt::Display>: is not as",
        ),
    ] {
        let told = told(&PRINTED.replace(printed, other));
        assert!(
            told.iter().any(|line| line.contains(what)),
            "{other}\n{told:#?}"
        );
    }
}

/// `SOURCE` as the compiler prints it.
const PRINTED: &str = "== crates/demo/src/lib.rt
ghost use Rattle.std.specs.Prelude.{◌≡◌, ℕ, Bool};
ghost use Rattle.demo.specs.Demo.{Memory, window, inside, number_at, dwords_of, bytes_of, refusal_at};
use std :: fmt ;
use std :: marker :: Model ;
# [ derive ( Clone , Copy , Debug , PartialEq , Eq , Hash ) ] pub enum Refusal { Outside = 1 , At ( Place ) , }
pub struct Place { pub at : u8 , }
pub struct Dwords ( u32 , u32 , u32 , u32 ) ;
# [ derive ( Drop ) ] pub struct Window < 'a > { start : u64 , bytes : & 'a [ u8 ] , }
impl < 'a > Model for Window < 'a > {
    ghost Value = { Memory };
    ghost view = { λ w. window w.start w.bytes.now };
}
impl < 'a > Window < 'a > {
pub fn at ( start : u64 , bytes : & 'a [ u8 ] ) -> Self
        ensures { result ≡ window start bytes.now } ;
pub fn inside ( & self , address : u64 ) -> bool
        ensures { result ≡ inside self.now address } ;
}
pub trait FromWindow : Sized {
    ghost width: { ℕ };
    ghost made: { ℕ → Self };
fn read ( mem : & Window , address : u64 ) -> Result < Self , Refusal >
        ensures { result ≡ number_at made mem.now address width } ;
}
# [ read_as = \"0f\" ] impl FromWindow for u16 as U16FromWindow {
    ghost width = { 2 };
    ghost made = { λ n. n };
fn read ( mem : & Window , address : u64 ) -> Result < u16 , Refusal > ;
}
pub fn both < T : FromWindow , const N : usize > ( mem : & Window < '_ > , at : [ u64 ; N ] ) -> Result < Option < T > , Refusal >
    ensures { result ≡ number_at T.made mem.now at.entry T.width } ;
# [ read_as = \"0f\" ] impl From < [ u8 ; 16 ] > for Dwords as DwordsFromArray {
    ghost use Rattle.demo.specs.Demo.{more};
    ghost from_gives = { λ x r. r ≡ dwords_of x };
fn from ( x : [ u8 ; 16 ] ) -> Self ;
}
# [ read_as = \"0f\" ] impl TryFrom < u8 > for Refusal as RefusalTryFromU8 {
type Error = Place ;
    ghost try_from_gives = { λ x r. r ≡ refusal_at x };
fn try_from ( x : u8 ) -> Result < Refusal , Place > ;
}
# [ read_as = \"0f\" ] impl fmt :: Display for Refusal as RefusalDisplay {
fn fmt < W : fmt :: Write > ( & self , f : & mut fmt :: Formatter < W > ) -> fmt :: Result ;
}
";
