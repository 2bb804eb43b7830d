//! Reads an `ensures` clause of a public function: which things it gives by an equation. A clause is known in one form,
//!
//! ```text
//! CLAUSE   = EQUATION  or  (EQUATION) × (EQUATION or BOUND) × ..
//! EQUATION = SUBJECT ≡ TERM          BOUND = result < TERM
//! SUBJECT  = result                  passed by value
//!          = result.now, result.ref_ptr   a reference's: what stands there, and where
//!          = p.new                   what a parameter lends, at the end
//! TERM     = numbers, names that a `ghost use` of the file brings in, and `m.name` of a module, the constructors of `Option` and
//!            `Result`, parameters passed by value, as `p` or `p.entry`, of the others `p.old` where it lends something to be
//!            changed, `p.now` where to be read, and `p.entry.ref_ptr`; const parameters, the trait's own members, and a type
//!            parameter's as `T.m`; fields after a dot, parentheses, a comma, and the operators of `SIGNS`; all but these in ASCII
//! ```
//!
//! and what is not of this form is a fault. A term says nothing of the result or of any value at exit, binds no name and
//! has no hole, so an equation gives its subject by what was there before the call.
//!
//! Of a ghost member the same is read, in which `λ` alone binds names, before all else: src/rules.rs says which has which form.
//!
//! ```text
//! GIVES = λ x r. CLAUSE       of what was converted and what it gave: r stands for the result
//! GIVEN = TERM                or  λ a b ... TERM
//! VIEW  = λ w. NAME w.f w.g.now ..    each field of a struct, once, as an argument of its own: w.f, or w.f.now of a reference
//! KIND  = names that are brought in, `Self`, parentheses and →
//! ```

use crate::lex::{antt, bare, Word};
use crate::source::{Function, Imports, Parameter, Passed};

/// What an equation is of.
#[derive(Clone, Debug, PartialEq, Eq)]
pub enum Subject {
    /// The result, passed by value.
    Result,
    /// What stands behind a reference that is returned, and where.
    ResultNow,
    ResultPlace,
    /// What a parameter lends, at exit.
    Lent(String),
}

/// What a clause calls the value that the function returns.
const RESULT: &str = "result";

const AT_EXIT: &str = "has a value at exit in its right side";

/// The operators of a term, as a `ghost use` names them.
const SIGNS: [(&str, &str); 7] = [
    ("+", "◌+◌"),
    ("-", "◌-◌"),
    ("*", "◌*◌"),
    ("/", "◌/◌"),
    ("%", "◌%◌"),
    ("^", "◌^◌"),
    ("∷", "◌∷◌"),
];

/// The constructors of std's types, which nothing brings in.
const CONSTRUCTORS: [&str; 4] = ["Some", "None", "Ok", "Err"];

/// What the clause of a function equates, or why it is not known.
pub fn equated(
    clause: &str,
    function: &Function,
    imports: &Imports,
) -> Result<Vec<Subject>, String> {
    let scope = Scope {
        parameters: &function.parameters,
        names: &function.names,
        types: &function.types,
        imports,
        result: RESULT,
        of_fields: false,
    };
    scope.clause(clause)
}

/// Why a member does not give, by an equation, what a function answers.
pub fn gives(text: &str, imports: &Imports) -> Result<(), String> {
    let (names, clause) = lambda(text)?;
    let (given, result) = match names[..] {
        [given, result] if result != "_" => (variables(&[given]), result),
        _ => return Err("is not of the form `λ x r. r ≡ ..`".to_string()),
    };
    let scope = Scope {
        result,
        ..Scope::over(&given, imports)
    };
    match scope.clause(clause)?.contains(&Subject::Result) {
        true => Ok(()),
        false => Err(format!("has no equation of `{result}`")),
    }
}

/// Why a member that an impl gives is no term, nor a `λ` of one.
pub fn given(text: &str, imports: &Imports) -> Result<(), String> {
    let (names, term) = lambda(text)?;
    Scope::over(&variables(&names), imports).term(&words(term)?)
}

/// Why a member is no view, which says what contracts see of a struct with these fields: one that left a field out would have them be
/// silent of it.
pub fn view(text: &str, fields: &[String], imports: &Imports) -> Result<(), String> {
    let (names, term) = lambda(text)?;
    let [name] = names[..] else {
        return Err("is not of the form `λ w. ..`".to_string());
    };
    let words = words(term)?;
    let said = |field: &&String| words.windows(3).any(|three| three == [name, ".", field]);
    if let Some(field) = fields.iter().find(|field| !said(field)) {
        return Err(format!("does not say `{name}.{field}`"));
    }
    let over = variables(&names);
    let scope = Scope {
        of_fields: true,
        ..Scope::over(&over, imports)
    };
    scope.term(&words)?;
    let arguments = words.get(1..).and_then(|words| fields_of(name, words));
    match arguments == Some(fields.len()) {
        true => Ok(()),
        false => Err(format!(
            "does not have each field once, as an argument `{name}.f` or `{name}.f.now`"
        )),
    }
}

/// How many arguments these words are, if each is a field of a variable and no more.
fn fields_of(name: &str, words: &[&str]) -> Option<usize> {
    match words {
        [] => Some(0),
        [w, ".", _, ".", "now", rest @ ..] | [w, ".", _, rest @ ..] if *w == name => {
            Some(1 + fields_of(name, rest)?)
        }
        _ => None,
    }
}

/// Why a text is not the type of a member.
pub fn kind(text: &str, imports: &Imports) -> Result<(), String> {
    let known = |word: &str| ["Self", "→", "(", ")"].contains(&word) || imports.contains(word);
    let plain = |word: &str| word.is_ascii() && word != "_" || ["→", "ℕ"].contains(&word);
    match words(text)?
        .into_iter()
        .find(|word| !known(word) || !plain(word))
    {
        Some(word) => Err(unknown(word)),
        None => Ok(()),
    }
}

/// The names that a `λ` at the head of a text binds, and what follows; none if it has no `λ`.
fn lambda(text: &str) -> Result<(Vec<&str>, &str), String> {
    let Some(bound) = text.trim_start().strip_prefix('λ') else {
        return Ok((Vec::new(), text));
    };
    let (names, rest) = bound.split_once('.').unwrap_or((bound, ""));
    let names: Vec<&str> = names.split_whitespace().collect();
    let once = |at: usize| names[at] == "_" || !names[..at].contains(&names[at]);
    let fine = |at: usize| plain(names[at]) && !number(names[at]) && once(at);
    let apart = [bound, rest]
        .iter()
        .all(|text| text.starts_with(char::is_whitespace));
    if names.is_empty() || !apart || !(0..names.len()).all(fine) {
        return Err("has a `λ` of a form that is not known here".to_string());
    }
    Ok((names, rest))
}

/// The names that a `λ` binds, as values; `_` is none.
fn variables(names: &[&str]) -> Vec<Parameter> {
    let named = names.iter().filter(|name| **name != "_");
    let variable = |name: &&str| Parameter {
        name: name.to_string(),
        passed: Passed::Value,
    };
    named.map(variable).collect()
}

fn unknown(word: &str) -> String {
    format!("has `{word}`, which is neither a parameter nor brought in by a `ghost use`")
}

/// The words of a clause, an escaped name without its marks: such a name is one that antt would read as an operator. A dot stands
/// right between its two words; with a space it would be another thing's field.
fn words(clause: &str) -> Result<Vec<&str>, String> {
    let all = antt(clause);
    let place = |word: &Word| word.text.as_ptr() as usize;
    let touch = |pair: &[Word]| place(&pair[0]) + pair[0].text.len() == place(&pair[1]);
    let apart = |pair: &&[Word]| pair.iter().any(|word| word.text == ".") && !touch(pair);
    if all.iter().any(|word| word.text == "λ") {
        return Err("has `λ`".to_string());
    }
    if let Some(pair) = all.windows(2).find(apart) {
        return Err(format!("has `{} {}`", pair[0].text, pair[1].text));
    }
    let mut found = Vec::new();
    for word in all {
        let name = bare(word.text);
        if name != word.text
            && !(name.contains('_') && name.chars().all(|c| c.is_ascii_alphanumeric() || c == '_'))
        {
            return Err(format!("has `{}`", word.text));
        }
        found.push(name);
    }
    Ok(found)
}

/// The facts that a product joins, each in parentheses; or the one fact.
fn factors<'a>(fact: &'a [&'a str]) -> Result<Vec<&'a [&'a str]>, String> {
    if !fact.contains(&"×") {
        return Ok(vec![fact]);
    }
    let mut found = Vec::new();
    let mut rest = fact;
    loop {
        let close = closing(rest).ok_or("joins by `×` what is not in parentheses")?;
        found.push(&rest[1..close]);
        rest = match &rest[close + 1..] {
            [] => return Ok(found),
            ["×", rest @ ..] => rest,
            _ => return Err("joins by `×` what is not in parentheses".to_string()),
        };
    }
}

/// The place of the parenthesis that closes the first word.
fn closing(words: &[&str]) -> Option<usize> {
    if words.first() != Some(&"(") {
        return None;
    }
    let mut depth = 0;
    words.iter().position(|word| {
        depth += nesting(word);
        depth == 0
    })
}

fn nesting(word: &str) -> i32 {
    match word {
        "(" => 1,
        ")" => -1,
        _ => 0,
    }
}

/// The names that a clause may use.
struct Scope<'a> {
    parameters: &'a [Parameter],
    /// Further names, and types whose members are known.
    names: &'a [String],
    types: &'a [String],
    imports: &'a Imports,
    /// What the clause calls the value that the function returns.
    result: &'a str,
    /// Whether a parameter's fields may be references.
    of_fields: bool,
}

impl<'a> Scope<'a> {
    /// Of the variables of a `λ`, with no result.
    fn over(parameters: &'a [Parameter], imports: &'a Imports) -> Self {
        Scope {
            parameters,
            names: &[],
            types: &[],
            imports,
            result: "",
            of_fields: false,
        }
    }

    fn parameter(&self, name: &str) -> Option<&Parameter> {
        self.parameters.iter().find(|p| p.name == name)
    }

    /// What a clause equates.
    fn clause(&self, text: &str) -> Result<Vec<Subject>, String> {
        let words = words(text)?;
        self.check_names()?;
        let facts = factors(&words)?;
        let stated = facts.into_iter().map(|fact| self.fact(fact));
        let stated = stated.collect::<Result<Vec<_>, _>>()?;
        Ok(stated.into_iter().flatten().collect())
    }

    /// The result's name is no other thing's. A parameter may hide a name that is brought in: a term that says the name then
    /// speaks of the parameter.
    fn check_names(&self) -> Result<(), String> {
        let result = self.result;
        let others = [self.names, self.types].concat();
        if self.parameter(result).is_some()
            || self.imports.contains(result)
            || self.imports.modules.contains(result)
            || others.iter().any(|name| name == result)
        {
            return Err(format!("speaks of `{result}`, which is another thing's"));
        }
        Ok(())
    }

    /// What a fact is an equation of: nothing if it is a bound.
    fn fact(&self, fact: &[&str]) -> Result<Option<Subject>, String> {
        if let [name, "<", term @ ..] = fact {
            self.is_result(name)?;
            self.term(term)?;
            return Ok(None);
        }
        let Some(at) = fact.iter().position(|word| *word == "≡") else {
            return Err(format!(
                "has a fact that is no equation: `{}`",
                fact.join(" ")
            ));
        };
        let subject = self.subject(&fact[..at])?;
        self.term(&fact[at + 1..])?;
        Ok(Some(subject))
    }

    fn is_result(&self, name: &str) -> Result<(), String> {
        if name == self.result {
            return Ok(());
        }
        Err(format!("speaks of `{name}`, which is not the result"))
    }

    fn subject(&self, words: &[&str]) -> Result<Subject, String> {
        match words {
            [name, ".", "new"] => match self.parameter(name) {
                Some(p) if p.passed == Passed::Lent => Ok(Subject::Lent(p.name.clone())),
                _ => Err(format!(
                    "has an equation of `{name}`, which lends nothing to be changed"
                )),
            },
            [name] => self.is_result(name).map(|()| Subject::Result),
            [name, ".", "now"] => self.is_result(name).map(|()| Subject::ResultNow),
            [name, ".", "ref_ptr"] => self.is_result(name).map(|()| Subject::ResultPlace),
            _ => Err(format!("has an equation of `{}`", words.join(" "))),
        }
    }

    /// A term is made of what is known before the call.
    fn term(&self, words: &[&str]) -> Result<(), String> {
        let depths = words.iter().scan(0, |depth, word| {
            *depth += nesting(word);
            Some(*depth)
        });
        let depths: Vec<i32> = depths.collect();
        if words.is_empty() || depths.last() != Some(&0) || depths.iter().any(|depth| *depth < 0) {
            return Err(
                "has an equation with no right side, or with parentheses that do not match"
                    .to_string(),
            );
        }
        let mut rest = words;
        while !rest.is_empty() {
            rest = self.part(rest)?;
        }
        Ok(())
    }

    /// Passes one part of a term.
    fn part<'w>(&self, words: &'w [&'w str]) -> Result<&'w [&'w str], String> {
        let is = |name: &str, passed| self.parameter(name).is_some_and(|p| p.passed == passed);
        let lent = |name: &str| is(name, Passed::Lent) || is(name, Passed::Shared);
        let field = |name: &str, field: &str| is(name, Passed::Value) && plain(field);
        let hidden = |name: &str| self.parameter(name).is_some();
        let typed = |name: &str| !hidden(name) && self.types.iter().any(|one| one == name);
        let module = |name: &str| !hidden(name) && self.imports.modules.contains(name);
        match words {
            [name, ".", "old", rest @ ..] if is(name, Passed::Lent) => Ok(rest),
            [name, ".", "now", rest @ ..] if is(name, Passed::Shared) => Ok(rest),
            [name, ".", "entry", ".", "ref_ptr", rest @ ..] if lent(name) => Ok(rest),
            [name, ".", "entry", rest @ ..] if is(name, Passed::Value) => Ok(rest),
            [name, ".", f, ".", "now", rest @ ..] if self.of_fields && field(name, f) => Ok(rest),
            [name, ".", member, rest @ ..] if typed(name) && plain(member) => Ok(rest),
            [name, ".", one, rest @ ..] if module(name) && plain(one) => Ok(rest),
            [".", "new" | "exit", ..] => Err(AT_EXIT.to_string()),
            [name, ".", "new" | "exit", ..] if lent(name) => Err(AT_EXIT.to_string()),
            [".", field @ ("old" | "now" | "entry"), ..] => Err(format!("has `.{field}`")),
            [name, ".", field @ ("old" | "now" | "entry"), ..] if lent(name) => {
                Err(format!("has `{name}.{field}`"))
            }
            [".", field, rest @ ..] if plain(field) => Ok(rest),
            ["(" | ")" | ",", rest @ ..] => Ok(rest),
            [word, rest @ ..] => self.known(word).map(|()| rest),
            [] => Ok(words),
        }
    }

    fn known(&self, word: &str) -> Result<(), String> {
        if word == self.result {
            return Err(format!("has `{word}`, its own subject, in its right side"));
        }
        if let Some(p) = self.parameter(word) {
            return match p.passed {
                Passed::Value => Ok(()),
                _ => Err(format!(
                    "has `{word}` whole: a part of it is known before the call"
                )),
            };
        }
        let sign = SIGNS.iter().find(|(sign, _)| *sign == word);
        let named = self.imports.contains(word) || self.names.iter().any(|name| name == word);
        let known = match sign {
            Some((_, name)) => self.imports.contains(name),
            None if CONSTRUCTORS.contains(&word) => true,
            None => named && word.is_ascii() && word != "_" || number(word),
        };
        match known {
            true => Ok(()),
            false => Err(unknown(word)),
        }
    }
}

/// The name of a field, or the number of one.
fn plain(field: &str) -> bool {
    field.chars().all(|c| c.is_ascii_alphanumeric() || c == '_')
}

fn number(word: &str) -> bool {
    word.starts_with(|c: char| c.is_ascii_digit()) && plain(word)
}

#[cfg(test)]
mod tests {
    use super::*;

    /// What a clause of `fn f<mem: A, T: A, const N: usize>(mem: &mut [u8], n: u8, s: &[u8])` equates, in a trait with a member `made`.
    fn of(clause: &str) -> Result<Vec<Subject>, String> {
        let parameter = |name: &str, passed| Parameter {
            name: name.to_string(),
            passed,
        };
        let function = Function {
            names: vec!["N".to_string(), "made".to_string()],
            types: vec!["T".to_string(), "mem".to_string()],
            parameters: vec![
                parameter("mem", Passed::Lent),
                parameter("n", Passed::Value),
                parameter("s", Passed::Shared),
            ],
            result: Some(Passed::Value),
            ..Function::default()
        };
        let imports = ["f", "g", "[]", "max_len", "◌+◌", "◌∷◌"];
        equated(clause, &function, &of_names(&imports))
    }

    #[test]
    fn equations_of_the_result_count() {
        for clause in [
            "result ≡ f n 32",
            "result ≡ f mem.old n.place + 0x1_0",
            "(result ≡ n) × (result < 2)",
            "result ≡ n ∷ (g n).refusal ∷ []",
            "result ≡ f «max_len»",
            "result ≡ f n.entry N",
            "result ≡ Ok (Some (f n))",
            "result ≡ f made T.made s.now.place T.width.x",
            "result ≡ m.put (m.words_of n) s.now",
        ] {
            assert_eq!(of(clause), Ok(vec![Subject::Result]), "{clause}");
        }
    }

    #[test]
    fn equations_at_exit_and_of_references_count() {
        let lent = Subject::Lent("mem".to_string());
        let put = "mem.new ≡ f mem.old s.now n";
        assert_eq!(of(put), Ok(vec![lent.clone()]));
        let both = "(result ≡ f n)\n × (mem.new ≡ g n)";
        assert_eq!(of(both), Ok(vec![Subject::Result, lent]));
        let part =
            "(result.now ≡ f n) × (result.ref_ptr ≡ (s.entry.ref_ptr.0, f n + s.entry.ref_ptr.1))";
        assert_eq!(of(part), Ok(vec![Subject::ResultNow, Subject::ResultPlace]));
    }

    #[test]
    fn weaker_facts_are_not_known() {
        for clause in [
            "",
            "⌜ result < 1 ⌝ ∗ ⌜ result ≡ n ⌝",
            "λ r. ⌜ r ≡ n ⌝",
            "result ≤ 1",
            "result.len ≡ 1",
            "f result ≡ 1",
            "1 ≡ result",
            "(n ≤ 2 → result ≡ n)",
            "result ≡ n → n ≤ 2",
            "(result ≡ 1) ⊎ (result ≡ 2)",
            "¬ (result ≡ 1)",
            "f (result ≡ 1)",
            "result ≡ 1 × result ≡ n",
            "(k : ℕ) × (result ≡ k)",
            "(result ≡ 1) × (f n → g n)",
            "let k = n in result ≡ k",
            "result ≡",
            "(result ≡ n)",
            "s ≡ n",
            "s.new ≡ n",
            "mem.now ≡ n",
            "n.new ≡ n",
            "result ≡ f mem.now",
            "result ≡ f n.now",
            "result ≡ f n.new",
            "result ≡ f s.old",
            "result ≡ f s.new",
            "result ≡ f mem.new",
            "result ≡ f mem.exit.now",
            "result ≡ f mem.entry",
            "result ≡ f mem",
            "result ≡ f mem .old",
            "result ≡ f mem. old",
            "result .now ≡ n",
            "result ≡ f n.exit",
            "result ≡ f n.entry.now",
            "result ≡ f s.entry",
            "result ≡ f T",
            "result ≡ U.made",
            "result ≡ T.made.now",
            "result ≡ mem.width",
            "result ≡ m",
            "result ≡ k.put n",
            "result ≡ mem.put n",
            "m.put n ≡ n",
            "IfOk result (λ r. r ≡ n)",
            "OnOk result (mem.new ≡ f n)",
        ] {
            assert!(of(clause).is_err(), "{clause}");
        }
    }

    /// What brings in these names, and the module `m`, also as `mem`.
    fn of_names(names: &[&str]) -> Imports {
        let owned = |name: &&str| name.to_string();
        Imports {
            names: names.iter().map(owned).collect(),
            modules: ["m", "mem"].iter().map(owned).collect(),
        }
    }

    fn imports() -> Imports {
        of_names(&["f", "g", "ℕ", "Memory", "◌+◌"])
    }

    #[test]
    fn a_member_gives_by_an_equation() {
        for text in [
            " λ x r. r ≡ f x ",
            "λ x r. (r ≡ f x.place 2) × (r < 9)",
            "λ _ error. error ≡ Some f",
            "λ x r.\n    r ≡ x + 1",
        ] {
            assert_eq!(gives(text, &imports()), Ok(()), "{text}");
        }
        for text in [
            "",
            "f",
            "λ x r. f x r",
            "λ x r. r.place ≡ x",
            "λ x r. r.now ≡ x",
            "λ x r. f r ≡ x",
            "λ x r. x ≡ r",
            "λ x r. r < x",
            "λ x r. r ≡ r",
            "λ x r. r ≡ f (g r)",
            "λ x r. r ≡ _",
            "λ _ r. r ≡ _",
            "λ x _. _ ≡ f x",
            "λ x r. r ≡ ?hole",
            "λ x r. r ≡ f y",
            "λ x r. r ≡ (λ y. y) x",
            "λ x r. (r ≡ f x) ⊎ (r ≡ x)",
            "λ x r. IfOk r (λ y. y ≡ x)",
            "λ x r. x < 9 → r ≡ f x",
            "λ x f. f ≡ x",
            "λ r r. r ≡ f",
            "λ x. λ r. r ≡ x",
            "λ x r s. r ≡ x",
            "λ (x, y) r. r ≡ x",
            "λ x r.r ≡ x",
            "λx r. r ≡ x",
            "λ x r. result ≡ x",
        ] {
            assert!(gives(text, &imports()).is_err(), "{text}");
        }
    }

    #[test]
    fn what_an_impl_gives_is_a_term() {
        for text in ["2", "f", "λ n. n", "λ a b. f a (b + 1)", "λ _. g"] {
            assert_eq!(given(text, &imports()), Ok(()), "{text}");
        }
        for text in [
            "",
            "_",
            "?",
            "?made",
            "λ _. _",
            "λ n. ?",
            "λ n. m",
            "λ n. λ m. f n m",
            "f (λ n. n)",
            "λ n. n ≡ f",
            "λ n. n → f",
            "Prim.search",
            "record { a = 1 }",
        ] {
            assert!(given(text, &imports()).is_err(), "{text}");
        }
    }

    #[test]
    fn a_view_says_each_field() {
        let fields = ["start", "bytes"].map(str::to_string);
        let of = |text: &str| view(text, &fields, &imports());
        assert_eq!(of("λ w. f w.start w.bytes.now"), Ok(()));
        assert_eq!(of("λ v. f v.bytes v.start"), Ok(()));
        for text in [
            "f",
            "λ w. f w",
            "λ w. f w.start",
            "λ w. f w.start w.bytes.now _",
            "λ w. f w.start w.bytes.now ?",
            "λ w. f w.start w.bytes.now.now",
            "λ w. f w.start.now w.bytes.old",
            "λ w v. f w.start w.bytes.now",
            "λ w. h w.start w.bytes.now",
            "λ w. f w. start w.bytes.now",
            "λ w. f (w.start - w.start) w.bytes.now",
            "λ w. f w.start - w.start w.bytes.now",
            "λ w. f (g w.start) w.bytes.now",
            "λ w. f w.start w.start w.bytes.now",
            "λ w. f w.start w.bytes.now 0",
        ] {
            assert!(of(text).is_err(), "{text}");
        }
    }

    #[test]
    fn a_member_s_type_has_known_names() {
        for text in ["ℕ", "ℕ → Self", "(ℕ → Memory) → Self"] {
            assert_eq!(kind(text, &imports()), Ok(()), "{text}");
        }
        for text in [
            "Self → Type 0",
            "_",
            "?",
            "List ℕ",
            "(n : ℕ) → f n ≡ n",
            "a.B",
        ] {
            assert!(kind(text, &imports()).is_err(), "{text}");
        }
    }
}
