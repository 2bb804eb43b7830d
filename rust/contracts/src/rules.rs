//! The rules for public functions, and for the two pages that speak of them.

use std::collections::HashSet;

use crate::clause::{equated, given, gives, kind, view, Subject};
use crate::fault::Fault;
use crate::pages::{Item, Promises};
use crate::reach::Known;
use crate::source::{
    converts, only_shows, Block, Function, Imports, Kind, Member, Parameter, Passed, Source,
};
use crate::{symbols, tree};

/// The item of docs/LOOSE.md that lists the function and gives a reason.
pub fn reason<'a>(function: &Function, loose: &'a [Item]) -> Option<&'a Item> {
    let listed = |item: &&Item| item.path.as_ref() == Some(&function.path);
    loose
        .iter()
        .filter(listed)
        .find(|item| !item.reason.is_empty())
}

/// The contract asks nothing of the caller, and gives the result and all that is lent to be changed by equations. A
/// function in docs/LOOSE.md may give less, but has an `ensures`, unless the reason says that it has none.
pub fn contract(function: &Function, imports: &Imports, loose: &[Item]) -> Vec<Fault> {
    let mut wrong = Vec::new();
    if function.requires {
        wrong.push("has a `requires`; a public function refuses, and asks nothing".to_string());
    }
    match reason(function, loose) {
        None => wrong.extend(unstated(function, imports)),
        Some(item) if function.ensures.is_empty() && !item.says_no_ensures() => {
            wrong.push(format!(
                "has no `ensures`, and its reason in {} does not say \"no ensures\"",
                tree::LOOSE
            ));
        }
        Some(_) => {}
    }
    wrong
        .into_iter()
        .map(|what| Fault::new(&function.file, function.line, &function.path, what))
        .collect()
}

/// What the `ensures` clauses, taken together, do not give by an equation; or the clause that is not known. A function of an impl of
/// `From` or `TryFrom` has none, and gives its result by a member.
fn unstated(function: &Function, imports: &Imports) -> Vec<String> {
    if let Some(text) = &function.gives {
        let name = function.path.rsplit("::").next().unwrap_or("");
        let told = |what| format!("its `{name}_gives` {what}");
        return gives(text, imports).err().map(told).into_iter().collect();
    }
    let mut stated: Vec<Subject> = Vec::new();
    for clause in &function.ensures {
        match equated(clause, function, imports) {
            Ok(subjects) => stated.extend(subjects),
            Err(what) => return vec![format!("its `ensures` {what}")],
        }
    }
    let loose = tree::LOOSE;
    let missing = wanted(function).into_iter();
    let missing = missing.filter(|(subject, _)| !stated.contains(subject));
    missing
        .map(|(_, what)| format!("no equation of {what}; and {loose} gives no reason"))
        .collect()
}

/// What a function's clauses give: its result, and what it is lent to change.
fn wanted(function: &Function) -> Vec<(Subject, String)> {
    let of_result = |subject: Subject, what: &str| (subject, format!("its result{what} ≡ ..`"));
    let mut found = match function.result {
        None => Vec::new(),
        Some(Passed::Value) => vec![of_result(Subject::Result, ": `result")],
        Some(_) => vec![
            of_result(Subject::ResultNow, ": `result.now"),
            of_result(Subject::ResultPlace, "'s place: `result.ref_ptr"),
        ],
    };
    for Parameter { name, passed } in &function.parameters {
        if *passed == Passed::Lent {
            let what = format!("`{name}` at exit: `{name}.new ≡ ..`");
            found.push((Subject::Lent(name.clone()), what));
        }
    }
    found
}

/// The ghost members of a trait, or of an impl of one that is known here, have forms that are known, since contracts are made of them.
pub fn block(block: &Block, source: &Source, known: &Known) -> Vec<Fault> {
    let of = block.of.as_str();
    let fault = |line: usize, what: String| Fault::new(&source.file, line, &block.path, what);
    let public = known.of_trait(&block.module, &block.written);
    let of_std = of == "Model" || converts(of) || only_shows(of);
    if !of_std && public.is_none() {
        let what = format!("is of the trait `{of}`, which is not known here");
        return vec![fault(block.line, what)];
    }
    let told = |one: &Member| {
        let what = member(one, block, source, public).err()?;
        Some(fault(one.line, format!("its `{}` {what}", one.name)))
    };
    block.members.iter().filter_map(told).collect()
}

/// Why a ghost member is of no form that is known. Those of private traits may be of any, and those of conversions are held with their
/// functions.
fn member(
    one: &Member,
    block: &Block,
    source: &Source,
    public: Option<bool>,
) -> Result<(), String> {
    let (of, imports) = (block.of.as_str(), &source.imports);
    let brought = imports.contains(&one.name) || imports.modules.contains(&one.name);
    match &block.kind {
        Kind::Trait { public: true } if brought => {
            Err("is also brought in by a `ghost use`".to_string())
        }
        Kind::Trait { public: true } if symbols::is_held(&one.name) => {
            Err("has a name that means what the library says".to_string())
        }
        Kind::Trait { public: true } => kind(&one.text, imports),
        Kind::Trait { public: false } => Ok(()),
        Kind::Impl { typed } if of == "Model" => model(one, typed, source),
        Kind::Impl { .. } if converts(of) || public == Some(false) => Ok(()),
        Kind::Impl { .. } => given(&one.text, imports),
    }
}

/// Why a member is none of the two that a model has here. What else it may have asks something of who makes a value.
fn model(member: &Member, typed: &str, source: &Source) -> Result<(), String> {
    let fields = source.fields.get(typed);
    match (member.name.as_str(), fields) {
        ("Value", _) => kind(&member.text, &source.imports),
        ("view", Some(fields)) => view(&member.text, fields, &source.imports),
        ("view", None) => Err("is of a type whose fields have no names here".to_string()),
        _ => Err("is none of a model's members that are known here".to_string()),
    }
}

/// The function's path stands in docs/PROMISES.md.
pub fn promise(function: &Function, promises: &Promises) -> Option<Fault> {
    let what = format!("is not named in {}", tree::PROMISES);
    (!promises.named.contains(&function.path))
        .then(|| Fault::new(&function.file, function.line, &function.path, what))
}

/// Every item of docs/LOOSE.md names public functions that exist, and gives a reason.
pub fn loose_page(loose: &[Item], paths: &HashSet<&str>) -> Vec<Fault> {
    let mut found = Vec::new();
    for item in loose {
        for name in &item.named {
            found.extend(unless_known(tree::LOOSE, item.line, name, paths));
        }
        if let Some(path) = item.path.as_ref().filter(|_| item.reason.is_empty()) {
            let what = "has no reason: write `: ` after the path, and why";
            found.push(Fault::new(tree::LOOSE, item.line, path, what));
        }
    }
    found
}

/// Every path that a table's row in docs/PROMISES.md begins with is that of a public function.
pub fn promises_page(promises: &Promises, paths: &HashSet<&str>) -> Vec<Fault> {
    let rows = promises.rows.iter();
    rows.filter_map(|(line, path)| unless_known(tree::PROMISES, *line, path, paths))
        .collect()
}

fn unless_known(page: &str, line: usize, name: &str, paths: &HashSet<&str>) -> Option<Fault> {
    let what = "names no public function";
    (!paths.contains(name)).then(|| Fault::new(page, line, name, what))
}
