//! Sees to it that what is public is made of what is public: each type in the head of a public function, in a public type and in an impl
//! of a public trait, and each trait that bounds a type or stands above another. A private type may hold a `&mut`, or ask something of who
//! makes a value, and the members of a private trait nobody reads. A name is followed through `use` to the file and the crate that declare
//! it; what none declares is std's, of which few are known. Every public type is looked at itself, so one step is enough.

use std::collections::HashMap;

use crate::fault::Fault;
use crate::source::{Kind, Made, Source, Thing};

/// The types that nothing declares.
const OF_STD: [&str; 18] = [
    "Option", "Result", "Self", "bool", "char", "i128", "i16", "i32", "i64", "i8", "isize", "str",
    "u128", "u16", "u32", "u64", "u8", "usize",
];

/// The trait of std that may stand above a public one. It says nothing of what a type holds, so that it bounds none.
const SIZED: &str = "Sized";

/// What all sources declare, by the paths from a crate's name on, and whether it is public.
pub struct Known<'a> {
    types: HashMap<&'a str, bool>,
    traits: HashMap<&'a str, bool>,
    /// What names stand for, by the paths that they have in the modules that bring them in.
    brought: HashMap<&'a str, &'a str>,
}

impl<'a> Known<'a> {
    pub fn over(sources: &'a [Source]) -> Self {
        let mut known = Known {
            types: HashMap::new(),
            traits: HashMap::new(),
            brought: HashMap::new(),
        };
        for source in sources {
            let types = source.types.iter().map(|(path, is)| (path.as_str(), *is));
            known.types.extend(types);
            let brought = source.brought.iter();
            let brought = brought.map(|(name, from)| (name.as_str(), from.as_str()));
            known.brought.extend(brought);
            for block in &source.blocks {
                if let Kind::Trait { public } = block.kind {
                    known.traits.insert(&block.path, public);
                }
            }
        }
        known
    }

    /// Whether the trait that a module writes so is public; nothing if it is none of the repository.
    pub fn of_trait(&self, module: &str, written: &str) -> Option<bool> {
        let paths = self.paths(module, written);
        paths
            .iter()
            .find_map(|path| self.traits.get(path.as_str()).copied())
    }

    /// What is not public in what a source makes public.
    pub fn faults(&self, source: &Source) -> Vec<Fault> {
        let told = |made: &Made| {
            let what = self.wrong(made)?;
            Some(Fault::new(&source.file, made.line, &made.path, what))
        };
        source.made.iter().filter_map(told).collect()
    }

    fn wrong(&self, made: &Made) -> Option<String> {
        let place = match made.thing {
            Thing::Head => "in a public head",
            Thing::Type => "in a public type",
            Thing::Trait => "above a public trait",
            Thing::Impl => "in an impl of a public trait",
        };
        let mut traits = made.traits.iter();
        match traits.find(|path| !self.is_public(made, path)) {
            Some(_) if made.thing == Thing::Impl => return None,
            Some(path) => {
                let what = "which is no public trait of the repository";
                return Some(format!("has `{path}` {place}, {what}"));
            }
            None => {}
        }
        let mut types = made.types.iter();
        types.find_map(|path| self.hidden(made, path, place))
    }

    fn is_public(&self, made: &Made, of: &str) -> bool {
        let above = made.thing == Thing::Trait && of == SIZED;
        match self.of_trait(&made.module, of) {
            Some(public) => public,
            None => above && !self.is_brought(&made.module, of),
        }
    }

    fn hidden(&self, made: &Made, written: &str, place: &str) -> Option<String> {
        let paths = self.paths(&made.module, written);
        let mut found = paths
            .iter()
            .filter_map(|path| self.types.get_key_value(path.as_str()));
        match found.next() {
            Some((_, true)) => None,
            Some((path, false)) => Some(format!("has `{path}`, which is private, {place}")),
            None if OF_STD.contains(&written) && !self.is_brought(&made.module, written) => None,
            None => {
                let what = "which the reader of contracts does not know";
                Some(format!("has `{written}` {place}, {what}"))
            }
        }
    }

    fn is_brought(&self, module: &str, name: &str) -> bool {
        self.brought
            .contains_key(format!("{module}::{name}").as_str())
    }

    /// The paths that may be meant by what a module writes: of something below it, or else of another crate's.
    fn paths(&self, module: &str, written: &str) -> Vec<String> {
        let (first, rest) = written.split_at(written.find("::").unwrap_or(written.len()));
        let from = self.brought.get(format!("{module}::{first}").as_str());
        let path = format!("{}{rest}", from.unwrap_or(&first));
        let own = module.split("::").next().unwrap_or(module);
        match path.strip_prefix("crate::") {
            Some(path) => vec![format!("{own}::{path}")],
            None => vec![format!("{module}::{path}"), path],
        }
    }
}

#[cfg(test)]
mod tests {
    use crate::demo::{demo, lines};
    use crate::tree::{Crate, File};

    /// The faults of a library whose module `a`, and a library beside it, `near`, have these sources.
    fn told(source: &str, a: &str, near: &str) -> Vec<String> {
        let file = |name: &str, text: &str| File {
            name: name.to_string(),
            text: text.to_string(),
        };
        let mut tree = demo(source, "", "`demo::f`, `demo::a::g`");
        tree.listed.push_str("near:\n");
        tree.crates[0].files.push(file("crates/demo/src/a.rt", a));
        tree.crates.push(Crate {
            name: "near".to_string(),
            files: vec![file("crates/near/src/lib.rt", near)],
        });
        lines(&tree)
    }

    const PUBLIC: &str = "pub struct C<'a> { x: &'a u8 } pub trait Near {}";
    const PRIVATE: &str = "pub(crate) struct C { x: u8, ghost small: { x } } trait Near {}";

    /// Ways to write a type `C` or a trait `Near` of `demo::a`.
    const OF_MODULE: [&str; 8] = [
        "pub fn f(c: a::C) {}",
        "pub fn f(c: &[Option<crate::a::C>; 2]) {}",
        "use a::C; pub fn f(c: C) {}",
        "use crate::{a::{C as D, g}, b}; pub struct E { d: D } pub fn f(e: E) {}",
        "use crate::a::{self as b, C}; pub type D = b::C; pub fn f(d: D) {}",
        "use crate::a; pub enum E { A(a::C) } pub fn f(e: E) {}",
        "pub fn f<T: a::Near>(x: T) {}",
        "use a::Near as N; pub trait T: Sized + N {} pub fn f<X: T>(x: X) {}",
    ];

    /// The same of `near`.
    const OF_CRATE: [&str; 5] = [
        "pub fn f(c: near::C) {}",
        "use near::C; pub fn f(c: C) {}",
        "use near::{self, g}; pub struct E { d: near::C } pub fn f(e: E) {}",
        "use near as b; mod a { pub fn g(c: near::C) {} } pub fn f(c: b::C) {}",
        "use near::{C, Near}; pub trait T: Near {} impl Near for C {} pub fn f<X: T>(x: X) {}",
    ];

    #[test]
    fn what_is_public_is_found_in_its_file_or_crate() {
        for source in OF_MODULE {
            assert_eq!(told(source, PUBLIC, PRIVATE), [""; 0], "{source}");
        }
        for source in OF_CRATE {
            assert_eq!(told(source, PRIVATE, PUBLIC), [""; 0], "{source}");
        }
    }

    #[test]
    fn what_is_private_is_told_wherever_it_is() {
        let of_module = OF_MODULE.map(|source| (source, told(source, PRIVATE, PUBLIC)));
        let of_crate = OF_CRATE.map(|source| (source, told(source, PUBLIC, PRIVATE)));
        for (source, told) in of_module.into_iter().chain(of_crate) {
            let what = |line: &String| {
                line.contains("::C`, which is private") || line.contains("no public trait")
            };
            assert!(told.iter().any(what), "{source}\n{told:#?}");
        }
    }
}
