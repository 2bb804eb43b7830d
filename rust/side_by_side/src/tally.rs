//! What was compared, by kind, and what differed.

use std::collections::BTreeMap;
use std::fmt::Debug;

/// So many differences of one kind are written out.
const SHOWN: u64 = 5;

pub struct Tally {
    name: &'static str,
    compared: u64,
    differing: u64,
    /// Inputs outside document 01's domain, by what puts them there.
    outside: BTreeMap<&'static str, u64>,
    /// What was among the inputs.
    among: BTreeMap<&'static str, u64>,
}

impl Tally {
    pub fn new(name: &'static str) -> Self {
        Self {
            name,
            compared: 0,
            differing: 0,
            outside: BTreeMap::new(),
            among: BTreeMap::new(),
        }
    }

    /// Holds two answers to one input beside each other.
    #[inline]
    pub fn hold<T: PartialEq + Debug>(&mut self, input: &dyn Debug, expected: T, port: T) {
        self.compared += 1;
        if expected != port {
            self.differ(input, &expected, &port);
        }
    }

    #[cold]
    fn differ(&mut self, input: &dyn Debug, expected: &dyn Debug, port: &dyn Debug) {
        self.differing += 1;
        if self.differing <= SHOWN {
            println!("DIFFERS, {}: {input:x?}", self.name);
            println!("  expected {expected:x?}\n  port     {port:x?}");
        }
    }

    /// An input on which the books part, or that one of them does not take.
    pub fn outside(&mut self, why: &'static str) {
        *self.outside.entry(why).or_default() += 1;
    }

    /// An input of a kind that is to be counted.
    pub fn among(&mut self, what: &'static str) {
        *self.among.entry(what).or_default() += 1;
    }

    /// Takes up the counts of another tally of the same kind.
    pub fn join(&mut self, other: Self) {
        self.compared += other.compared;
        self.differing += other.differing;
        for (why, count) in other.outside {
            *self.outside.entry(why).or_default() += count;
        }
        for (what, count) in other.among {
            *self.among.entry(what).or_default() += count;
        }
    }

    pub fn name(&self) -> &'static str {
        self.name
    }

    pub fn compared(&self) -> u64 {
        self.compared
    }

    pub fn differing(&self) -> u64 {
        self.differing
    }

    pub fn print(&self) {
        println!(
            "{:34} {:>10} compared, {} differ",
            self.name, self.compared, self.differing
        );
        for (why, count) in &self.outside {
            println!("{:34} {count:>10} outside the domain: {why}", "");
        }
        for (what, count) in &self.among {
            println!("{:34} {count:>10} {what}", "");
        }
    }
}
