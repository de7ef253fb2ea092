//! What a comparison counts, and how much it is asked to compare.
use crate::inputs::Rng;
use std::collections::BTreeMap;

/// What the command line asks for. `alone` is whether it asks for one part of a comparison, in its long form.
pub struct Plan {
    long: bool,
    seed: u64,
    pub alone: bool,
}

impl Plan {
    /// `[--long] [--seed N]`, or the program ends with its usage.
    pub fn read(name: &str) -> Plan {
        Plan::read_with(name, None)
    }

    /// The same; in place of `--long` there may be the word for a part alone.
    pub fn read_with(name: &str, part: Option<&str>) -> Plan {
        let mut plan = Plan { long: false, seed: 1, alone: false };
        let mut words = std::env::args().skip(1);
        while let Some(word) = words.next() {
            let seed = if word == "--seed" { words.next().and_then(|n| n.parse().ok()) } else { None };
            match (word.as_str(), seed) {
                ("--long", _) => plan.long = true,
                (word, _) if Some(word) == part => (plan.long, plan.alone) = (true, true),
                (_, Some(n)) => plan.seed = n,
                _ => {
                    let part = part.map_or(String::new(), |part| format!(" | {part}"));
                    eprintln!("usage: {name} [--long{part}] [--seed N]");
                    std::process::exit(2);
                }
            }
        }
        plan
    }

    /// How many, in the short form and in the long one.
    pub fn count(&self, short: u64, long: u64) -> u64 {
        if self.long { long } else { short }
    }

    /// The random numbers of part i.
    pub fn rng(&self, i: usize) -> Rng {
        Rng((self.seed << 16 | i as u64).wrapping_mul(0xd134_2543_de82_ef95))
    }
}

/// How many results were compared, how many differ, and a case that shows it.
#[derive(Default)]
pub struct Tally {
    compared: u64,
    differ: u64,
    shown: Option<String>,
}

impl Tally {
    pub fn new() -> Tally {
        Tally::default()
    }

    /// One comparison; `case` says it again.
    pub fn count(&mut self, differs: bool, case: impl FnOnce() -> String) {
        self.compared += 1;
        if differs {
            self.differ += 1;
            self.shown.get_or_insert_with(case);
        }
    }

    pub fn add(&mut self, part: Tally) {
        self.compared += part.compared;
        self.differ += part.differ;
    }

    /// The line of a part.
    pub fn line(&self, what: &str, name: &str, more: &str) {
        let more = if more.is_empty() { String::new() } else { format!("; {more}") };
        println!("{what:6} {name:36} {:>9} compared, {} differ{more}", self.compared, self.differ);
        if let Some(case) = &self.shown {
            println!("       at {case}");
        }
    }

    /// The last line; ends the program with status 1 if anything differs.
    pub fn end(&self) {
        println!("{} compared, {} differ", self.compared, self.differ);
        if self.differ > 0 {
            std::process::exit(1);
        }
    }
}

/// How often each kind of case was met.
#[derive(Default)]
pub struct Kinds(BTreeMap<String, u64>);

impl Kinds {
    pub fn many(&mut self, name: impl Into<String>, times: u64) {
        *self.0.entry(name.into()).or_default() += times;
    }

    /// Those that are true.
    pub fn met(&mut self, kinds: &[(&str, bool)]) {
        kinds.iter().filter(|kind| kind.1).for_each(|kind| self.many(kind.0, 1));
    }

    pub fn times(&self, name: &str) -> u64 {
        self.0.get(name).copied().unwrap_or(0)
    }

    pub fn add(&mut self, other: Kinds) {
        other.0.into_iter().for_each(|(name, times)| self.many(name, times));
    }

    /// How often each of some was met.
    pub fn text(&self, names: &[&str]) -> String {
        names.iter().map(|name| format!("{} {name}", self.times(name))).collect::<Vec<_>>().join(", ")
    }

    /// A comparison that seldom meets a kind says little of it: each must be met so often.
    pub fn all_met(&self, what: &str, kinds_of: &str, names: &[impl AsRef<str>], least: u64) -> Tally {
        let mut tally = Tally::new();
        let names: Vec<&str> = names.iter().map(AsRef::as_ref).collect();
        for name in &names {
            let times = self.times(name);
            tally.count(times < least.max(1), || format!("only {times} {kinds_of}: {name}"));
        }
        let rarest = names.into_iter().min_by_key(|name| self.times(name)).unwrap_or_default();
        tally.line(what, &format!("kinds of {kinds_of} that must be met"), &format!("the rarest {} {rarest}", self.times(rarest)));
        tally
    }
}
