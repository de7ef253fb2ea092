//! Which kinds of stores, of damage and of answers were met.
use oracle::tally::Tally;
use std::collections::BTreeMap;

/// How often each kind was met.
#[derive(Default)]
pub struct Seen(BTreeMap<String, u64>);

impl Seen {
    pub fn add(&mut self, name: impl Into<String>) {
        *self.0.entry(name.into()).or_default() += 1;
    }

    pub fn kinds(&mut self, kinds: &[(&str, bool)]) {
        kinds.iter().filter(|kind| kind.1).for_each(|kind| self.add(kind.0));
    }

    fn times(&self, name: &str) -> u64 {
        self.0.get(name).copied().unwrap_or(0)
    }

    /// How often each of these was met.
    pub fn text(&self, names: &[&str]) -> String {
        names.iter().map(|name| format!("{} {name}", self.times(name))).collect::<Vec<_>>().join(", ")
    }

    /// A comparison that seldom meets a kind says little of it: each must have been met so often.
    pub fn all_met(&self, what: &str, names: &[&str], least: u64) -> Tally {
        let mut tally = Tally::new();
        for name in names {
            let times = self.times(name);
            tally.count(times < least.max(1), || format!("only {times}: {name}"));
        }
        let rarest = names.iter().min_by_key(|name| self.times(name)).copied().unwrap_or_default();
        tally.line("lines", &format!("kinds of {what} that must be met"), &format!("the rarest {} {rarest}", self.times(rarest)));
        tally
    }
}
