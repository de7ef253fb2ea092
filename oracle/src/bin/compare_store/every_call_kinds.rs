//! Which kinds of calls were met in histories of every call.
use crate::adoption_kinds::Told;
use crate::judge::set_of;
use oracle::conventions::{Convention, RAW, RHO0};
use oracle::histories::{Answer, Call};
use oracle::machine::ALL_LAYERS;
use oracle::tally::Kinds;

/// How a list began; the calls on a store of the form before layers have a list of their own.
#[derive(Clone, Copy, Debug)]
pub enum Since {
    Opening,
    OldOpening,
    Carry,
    CarryBeforeTens,
    Reading,
}

impl Since {
    fn name(self) -> &'static str {
        match self {
            Since::Opening => "an opening",
            Since::OldOpening => "an opening of the old form",
            Since::Carry => "a carry",
            Since::CarryBeforeTens => "a carry of pieces fitted before L2",
            Since::Reading => "lines read",
        }
    }
}

/// Every call with its answers: 0 where it is accepted, else the number of the refusal. 4 and 5 of a store do not occur in a history.
const ANSWERS: [(&str, &[u32]); 15] = [
    ("put", &[0, 6, 16]),
    ("clear", &[0, 6, 7]),
    ("reweigh", &[0, 6, 7]),
    ("advance", &[0]),
    ("squeeze", &[0]),
    ("density", &[0, 16, 8]),
    ("track", &[0, 16, 8, 14]),
    ("report", &[0, 16, 8]),
    ("finished", &[0, 16]),
    ("list", &[0, 16, 8, 9]),
    ("page", &[0, 8, 17, 18]),
    ("write", &[0, 19]),
    ("read", &[0, 13, 2, 3, 4, 6, 16]),
    ("carry", &[0, 4]),
    ("adopt", &[0, 6, 7]),
];

const ANOTHER_BODY: &str = "adopt, another body";

/// All that must be met in any list: each call with each of its answers.
pub fn in_any() -> Vec<String> {
    let answers = ANSWERS.iter().flat_map(|(call, numbers)| numbers.iter().map(move |no| format!("{call} as {no}")));
    answers.chain([ANOTHER_BODY.to_string()]).collect()
}

/// All that must be met in many histories: each of those after each beginning, and each reading by each convention and kind of set. A
/// refusal as 2 takes long lines, and the carry itself comes after none of these beginnings.
pub fn in_many() -> Vec<String> {
    let since = [Since::Opening, Since::Carry, Since::CarryBeforeTens, Since::Reading];
    let seldom = ["read as 2", "carry as 0", "carry as 4"];
    let often = in_any().into_iter().filter(|name| !seldom.contains(&name.as_str()));
    let after = often.flat_map(|name| since.map(|since| format!("{name}, since {}", since.name())));
    let read = ["density", "track", "report", "finished", "list"]
        .into_iter()
        .flat_map(|call| ["raw", "rho0", "mass"].into_iter().flat_map(move |by| ["all", "some", "no"].map(|set| reading(call, by, set))));
    after.chain(read).collect()
}

fn reading(call: &str, by: &str, set: &str) -> String {
    format!("{call} by {by}, of {set} layers")
}

/// How often a call had an answer.
fn times(kinds: &Kinds, call: &str, no: u32) -> u64 {
    kinds.times(&format!("{call} as {no}"))
}

/// How many calls were accepted and refused.
pub fn shown(kinds: &Kinds) -> String {
    let accepted: u64 = ANSWERS.iter().map(|(call, _)| times(kinds, call, 0)).sum();
    let refused: u64 = ANSWERS.iter().flat_map(|(call, numbers)| numbers[1..].iter().map(|no| times(kinds, call, *no))).sum();
    format!("{accepted} calls accepted, {refused} refused, {} {ANOTHER_BODY}", kinds.times(ANOTHER_BODY))
}

/// A line for each call with its answers.
pub fn print(kinds: &Kinds) {
    for (call, numbers) in ANSWERS {
        let refused: String = numbers[1..].iter().map(|no| format!(", {} as {no}", times(kinds, call, *no))).collect();
        println!("       {call:8} {:>6} accepted{refused}", times(kinds, call, 0));
    }
}

fn named(kinds: &mut Kinds, since: Since, name: &str) {
    kinds.many(name, 1);
    kinds.many(format!("{name}, since {}", since.name()), 1);
}

/// A call with this answer's number.
pub fn add(kinds: &mut Kinds, since: Since, call: &str, no: u32) {
    named(kinds, since, &format!("{call} as {no}"));
}

pub fn add_adoption(kinds: &mut Kinds, since: Since, told: Told) {
    match told {
        Ok(None) => named(kinds, since, ANOTHER_BODY),
        told => add(kinds, since, "adopt", told.err().unwrap_or(0)),
    }
}

/// Every kind that a call on a store is.
pub fn add_call(kinds: &mut Kinds, since: Since, call: Call, answer: Answer) {
    let no = if let Answer::Refused(no) = answer { no } else { 0 };
    add(kinds, since, name(call), no);
    if let (Some(layers), Some(by), 0) = (set_of(call), convention_of(call), no) {
        let by = match by.kind {
            RAW => "raw",
            RHO0 => "rho0",
            _ => "mass",
        };
        let set = match layers {
            ALL_LAYERS => "all",
            0 => "no",
            _ => "some",
        };
        kinds.many(reading(name(call), by, set), 1);
    }
}

fn convention_of(call: Call) -> Option<Convention> {
    match call {
        Call::Density(by, ..) | Call::Report(by, _) | Call::Finished(by, _) | Call::List(by, ..) | Call::Track(by, ..) => Some(by),
        _ => None,
    }
}

pub fn name(call: Call) -> &'static str {
    match call {
        Call::Put(..) => "put",
        Call::Clear(_) => "clear",
        Call::Reweigh(..) => "reweigh",
        Call::Advance(_) => "advance",
        Call::Squeeze => "squeeze",
        Call::Density(..) => "density",
        Call::Report(..) => "report",
        Call::Finished(..) => "finished",
        Call::List(..) => "list",
        Call::Track(..) => "track",
        Call::Page(_) => "page",
        Call::Write(_) => "write",
    }
}
