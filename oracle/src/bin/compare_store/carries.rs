//! Carries: 02's L6. A store of the form before layers, as its calls left it at any moment, is carried over and goes on. Its kernels were
//! put with the powers of 02's L2, or with 01's steps alone, as stores were before it.
use crate::carry_kinds::{self, Before, Since};
use crate::judge::{Runs, differs, fields, float_differs, lent, reads, runs_differ};
use crate::squeezes::altered;
use oracle::cases::{self, one};
use oracle::held::{Held, carry_number};
use oracle::histories::{self, Answer, Body, Call, Model, Places};
use oracle::inputs::Rng;
use oracle::machine::{self, FACES, Machine, OLD_RECORD, VERTS, corners};
use oracle::pieces::Kernel;
use oracle::store;
use oracle::tally::{Kinds, Tally};
use oracle::text::{BeforeTens, ByArchive, Text};

/// Runs of any contents.
pub fn garbage(r: &mut Rng, floats: usize, words: usize) -> Runs {
    Runs { floats: cases::garbage(r, floats), words: (0..words).map(|_| r.word() as u32).collect() }
}

/// A copied NaN is the same NaN, so bits are compared.
pub fn same_bits(a: &Runs, b: &Runs) -> bool {
    runs_differ(a, b, 0).is_none()
}

/// One carry into runs of these lengths, whatever they hold: what is wrong with it, the number that 02 asks, and what it leaves.
pub fn carried(r: &mut Rng, old: &Runs, floats: usize, words: usize) -> (Option<String>, u32, Runs) {
    let mut new = garbage(r, floats, words);
    let (mut want, mut counts) = (new.clone(), (0, 0));
    let no = carry_number(&old.floats, &old.words, floats, words);
    if no == 0 {
        let held = Held::carried(&old.floats, &old.words);
        want.floats[..held.floats.len()].copy_from_slice(&held.floats);
        want.words[..held.words.len()].copy_from_slice(&held.words);
        counts = (old.words[0], old.words[1]);
    }
    let read = old.clone();
    let told = store::carry(&read.floats, &read.words, &mut new.floats, &mut new.words);
    let fault = if (told.no, told.verts, told.faces) != (no, counts.0, counts.1) {
        Some(format!("{told:?}, not {no} and {counts:?}"))
    } else if !same_bits(&read, old) {
        Some("the old runs are not as they were".into())
    } else if !same_bits(&new, &want) {
        Some(format!("float {:?} or a word of the new runs is another", float_differs(&new.floats, &want.floats, 0)))
    } else {
        None
    };
    (fault, no, new)
}

/// A store's two runs with some excess.
pub fn with_excess(r: &mut Rng, (floats, words): (Vec<f64>, Vec<u32>)) -> Runs {
    let more = (r.below(7) as usize, r.below(7) as usize);
    let more = garbage(r, more.0, more.1);
    Runs { floats: [floats, more.floats].concat(), words: [words, more.words].concat() }
}

/// The lengths that a carry of this store needs.
pub fn needed(old: &Runs) -> (usize, usize) {
    machine::room(old.words[0] as usize, old.words[1] as usize)
}

/// The call as a store of the form before layers takes it; nothing where it only reads.
fn old_call(call: Call) -> Option<Call> {
    match call {
        Call::Put(place, k, _) => Some(Call::Put(place, k, 0)),
        _ if reads(call) => None,
        _ => Some(call),
    }
}

/// An old store's machine after some calls. The twin, a store of the new form, gets the same calls.
fn old_store<T: Text>(r: &mut Rng, body: &Body, places: &Places, twin: &mut Runs) -> (Machine<T>, Before) {
    let mut old = Machine::<T>::open(&body.xyz, &body.faces, body.radius);
    let opened = store::open(&mut twin.floats, &mut twin.words, body.radius, &body.xyz, &body.faces);
    assert_eq!(opened.no, 0);
    let mut before = Before::default();
    let count = one(r, &[0, 10, 30, 60]);
    for n in 0..=count {
        // the last is often an advance that ends somewhere in the work
        let part = Call::Advance(r.below(old.left() + 1));
        let call = if n == count && r.below(2) == 0 { part } else { histories::call(r, &old, places) };
        if let Some(call) = old_call(call) {
            before.add(call, old.answer(call, &mut []));
            twin.answer(call, &mut []);
        }
    }
    (old, before)
}

/// How a history is gone on with after the carry: a name of the powers, the machine by the old one, whether the twin, a store of the new
/// form that received the old store's calls, must answer the same.
struct Way<T> {
    powers: &'static str,
    begin: fn(Machine<T>) -> Machine<ByArchive>,
    by_twin: bool,
}

/// One history: calls on an old store, the carry, and calls after it.
fn history<T: Text>(r: &mut Rng, i: u64, way: &Way<T>, tally: &mut Tally, kinds: &mut Kinds) {
    let (body, places) = (histories::body(r), Places::draw(r));
    let (floats, words) = machine::room(body.xyz.len() / 3, body.faces.len() / 3);
    let mut twin = garbage(r, floats, words);
    let (old, before) = old_store::<T>(r, &body, &places, &mut twin);
    let old_runs = with_excess(r, old.fields_in(OLD_RECORD));
    let (floats, words) = needed(&old_runs);
    let (floats, words) = (floats + r.below(5) as usize, words + r.below(5) as usize);
    let (fault, _, mut runs) = carried(r, &old_runs, floats, words);
    let bad = fault.is_some();
    tally.count(bad, || format!("history {i}, carry of {body:?}: {}", fault.unwrap()));
    if bad {
        return;
    }
    carry_kinds::add(kinds, way.powers, &before, &old_runs, &runs);
    let (mut machine, mut since) = ((way.begin)(old), Since::of(&runs.words));
    let (charged, dropped, left) = (machine.charged, machine.dropped, machine.left());
    let mut done = 0;
    for n in 0..30 {
        let call = histories::call(r, &machine, &places);
        let lent = lent(r, call);
        let (difference, told, want) = differs(&mut runs, &mut machine, call, &lent, Machine::fields);
        since.add(kinds, call, want);
        if let Answer::Steps(steps, _) = told {
            done += steps;
        }
        let other = || if way.by_twin { altered(&mut twin, &runs, call, &lent, told) } else { None };
        let difference = difference.or_else(other);
        let bad = difference.is_some();
        tally.count(bad, || format!("history {i}, call {n} after the carry {call:?} on {body:?}: {}", difference.unwrap()));
        if bad {
            return;
        }
    }
    let (charged, dropped) = (left + machine.charged - charged, machine.dropped - dropped);
    let sums = done + machine.left() + dropped == charged;
    tally.count(!sums, || format!("history {i}: done {done} + left {} + dropped {dropped} is not charged {charged}", machine.left()));
}

fn histories_of<T: Text>(name: &str, count: u64, mut r: Rng, way: &Way<T>, all: &mut Kinds) -> Tally {
    let (mut tally, mut kinds) = (Tally::new(), Kinds::default());
    for i in 0..count {
        history(&mut r, i, way, &mut tally, &mut kinds);
    }
    tally.line("carry", &format!("{count} {name}"), &carry_kinds::shown(&kinds, way.powers));
    all.add(kinds);
    tally
}

/// "as one would that had received the old store's calls, its puts in layer 0, where those puts were made with L2's powers".
pub fn received(count: u64, r: Rng, kinds: &mut Kinds) -> Tally {
    let way = Way::<ByArchive> { powers: "L2's", begin: |old| old, by_twin: true };
    histories_of("stores with L2's powers", count, r, &way, kinds)
}

/// "On a carried store demand 3's list begins at the carry", also where the puts were made with L2's powers.
pub fn begun(count: u64, r: Rng, kinds: &mut Kinds) -> Tally {
    let way = Way::<ByArchive> { powers: "L2's", begin: |old| Machine::carried(&old), by_twin: false };
    histories_of("with L2's, begun at the carry", count, r, &way, kinds)
}

/// "pieces fitted before L2 go across as held".
pub fn fitted_before(count: u64, r: Rng, kinds: &mut Kinds) -> Tally {
    let way = Way::<BeforeTens> { powers: "01's", begin: |old| Machine::carried(&old), by_twin: false };
    histories_of("stores with 01's powers", count, r, &way, kinds)
}

/// Sound old stores that nobody opened, by the fields that they hold.
pub fn unopened(count: u64, mut r: Rng) -> Tally {
    let mut tally = Tally::new();
    for i in 0..count {
        let body = histories::body(&mut r);
        let Held { floats, words } = histories::unopened_in(OLD_RECORD, &mut r, &body);
        let mut held = Held::carried(&floats, &words);
        let old = with_excess(&mut r, (floats, words));
        let (floats, words) = needed(&old);
        let (fault, _, mut runs) = carried(&mut r, &old, floats, words);
        let mut bad = fault.is_some();
        tally.count(bad, || format!("store {i}, carry: {}", fault.unwrap()));
        let places = Places::draw(&mut r);
        for n in 0..15 {
            if bad {
                break;
            }
            let call = histories::call(&mut r, &held, &places);
            let lent = lent(&mut r, call);
            let (difference, ..) = differs(&mut runs, &mut held, call, &lent, fields);
            bad = difference.is_some();
            tally.count(bad, || format!("store {i}, call {n} after the carry {call:?}: {}", difference.unwrap()));
        }
    }
    tally.line("carry", &format!("{count} sound, never opened"), "");
    tally
}

/// An old store with places in many states.
fn worked(r: &mut Rng) -> Runs {
    let body = loop {
        let body = histories::body(r);
        if body.faces.len() > 6 {
            break body;
        }
    };
    let mut old = Machine::<BeforeTens>::open(&body.xyz, &body.faces, body.radius);
    for place in [0, 3, 4, 5, 30, 31] {
        let k = Kernel { alpha: if place == 4 { f64::NAN } else { 2.0 * r.below(2) as f64 + 1.0 }, ..histories::kernel(r) };
        old.put(place, k, 0).unwrap();
    }
    let part = r.below(old.left() + 1);
    old.advance(part);
    let (floats, words) = old.fields_in(OLD_RECORD);
    Runs { floats, words }
}

/// One run shorter than it is or than it need be: by one, by the layers' words, by any number, or empty.
fn cut(r: &mut Rng, whole: usize) -> usize {
    match r.below(5) {
        0 | 1 => whole - 1,
        2 => whole.saturating_sub(32),
        3 => 0,
        _ => r.below(whole as u64) as usize,
    }
}

/// Old runs or new ones that are too short, some of old runs that are not sound besides.
pub fn short(count: u64, mut r: Rng, kinds: &mut Kinds) -> Tally {
    let mut tally = Tally::new();
    for i in 0..count {
        let mut old = worked(&mut r);
        let (mut floats, mut words) = needed(&old);
        if r.below(3) == 0 {
            let at = 2 + r.below(old.words.len() as u64 - 2) as usize;
            old.words[at] = u32::MAX;
        }
        match r.below(6) {
            0 => old.floats.truncate(cut(&mut r, old.floats.len())),
            1 => old.words.truncate(cut(&mut r, old.words.len())),
            2 => old.words.truncate(corners(OLD_RECORD) - 1),
            3 => floats = cut(&mut r, floats),
            4 => words = cut(&mut r, words),
            _ => old.words[r.below(2) as usize] = one(&mut r, &[1_048_577, 2_097_153, u32::MAX]),
        }
        let (fault, no, _) = carried(&mut r, &old, floats, words);
        carry_kinds::add_short(kinds, &old, no, floats, words);
        tally.count(fault.is_some() || no != 4, || format!("store {i}: {fault:?}, {no}"));
    }
    tally.line("carry", "runs too short", "");
    tally
}

/// Every word of an old store, changed in each of these ways.
pub fn every_word(count: u64, mut r: Rng, kinds: &mut Kinds) -> Tally {
    let (mut tally, mut answers) = (Tally::new(), Kinds::default());
    for i in 0..count {
        let whole = worked(&mut r);
        let (floats, words) = needed(&whole);
        let (v, f) = (whole.words[0], whole.words[1]);
        for at in 0..whole.words.len() {
            let was = whole.words[at];
            let near = [was.wrapping_sub(1), was.wrapping_add(1), 0, 1, 15, 16, 17, 18, v - 1, v, f - 1, f, u32::MAX];
            for to in near.into_iter().chain([1_048_577, 2_097_153, 1 << 31, r.word() as u32]) {
                let mut old = whole.clone();
                old.words[at] = to;
                let (fault, no, _) = carried(&mut r, &old, floats, words);
                answers.many(format!("as {no}"), 1);
                let of_places = at < corners(OLD_RECORD);
                kinds.met(&[("as 5, by a place", no == 5 && of_places), ("as 5, by a corner", no == 5 && !of_places)]);
                tally.count(fault.is_some(), || format!("store {i}, word {at} from {was} to {to}: {}", fault.unwrap()));
            }
        }
    }
    tally.line("carry", "each word of an old store", &answers.text(&["as 0", "as 4", "as 5"]));
    tally
}

/// The largest counts, and one above each.
pub fn at_the_limits(mut r: Rng) -> Tally {
    let mut tally = Tally::new();
    for (verts, faces, asked) in [(VERTS, 1, 0), (VERTS + 1, 1, 5), (1, FACES, 0), (1, FACES + 1, 5)] {
        let mut old = Runs { floats: vec![0.5; 1_761 + 3 * verts], words: vec![0; corners(OLD_RECORD) + 3 * faces] };
        (old.words[0], old.words[1]) = (verts as u32, faces as u32);
        let (floats, words) = needed(&old);
        let (fault, no, _) = carried(&mut r, &old, floats, words);
        tally.count(fault.is_some() || no != asked, || format!("{verts} vertices, {faces} faces: {no}, {fault:?}"));
    }
    tally.line("carry", "the largest counts", "");
    tally
}
