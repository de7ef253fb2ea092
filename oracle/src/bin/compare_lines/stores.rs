//! Stores of random histories, written, read and written again; and stores that nobody opened, written.
use crate::judge::{reads, writes};
use crate::seen::Seen;
use oracle::cases::one;
use oracle::held::Held;
use oracle::histories::{self, Body, Call, Model, Places};
use oracle::inputs::Rng;
use oracle::lines::{lines_room, of_runs, store_write};
use oracle::machine::{self, CORNERS, Machine, RECORD};
use oracle::tally::Tally;
use oracle::text::ByArchive;
use oracle::{pattern, store};

/// A store, its runs a little longer than they must be, and the machine that got the same calls.
fn history(r: &mut Rng) -> (Held, Machine<ByArchive>) {
    let Body { xyz, faces, radius } = histories::body(r);
    let (floats, words) = machine::room(xyz.len() / 3, faces.len() / 3);
    let mut runs = Held { floats: vec![0.0; floats + r.below(3) as usize], words: vec![0; words + r.below(3) as usize] };
    assert_eq!(store::open(&mut runs.floats, &mut runs.words, radius, &xyz, &faces).no, 0);
    let mut machine = Machine::open(&xyz, &faces, radius);
    let places = Places::draw(r);
    for _ in 0..one(r, &[0, 4, 20, 20, 40, 120]) {
        let call = histories::call(r, &machine, &places);
        let (f, w) = (&mut runs.floats[..], &mut runs.words[..]);
        match call {
            Call::Put(place, k, layer) => drop(store::put(f, w, place, k, layer)),
            Call::Clear(place) => drop(store::clear(f, w, place)),
            Call::Reweigh(place, weight) => drop(store::reweigh(f, w, place, weight)),
            Call::Advance(n) => drop(store::advance(f, w, n)),
            Call::Squeeze => drop(store::squeeze(f, w)),
            _ => continue,
        }
        machine.answer(call, &mut []);
    }
    (runs, machine)
}

const STORES: [&str; 11] = [
    "no vertex",
    "no face",
    "no place filled",
    "a place filled",
    "more than 9 places filled",
    "some steps done",
    "all steps done",
    "a layer above 9",
    "a NaN of other bits",
    "squeezed",
    "a text of 1,000 bytes and more",
];

/// What a store is.
fn kinds(seen: &mut Seen, runs: &Held, machine: &Machine<ByArchive>, text: &str) {
    let (filled, left) = (machine.filled_count(), machine.left());
    let all = (machine.piece_count() * machine.face_count()) as u64;
    let own = 1_761 + 3 * runs.words[0] as usize;
    let odd = |x: &f64| x.is_nan() && x.to_bits() != pattern(*x);
    seen.kinds(&[
        ("no vertex", runs.words[0] == 0),
        ("no face", runs.words[1] == 0),
        ("no place filled", filled == 0),
        ("a place filled", filled > 0),
        ("more than 9 places filled", filled > 9),
        ("some steps done", 0 < left && left < all),
        ("all steps done", left == 0 && all > 0),
        ("a layer above 9", (0..32).any(|i| runs.words[2 + RECORD * i + 3] > 9)),
        ("a NaN of other bits", runs.floats[own - 3 * runs.words[0] as usize..own].iter().chain(&runs.floats[1..225]).any(odd)),
        ("squeezed", runs.floats.len() > own + 2),
        ("a text of 1,000 bytes and more", text.len() >= 1_000),
    ]);
}

/// How two stores differ in their mesh, radius, kernels, layers and fits, NaN as one, or how the second has fewer steps to do than all.
fn not_the_same(a: &Held, b: &Held) -> Option<String> {
    let (verts, faces) = (a.words[0] as usize, a.words[1] as usize);
    if a.words[..2] != b.words[..2] || a.words[CORNERS..][..3 * faces] != b.words[CORNERS..][..3 * faces] {
        return Some("another mesh".into());
    }
    let differs = |i: &usize| pattern(a.floats[*i]) != pattern(b.floats[*i]);
    // of a piece all but its volume so far, which is 0 again
    let is_volume = |i: &usize| (225..1_761).contains(i) && (i - 225) % 3 == 2;
    if let Some(at) = (0..1_761 + 3 * verts).filter(|i| !is_volume(i)).find(differs) {
        return Some(format!("float {at}"));
    }
    if let Some(at) = (0..1_761).filter(is_volume).find(|i| b.floats[*i].to_bits() != 0) {
        return Some(format!("volume {at}"));
    }
    (0..32).find_map(|i| {
        let [from, to] = [a, b].map(|x| &x.words[2 + RECORD * i..][..RECORD]);
        let finished = if faces == 0 { from[0].saturating_sub(1) } else { 0 };
        ([from[0], finished, 0, from[3]] != to[..]).then(|| format!("place {i}: {from:?}, then {to:?}"))
    })
}

/// One store written, read into other runs and written again: how anything differs.
fn round(r: &mut Rng, runs: &Held, text: &str) -> Option<String> {
    let asked = Ok(text.to_string());
    // a few bytes more than the text, as many, and what a host lends
    let rooms = [text.len() + r.below(80) as usize, text.len(), lines_room(runs.words[0] as usize, runs.words[1] as usize)];
    if let Some(what) = rooms.iter().find_map(|room| writes(r, runs, *room, &asked)) {
        return Some(format!("written: {what}"));
    }
    let (floats, words) = machine::room(runs.words[0] as usize, runs.words[1] as usize);
    let excess = r.below(4) as usize;
    let read = reads(r, text.as_bytes(), floats + excess, words + excess);
    if let Some(what) = read.difference {
        return Some(format!("read: {what}"));
    }
    if let Some(what) = not_the_same(runs, &read.runs) {
        return Some(format!("read: {what}"));
    }
    let steps = store::advance(&mut read.runs.floats.clone(), &mut read.runs.words.clone(), 0);
    let all: u64 = (0..32).map(|i| u64::from(runs.words[2 + RECORD * i].saturating_sub(1)) * u64::from(runs.words[1])).sum();
    if (steps.no, steps.left) != (0, all) {
        return Some(format!("{steps:?} of {all} steps"));
    }
    let mut again = vec![0; text.len()];
    let told = store_write(&read.runs.floats, &read.runs.words, &mut again);
    (told.bytes != text.len() as u64 || again != text.as_bytes()).then(|| format!("written again: {told:?}"))
}

pub fn histories(count: u64, mut r: Rng) -> Tally {
    let (mut tally, mut seen, mut bytes) = (Tally::new(), Seen::default(), 0);
    for i in 0..count {
        let (runs, machine) = history(&mut r);
        let text = machine.lines();
        kinds(&mut seen, &runs, &machine, &text);
        bytes += text.len();
        let difference = round(&mut r, &runs, &text);
        tally.count(difference.is_some(), || format!("store {i}: {}", difference.unwrap()));
    }
    let shown = seen.text(&["a place filled", "some steps done", "all steps done", "a NaN of other bits"]);
    tally.line("lines", "stores written, read, written again", &format!("{bytes} bytes, {shown}"));
    tally.add(seen.all_met("stores", &STORES, count / 200));
    tally
}

const UNOPENED: [&str; 6] = ["as 0", "as 4", "as 5", "as 19", "as 19, a byte short", "as 0, more bytes than needed"];

/// Stores that nobody opened, of any fields that are sound; of some the runs are cut short or a word is changed.
pub fn unopened(count: u64, mut r: Rng) -> Tally {
    let (mut tally, mut seen) = (Tally::new(), Seen::default());
    for i in 0..count {
        let body = histories::body(&mut r);
        let mut runs = histories::unopened(&mut r, &body);
        match r.below(12) {
            0 => runs.floats.truncate(r.below(runs.floats.len() as u64) as usize),
            1 => runs.words.truncate(r.below(runs.words.len() as u64) as usize),
            2 | 3 => {
                let (at, any) = (r.below(runs.words.len() as u64) as usize, r.word() as u32);
                runs.words[at] = one(&mut r, &[0, 1, 16, 18, u32::MAX, any]);
            }
            _ => {}
        }
        let asked = of_runs(&runs);
        let full = asked.as_ref().map_or(100, String::len);
        let room = match r.below(6) {
            0 => full.saturating_sub(1),
            1 => r.below(full as u64) as usize,
            2 => full + r.below(100) as usize,
            _ => full,
        };
        let no = asked.as_ref().map_or_else(|no| *no, |text| if room < text.len() { 19 } else { 0 });
        seen.add(format!("as {no}"));
        seen.kinds(&[("as 19, a byte short", no == 19 && room + 1 == full), ("as 0, more bytes than needed", no == 0 && room > full)]);
        let difference = writes(&mut r, &runs, room, &asked);
        tally.count(difference.is_some(), || format!("store {i}: {}", difference.unwrap()));
    }
    tally.line("lines", "stores that nobody opened, written", &seen.text(&UNOPENED[..4]));
    tally.add(seen.all_met("answers of the writer", &UNOPENED, count / 200));
    tally
}
