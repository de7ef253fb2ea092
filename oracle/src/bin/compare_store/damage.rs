//! Runs that are no store: wild words, too few of them, and one word of a sound store changed. The number is the soundness check's; a
//! damage that leaves the store sound is followed by what its fields then ask for.
use crate::judge::{Runs, Seen, differs, fields, lent};
use oracle::cases;
use oracle::held::{Held, store_number};
use oracle::histories::{self, Call};
use oracle::inputs::{self, Rng};
use oracle::machine::CORNERS;
use oracle::pieces::Kernel;
use oracle::store;
use oracle::tally::Tally;

/// One call of each kind, with places good and bad.
fn calls(r: &mut Rng) -> Vec<Call> {
    let place = cases::one(r, &[0, 31, r.0 as u32 % 32, 32, u32::MAX]);
    let kernel = Kernel { alpha: cases::one(r, &[1.0, 1.0, 1.0, 2.5, f64::NAN]), ..histories::kernel(r) };
    let mut calls = vec![
        Call::Advance(cases::one(r, &[0, 1, 5, u64::MAX])),
        Call::Put(place, kernel, histories::layer(r)),
        Call::Clear(place),
        Call::Reweigh(place, inputs::any(r)),
        Call::Squeeze,
    ];
    let (by, layers) = (histories::convention(r), histories::layers(r));
    calls.push(histories::track(r));
    calls.push(Call::Page(cases::one(r, &[0, 64, 65, 1_000, 2_145])));
    calls.extend([Call::Density(by, layers, [1.0, 2.0, 3.0]), Call::Report(by, layers), Call::Finished(by, layers)]);
    calls.push(Call::List(by, layers, cases::one(r, &[0, 6, 600, 3_072])));
    calls
}

/// Every kind of call on copies of these runs.
fn each(r: &mut Rng, held: &Held, what: impl Fn() -> String, tally: &mut Tally, seen: &mut Seen) {
    for call in calls(r) {
        let mut model = held.clone();
        let mut runs = Runs { floats: held.floats.clone(), words: held.words.clone() };
        let lent = lent(r, call);
        let (difference, _, want) = differs(&mut runs, &mut model, call, &lent, fields);
        seen.add(call, want);
        tally.count(difference.is_some(), || format!("{}, {call:?}: {}", what(), difference.unwrap()));
    }
}

/// Runs of any length and any words; most have counts that fit them, so that the words decide.
pub fn wild(count: u64, mut r: Rng) -> Tally {
    let (mut tally, mut seen) = (Tally::new(), Seen::default());
    for i in 0..count {
        let floats = match r.below(4) {
            0 => r.below(1_761) as usize,
            1 => 1_761 + r.below(3) as usize,
            _ => 1_761 + r.below(130) as usize,
        };
        let words = match r.below(4) {
            0 => cases::one(&mut r, &[0, 1, 2, 3, 97, 98, 129, 130]),
            1 => r.below(CORNERS as u64) as usize,
            _ => CORNERS + r.below(120) as usize,
        };
        let mut held = Held { floats: cases::garbage(&mut r, floats), words: (0..words).map(|_| word(&mut r)).collect() };
        if r.below(4) > 0 && words >= CORNERS && floats >= 1_761 {
            held.words[0] = ((floats - 1_761) / 3) as u32;
            held.words[1] = ((words - CORNERS) / 3) as u32;
        }
        if r.below(3) == 0 && words >= CORNERS {
            held.words[2..CORNERS].fill(0);
        }
        each(&mut r, &held, || format!("wild runs {i}: {floats} floats, words {:?}", held.words), &mut tally, &mut seen);
    }
    tally.line("damage", "wild runs", &seen.text());
    tally
}

/// A word: small, at a limit, or any.
fn word(r: &mut Rng) -> u32 {
    match r.below(4) {
        0 => r.word() as u32,
        1 => cases::one(r, &[15, 16, 17, 18, 1_048_576, 1_048_577, 2_097_152, 2_097_153, u32::MAX, 1 << 31]),
        _ => r.below(4) as u32,
    }
}

/// A store with places in many states, by the archive's own calls.
pub fn worked(r: &mut Rng) -> Held {
    let body = loop {
        let body = histories::body(r);
        if body.faces.len() > 6 {
            break body;
        }
    };
    let mut held = histories::unopened(r, &body);
    store::open(&mut held.floats, &mut held.words, body.radius, &body.xyz, &body.faces);
    for place in [0, 3, 4, 5, 30, 31] {
        let k = Kernel { alpha: if place == 4 { f64::NAN } else { 2.0 * r.below(2) as f64 + 1.0 }, ..histories::kernel(r) };
        store::put(&mut held.floats, &mut held.words, place, k, place % 16);
    }
    let part = r.below(held.left() + 1);
    store::advance(&mut held.floats, &mut held.words, part);
    held
}

/// Either run cut short, by one word or by any number.
pub fn short(count: u64, mut r: Rng) -> Tally {
    let (mut tally, mut seen) = (Tally::new(), Seen::default());
    for i in 0..count {
        let whole = worked(&mut r);
        let (floats, words) = (whole.floats.len(), whole.words.len());
        let any = (r.below(floats as u64) as usize, r.below(words as u64) as usize);
        for (f, w) in [
            (floats - 1, words),
            (floats, words - 1),
            (any.0, words),
            (floats, any.1),
            (0, words),
            (floats, 0),
            (0, 0),
            (floats, CORNERS - 1),
        ] {
            let held = Held { floats: whole.floats[..f].to_vec(), words: whole.words[..w].to_vec() };
            assert_eq!(store_number(&held.floats, &held.words), 4);
            each(&mut r, &held, || format!("store {i} cut to {f} floats, {w} words"), &mut tally, &mut seen);
        }
    }
    tally.line("damage", "runs too short", &seen.text());
    tally
}

/// Every word of a sound store, changed in each of these ways.
pub fn every_word(count: u64, mut r: Rng) -> Tally {
    let (mut tally, mut seen) = (Tally::new(), Seen::default());
    for i in 0..count {
        let whole = worked(&mut r);
        assert_eq!(store_number(&whole.floats, &whole.words), 0);
        let (v, f) = (whole.words[0], whole.words[1]);
        for at in 0..whole.words.len() {
            let was = whole.words[at];
            let near =
                [was.wrapping_sub(1), was.wrapping_add(1), 0, 1, 15, 16, 17, 18, v.wrapping_sub(1), v, f.wrapping_sub(1), f, u32::MAX];
            for to in near.into_iter().chain([1_048_577, 2_097_153, 1 << 31, r.word() as u32]) {
                let mut held = whole.clone();
                held.words[at] = to;
                each(&mut r, &held, || format!("store {i}, word {at} from {was} to {to}"), &mut tally, &mut seen);
            }
        }
    }
    tally.line("damage", "each word of a sound store", &seen.text());
    tally
}
