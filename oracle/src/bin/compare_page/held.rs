//! Pages of sound stores that nobody opened, by the fields that they hold.
use crate::judge::{differs, room};
use crate::seen::Seen;
use crate::targets::Masses;
use oracle::cases::{self, one};
use oracle::held::Held;
use oracle::histories;
use oracle::inputs::Rng;
use oracle::machine::RECORD;
use oracle::tally::Tally;

/// A sound store, mostly with all work done, whose places' masses are what shall be printed.
fn store(r: &mut Rng) -> Held {
    let body = histories::body(r);
    let mut held = histories::unopened(r, &body);
    let done = r.below(8) > 0;
    let some = one(r, &[2, 4, 16]);
    for i in 0..32 {
        let pieces = if r.below(some) == 0 { one(r, &[0, 1, 1, 1, 2, 3, 16]) } else { 0 };
        let at = 2 + RECORD * i;
        if pieces == 0 && r.below(8) > 0 {
            held.words[at..][..RECORD].fill(0);
        } else if done {
            held.words[at..][..RECORD].copy_from_slice(&[1 + pieces, pieces, 0, r.below(16) as u32]);
        }
    }
    let masses = Masses::draw(r);
    for i in 0..32 {
        let target = masses.one(r);
        weigh(r, &mut held, i, target);
    }
    held
}

/// The place's fields, so that its own mass is the target, or near it: the pieces before the last have any mass, often a large one.
fn weigh(r: &mut Rng, held: &mut Held, i: usize, target: f64) {
    let pieces = held.words[2 + RECORD * i].saturating_sub(1) as usize;
    let (w, coefficient) = (one(r, &[1.0, 2.0, -0.5]), one(r, &[1.0, -4.0, 0.25]));
    held.floats[1 + 7 * i + 4] = w;
    let mut sum = 0.0;
    for j in 0..pieces {
        let mass = match j + 1 == pieces {
            true => target - sum,
            false if r.below(4) == 0 => r.within(-1e3, 1e3),
            false => one(r, &[1.0, 3e15, -3e15, 0.5]),
        };
        held.floats[225 + 48 * i + 3 * j + 1..][..2].copy_from_slice(&[coefficient, mass / (w * coefficient)]);
        sum += mass;
    }
}

pub fn pages(count: u64, mut r: Rng, all: &mut Seen) -> Tally {
    let (mut tally, mut seen) = (Tally::new(), Seen::default());
    for i in 0..count {
        let held = store(&mut r);
        let mut runs = held.clone();
        let excess = r.below(4) as usize;
        runs.floats.extend(cases::garbage(&mut r, excess));
        let room = room(&mut r, held.filled_count());
        let (difference, answer) = differs(&mut r, &runs, room, |page| held.page(page));
        seen.page(&held.page_rows(), held.left(), room, answer);
        seen.answer(answer);
        tally.count(difference.is_some(), || format!("store {i}: {}", difference.unwrap()));
    }
    tally.line("page", "sound stores, never opened", &seen.text());
    all.add(seen);
    tally
}
