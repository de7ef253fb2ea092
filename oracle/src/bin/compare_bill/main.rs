//! Compares the archive's bill with 02's words, and with what puts of the same kernels charge and a list of them needs: never below, and
//! equal where every kernel stays or has a NaN exponent. Radii are any floats; the kernels come in any order, into places that may be the
//! same or none of the store's, with other calls between them. `compare_bill` takes about two seconds, `compare_bill --long` twenty times
//! as many lists; `--seed N` draws others. Each answer must have been met.
//! The last line counts what differs; the exit status is 1 if anything does.
#[cfg(original)]
mod stores;

use oracle::bill::{Bill, bill, number, pieces};
use oracle::cases::{EXPONENTS, one};
use oracle::inputs::{self, Rng};
use oracle::tally::{Plan, Tally};

fn main() {
    let plan = Plan::read("compare_bill");
    let mut total = Tally::new();
    total.add(words(plan.count(100_000, 2_000_000), plan.rng(0)));
    oracle::by_original!(total.add(stores::lists(plan.count(100_000, 2_000_000), plan.rng(1))));
    total.end();
}

/// A run of any length up to 34 kernels' and a few floats more, mostly of sixes.
fn run(r: &mut Rng) -> Vec<f64> {
    let sixes = match r.below(4) {
        0 => 31 + r.below(4),
        _ => r.below(31),
    };
    let ragged = if r.below(4) == 0 { r.below(6) } else { 0 };
    let mut kernels: Vec<f64> = (0..6 * sixes + ragged).map(|_| inputs::any(r)).collect();
    for six in kernels.chunks_exact_mut(6) {
        let (_, exponent) = one(r, &EXPONENTS);
        six[5] = exponent(r);
    }
    kernels
}

/// A count on both sides of a limit, or any.
fn count(r: &mut Rng, limit: u32) -> u32 {
    match r.below(8) {
        0 => r.word() as u32,
        1 => limit + 1,
        2 => limit,
        _ => r.below(u64::from(limit)) as u32,
    }
}

/// Runs of any length and counts on both sides of the limits, with 02's words: which is refused, and what is assumed.
fn words(lists: u64, mut r: Rng) -> Tally {
    let mut tally = Tally::new();
    let mut met = [0; 16];
    for _ in 0..lists {
        let kernels = run(&mut r);
        let (verts, faces) = (count(&mut r, 1_048_576), count(&mut r, 2_097_152));
        let no = number(&kernels, verts, faces);
        let assumed: u64 = if no == 0 { kernels.chunks(6).map(|k| pieces(k[5])).sum() } else { 0 };
        let asked = Bill { no, steps: assumed * u64::from(faces), floats: 6 * assumed };
        let told = bill(&kernels, verts, faces);
        met[no as usize] += 1;
        tally.count(told != asked, || format!("{} floats, {verts} vertices, {faces} faces: {told:?}, not {asked:?}", kernels.len()));
    }
    for no in [0, 2, 9, 15] {
        tally.count(met[no] == 0, || format!("no bill is answered {no}"));
    }
    let text = [0, 2, 9, 15].map(|no| format!("{} as {no}", met[no])).join(", ");
    tally.line("bill", "02's words", &text);
    tally
}

/// A float of any kind for a radius: ordinary, NaN, infinite, negative.
#[cfg(original)]
fn radius(r: &mut Rng) -> f64 {
    match r.below(6) {
        0 => one(r, &[f64::NAN, f64::INFINITY, f64::NEG_INFINITY, -0.0, -300.0]),
        _ => oracle::cases::length(r, 300.0),
    }
}
