//! What puts charge and a list needs on a store, beside the bill of the same kernels.
use crate::radius;
use oracle::bill::{Bill, bill, exact, six};
use oracle::cases::{self, EXPONENTS, one};
use oracle::conventions::Convention;
use oracle::inputs::Rng;
use oracle::machine::{ALL_LAYERS, CORNERS};
use oracle::meshes::Mesh;
use oracle::pieces::Kernel;
use oracle::solids;
use oracle::store;
use oracle::tally::Tally;

/// A put, or one of the calls that may come between.
#[derive(Clone, Copy, Debug)]
enum Call {
    Put(u32, Kernel, u32),
    Clear(u32),
    Reweigh(u32, f64),
    Advance(u64),
    Squeeze,
}

/// A list of kernels, how they are put, and whether the bill must be exact: every kernel stays or has a NaN exponent, and each gets a place
/// of its own.
#[derive(Debug)]
struct Work {
    radius: f64,
    kernels: Vec<Kernel>,
    calls: Vec<Call>,
    exact: bool,
}

/// A kernel; an exact one, if asked for.
fn kernel(r: &mut Rng, plain: bool) -> Kernel {
    let alpha = if plain {
        one(r, &[1.0, 1.0 + 5e-10, 1.0 - 5e-10, f64::NAN, -f64::NAN])
    } else {
        let (_, exponent) = one(r, &EXPONENTS);
        exponent(r)
    };
    let c = [0; 3].map(|_| cases::value(r, 400.0));
    Kernel { c, sigma: cases::length(r, 0.01), w: cases::value(r, 1e3), alpha }
}

/// Mostly few kernels, seldom up to 32: a fit takes ten thousand times as long as its bill.
fn work(r: &mut Rng) -> Work {
    let plain = r.below(2) == 0;
    let most = one(r, if plain { &[3, 8, 33] } else { &[2, 2, 3, 4, 6] });
    let most = if r.below(500) == 0 { 33 } else { most };
    let kernels: Vec<Kernel> = (0..r.below(most)).map(|_| kernel(r, plain)).collect();
    let mut order: Vec<usize> = (0..kernels.len()).collect();
    let mut places: Vec<u32> = (0..32).collect();
    shuffle(r, &mut order);
    shuffle(r, &mut places);
    let apart = r.below(3) > 0;
    let mut calls = Vec::new();
    for (i, k) in order.into_iter().enumerate() {
        let place = if apart { places[i] } else { r.below(36) as u32 };
        calls.push(Call::Put(place, kernels[k], r.below(16) as u32));
        if r.below(4) == 0 {
            calls.push(between(r, apart));
        }
    }
    let exact = apart && kernels.iter().all(|k| exact(k.alpha).is_some());
    Work { radius: radius(r), kernels, calls, exact }
}

fn shuffle<T>(r: &mut Rng, list: &mut [T]) {
    for i in (1..list.len()).rev() {
        list.swap(i, r.below(i as u64 + 1) as usize);
    }
}

/// A call that puts nothing; it clears nothing where places are to stay filled.
fn between(r: &mut Rng, apart: bool) -> Call {
    match r.below(if apart { 3 } else { 4 }) {
        0 => Call::Reweigh(r.below(33) as u32, cases::value(r, 10.0)),
        1 => Call::Advance(r.below(9)),
        2 => Call::Squeeze,
        _ => Call::Clear(r.below(33) as u32),
    }
}

/// What a store answers: the steps that its puts charge, and the floats that a list of it then needs, by a run of the bill's floats.
struct Taken {
    steps: u64,
    listed: u32,
    floats: u64,
    /// what a run of one float less is answered
    shorter: u32,
}

fn take(mesh: &Mesh, work: &Work, due: Bill) -> Taken {
    let (verts, faces) = (mesh.xyz.len() / 3, mesh.faces.len() / 3);
    let (mut floats, mut words) = (vec![0.0; 1_761 + 3 * verts], vec![0; CORNERS + 3 * faces]);
    assert_eq!(store::open(&mut floats, &mut words, work.radius, &mesh.xyz, &mesh.faces).no, 0);
    let mut steps = 0;
    for call in &work.calls {
        match *call {
            Call::Put(place, k, layer) => steps += u64::from(store::put(&mut floats, &mut words, place, k, layer).need),
            Call::Clear(place) => _ = store::clear(&mut floats, &mut words, place),
            Call::Reweigh(place, w) => _ = store::reweigh(&mut floats, &mut words, place, w),
            Call::Advance(n) => _ = store::advance(&mut floats, &mut words, n),
            Call::Squeeze => _ = store::squeeze(&mut floats, &mut words),
        }
    }
    let mut run = vec![0.0; due.floats as usize];
    let (listed, pieces) = store::list(&floats, &words, Convention::RAW, ALL_LAYERS, &mut run);
    let shorter = run.len().saturating_sub(1);
    let (shorter, _) = store::list(&floats, &words, Convention::RAW, ALL_LAYERS, &mut run[..shorter]);
    Taken { steps, listed, floats: 6 * u64::from(pieces), shorter }
}

/// The kernels' bill, and what a store then takes.
pub fn lists(lists: u64, mut r: Rng) -> Tally {
    let mut tally = Tally::new();
    let bodies = [solids::leaf(), solids::tetrahedron(), solids::cube()].map(|s| s.mesh(|i| (i % 7) as f64 - 3.0));
    let no_faces = Mesh { xyz: vec![1.0; 3], faces: Vec::new() };
    let (mut exact, mut equal, mut below) = (0, 0, 0);
    for _ in 0..lists {
        let work = work(&mut r);
        let mesh = if r.below(8) == 0 { &no_faces } else { &bodies[r.below(3) as usize] };
        let kernels: Vec<f64> = work.kernels.iter().flat_map(six).collect();
        let due = bill(&kernels, (mesh.xyz.len() / 3) as u32, (mesh.faces.len() / 3) as u32);
        let taken = take(mesh, &work, due);
        let never_below = due.no == 0 && taken.steps <= due.steps && taken.listed == 0 && taken.floats <= due.floats;
        let same = taken.steps == due.steps && taken.floats == due.floats;
        let asked = !work.exact || same && (due.floats == 0 || taken.shorter == 9);
        tally.count(!never_below || !asked, || {
            format!("{due:?}: {} steps, {} floats, {} and {} for {work:?}", taken.steps, taken.floats, taken.listed, taken.shorter)
        });
        exact += u64::from(work.exact && due.floats > 0);
        equal += u64::from(!work.exact && same && due.floats > 0);
        below += u64::from(taken.steps < due.steps && taken.floats < due.floats);
    }
    for (met, what) in [(exact, "exact"), (equal, "equal without being exact"), (below, "above what is taken")] {
        tally.count(met == 0, || format!("no bill is {what}"));
    }
    let text = format!("{exact} exact, {equal} equal besides, {below} above what is taken");
    tally.line("bill", "puts and a list on a store", &text);
    tally
}
