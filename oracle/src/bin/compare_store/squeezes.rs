//! Squeezes: 02's L12 asks that later answers are the same as without them, and that the words they free are excess.
use crate::judge::{Runs, Seen, differs, float_differs, opened, same};
use oracle::cases;
use oracle::histories::{Answer, Body, Call};
use oracle::inputs::Rng;
use oracle::machine::{CORNERS, FACES, Machine, VERTS};
use oracle::pieces::Kernel;
use oracle::tally::Tally;
use oracle::text::ByArchive;

/// The same call on another store, which gets every call but the squeezes: "Later readings and step counts are then the same as without
/// it". The places' fields are the same too.
pub fn altered(spared: &mut Runs, runs: &Runs, call: Call, lent: &[f64], told: Answer) -> Option<String> {
    if let Call::Squeeze = call {
        return None;
    }
    let (mut out, mut again) = (lent.to_vec(), lent.to_vec());
    let without = spared.answer(call, &mut out);
    if let Call::List(..) | Call::Track(..) | Call::Page(_) = call {
        runs.reading(call, &mut again);
    }
    let fields = float_differs(&runs.floats[..1_761], &spared.floats[..1_761], 1_761);
    let alike = same(told, without)
        && float_differs(&out, &again, out.len()).is_none()
        && fields.is_none()
        && runs.words[1..CORNERS] == spared.words[1..CORNERS];
    if alike { None } else { Some(format!("{told:?}, and on the other store {without:?}; float {fields:?}")) }
}

/// Freed words are excess: now and then others are written there, or the run ends before them.
pub fn touch_freed(r: &mut Rng, runs: &mut Runs, freed: u32) {
    let end = 1_761 + 3 * runs.words[0] as usize;
    match r.below(3) {
        0 => runs.floats.truncate(end),
        1 => {
            let other = cases::garbage(r, freed as usize);
            runs.floats[end..][..other.len()].copy_from_slice(&other);
        }
        _ => {}
    }
}

/// Squeezes of the largest mesh, work half done: its vertices every third, the last, the first third in no face, then all of them used.
pub fn largest(count: u64, mut r: Rng) -> Tally {
    let (mut tally, mut seen) = (Tally::new(), Seen::default());
    let third = VERTS as u64 / 3;
    for i in 0..count {
        let corner = |r: &mut Rng, at: usize| match (i % 4, r.below(2 * third)) {
            (0, drawn) => 3 * (drawn / 2) + drawn % 2,
            (1, drawn) => drawn,
            (2, drawn) => third + drawn,
            _ => at as u64 % VERTS as u64,
        };
        let faces = (0..3 * FACES).map(|at| corner(&mut r, at) as u32).collect();
        let xyz = (0..3 * VERTS).map(|_| r.within(-400.0, 400.0)).collect();
        let body = Body { xyz, faces, radius: 500.0 };
        let (mut runs, mut machine, fault) = opened::<ByArchive>(&mut r, &body);
        assert!(fault.is_none());
        let kernel = Kernel { c: [1.0, 2.0, 3.0], sigma: 0.004, w: 1190.0, alpha: 1.0 };
        for call in [Call::Put(3, kernel, 0), Call::Advance(1_000), Call::Squeeze, Call::Advance(1_000), Call::Squeeze] {
            let (difference, _, want) = differs(&mut runs, &mut machine, call, &[], Machine::fields);
            seen.add(call, want);
            tally.count(difference.is_some(), || format!("mesh {i}, {call:?}: {}", difference.unwrap()));
        }
    }
    tally.line("store", &format!("{count} largest meshes squeezed"), &seen.text());
    tally
}
