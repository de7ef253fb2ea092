//! Tracks beside the single readings of the same store.
use crate::judge::{Runs, same};
use oracle::histories::{Answer, Call};

/// 02's L1: "Every density equals the single reading at that point", and a track is refused as that reading is, or as 14.
pub fn apart(runs: &Runs, call: Call) -> Option<String> {
    let Call::Track(by, layers, points, room) = call else {
        return None;
    };
    let mut out = vec![0.0; room];
    let told = runs.reading(call, &mut out);
    let single = |at: &[f64]| runs.reading(Call::Density(by, layers, [at[0], at[1], at[2]]), &mut []);
    let alike = match (told, single(&[0.0; 3])) {
        (Answer::Refused(track), Answer::Refused(density)) => track == density,
        (Answer::Refused(track), _) => track == 14,
        (_, Answer::Refused(_)) => false,
        _ => points.chunks(3).zip(&out).all(|(at, x)| same(single(at), Answer::Value(*x))),
    };
    if alike { None } else { Some(format!("{told:?} and {out:?}, not as the single readings")) }
}
