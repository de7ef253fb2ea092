//! Which kinds of adoptions were met, and which calls after them.
use crate::judge::Runs;
use oracle::histories::{Answer, Call};
use oracle::machine::{CORNERS, PLACES, RECORD};
use oracle::pattern;
use oracle::tally::Kinds;

/// What an adoption answers: a refusal's number; nothing of another body; else pieces and steps left.
pub type Told = Result<Option<(u32, u64)>, u32>;

/// All that must be met.
pub const ALL: [&str; 47] = [
    "taken over an empty place",
    "taken over finished work",
    "taken over work left",
    "taken over the same, a second time",
    "taken into a place of the same number",
    "taken into a place of another number",
    "taken with nothing done",
    "taken in the midst of a piece",
    "taken with pieces done and others not",
    "taken with all work done",
    "taken without pieces",
    "taken with 13 pieces",
    "taken with 16 pieces",
    "taken with a layer above 0",
    "taken without faces",
    "taken where NaNs of the bodies have other bits",
    "taken after both stores were squeezed",
    "taken between runs with excess",
    "taken out of a place that was itself taken",
    "another body, by the radius",
    "another body, by the count of vertices",
    "another body, by the count of faces",
    "another body, by a coordinate's sign of zero",
    "another body, by a coordinate",
    "another body, by a corner",
    "another body, after a squeeze of this store",
    "another body, after a squeeze of the other",
    "as 6, of this place",
    "as 6, of the other's place",
    "as 7",
    "then steps on work that was taken",
    "then a report with a kernel that was taken",
    "then a put over a kernel that was taken",
    "then a clear of a kernel that was taken",
    "then a reweigh of a kernel that was taken",
    "hands: a worker that died",
    "hands: places in the midst of a piece came back",
    "hands: places came back twice",
    "hands: places that no one worked on",
    "as 4, of this store",
    "as 4, of the other",
    "as 4, the other not sound, this one short",
    "as 4, this one not sound, the other short",
    "as 5, of this store",
    "as 5, of the other",
    "as 5, and a place that there is not",
    "as 6, and the other's place is empty",
];

/// Status, pieces finished, faces done, layer.
fn state(runs: &Runs, place: usize) -> &[u32] {
    &runs.words[2 + RECORD * place..][..RECORD]
}

fn excess(runs: &Runs) -> bool {
    let (verts, faces) = (runs.words[0] as usize, runs.words[1] as usize);
    runs.floats.len() > 1_761 + 3 * verts && runs.words.len() > CORNERS + 3 * faces
}

/// The bits of a store's radius and coordinates.
fn body_bits(runs: &Runs) -> Vec<u64> {
    let xyz = &runs.floats[1_761..][..3 * runs.words[0] as usize];
    [&runs.floats[..1], xyz].concat().into_iter().map(f64::to_bits).collect()
}

/// Of two stores, before the call: which had freed vertices, and whether the other's place was itself taken.
#[derive(Clone, Copy)]
pub struct Past {
    pub squeezed: [bool; 2],
    pub taken: bool,
}

/// Every kind that an adoption is, from `other`'s place j into place i of `own`.
pub fn add(kinds: &mut Kinds, own: &Runs, other: &Runs, (i, j): (u32, u32), want: Told, past: Past) {
    kinds.many(want.map_or_else(|no| format!("as {no}"), |told| told.map_or("another body", |_| "taken").to_string()), 1);
    match want {
        Ok(Some(_)) => add_taken(kinds, own, other, (i as usize, j as usize), past),
        Ok(None) => add_another(kinds, own, other, past.squeezed),
        Err(no) => kinds.met(&[("as 6, of this place", no == 6 && i >= 32), ("as 6, of the other's place", no == 6 && j >= 32)]),
    }
}

fn add_taken(kinds: &mut Kinds, own: &Runs, other: &Runs, (i, j): (usize, usize), past: Past) {
    let (was, is, faces) = (state(own, i), state(other, j), own.words[1]);
    let (started, part) = (is[1] > 0 || is[2] > 0, is[1] + 1 < is[0]);
    let fields = |runs: &Runs, at: usize| [&runs.floats[1 + 7 * at..][..7], &runs.floats[225 + 48 * at..][..48]].concat();
    let alike = fields(own, i).iter().zip(&fields(other, j)).all(|(x, y)| x.to_bits() == y.to_bits());
    let met = [
        was[0] == 0,
        was[0] > 0 && was[1] + 1 == was[0],
        was[1] + 1 < was[0],
        was == is && alike,
        i == j,
        i != j,
        part && !started,
        is[2] > 0,
        part && is[1] > 0,
        faces > 0 && is[0] > 1 && !part,
        is[0] == 1,
        is[0] == 14,
        is[0] == 17,
        is[3] > 0,
        faces == 0,
        body_bits(own) != body_bits(other),
        past.squeezed == [true; 2],
        excess(own) && excess(other),
        past.taken,
    ];
    ALL.into_iter().zip(met).for_each(|kind| kinds.met(&[kind]));
}

fn add_another(kinds: &mut Kinds, own: &Runs, other: &Runs, squeezed: [bool; 2]) {
    let radius = pattern(own.floats[0]) != pattern(other.floats[0]);
    let (verts, faces) = (own.words[0] != other.words[0], own.words[1] != other.words[1]);
    let (mut coordinates, mut zeros, mut corners) = (0, 0, false);
    if !verts && !faces {
        for (x, y) in own.floats[1_761..].iter().zip(&other.floats[1_761..]).take(3 * own.words[0] as usize) {
            coordinates += u32::from(pattern(*x) != pattern(*y));
            zeros += u32::from(pattern(*x) != pattern(*y) && *x == 0.0 && *y == 0.0);
        }
        let all = CORNERS..CORNERS + 3 * own.words[1] as usize;
        corners = own.words[all.clone()] != other.words[all];
    }
    // each by that alone
    kinds.met(&[
        ("another body, by the radius", radius && !verts && !faces && coordinates == 0 && !corners),
        ("another body, by the count of vertices", verts && !radius && !faces && squeezed == [false; 2]),
        ("another body, by the count of faces", faces && !radius && !verts),
        ("another body, by a coordinate's sign of zero", coordinates == 1 && zeros == 1 && !radius && !corners),
        ("another body, by a coordinate", coordinates == 1 && zeros == 0 && !radius && !corners),
        ("another body, by a corner", corners && !radius && coordinates == 0),
        ("another body, after a squeeze of this store", verts && !radius && squeezed == [true, false]),
        ("another body, after a squeeze of the other", verts && !radius && squeezed == [false, true]),
    ]);
}

/// The places of a store that hold what was taken.
#[derive(Clone, Copy, Default)]
pub struct Taken(pub [bool; PLACES]);

impl Taken {
    /// Every kind that a call after an adoption is. `runs` are as the call leaves them.
    pub fn add(&mut self, kinds: &mut Kinds, call: Call, answer: Answer, before: &Runs) {
        let held = |place: u32| self.0.get(place as usize) == Some(&true);
        let work = (0..PLACES).any(|i| self.0[i] && state(before, i)[1] + 1 < state(before, i)[0]);
        let (name, met) = match (call, answer) {
            (Call::Put(place, ..), Answer::Placed(..)) => ("then a put over a kernel that was taken", held(place)),
            (Call::Clear(place), Answer::Edited) => ("then a clear of a kernel that was taken", held(place)),
            (Call::Reweigh(place, _), Answer::Edited) => ("then a reweigh of a kernel that was taken", held(place)),
            (_, Answer::Steps(1.., _)) => ("then steps on work that was taken", work),
            (_, Answer::Report(report)) => ("then a report with a kernel that was taken", report.kernels > 0 && self.0.contains(&true)),
            _ => return,
        };
        kinds.met(&[(name, met)]);
        if let (Call::Put(place, ..), Answer::Placed(..)) | (Call::Clear(place), Answer::Edited) = (call, answer) {
            self.0[place as usize] = false;
        }
    }
}
