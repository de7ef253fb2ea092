//! Histories of a store that can be repeated: small meshes, kernels, conventions, and calls in an order that nobody rehearsed.
use crate::cases::{self, either_sign, near, odd, one};
use crate::conventions::{Convention, MASS, RAW, RHO0, Report};
use crate::held::Held;
use crate::inputs::{self, Rng};
use crate::machine::{ALL_LAYERS, Machine, RECORD};
use crate::page;
use crate::pieces::Kernel;
use crate::recorder::Fit;
use crate::text::Text;
use std::sync::LazyLock;

/// A call on an opened store. A put has a layer, and each reading but the page a set of layers; a list has a run of so many floats, a track
/// its coordinates and such a run, a page and a write so many bytes.
#[derive(Clone, Copy, Debug)]
pub enum Call {
    Put(u32, Kernel, u32),
    Clear(u32),
    Reweigh(u32, f64),
    Advance(u64),
    Squeeze,
    Density(Convention, u32, [f64; 3]),
    Report(Convention, u32),
    Finished(Convention, u32),
    List(Convention, u32, usize),
    Track(Convention, u32, &'static [f64], usize),
    Page(usize),
    Write(usize),
}

/// What a call answers, its refusal's number or its values.
#[derive(Clone, Copy, Debug)]
pub enum Answer {
    Refused(u32),
    Placed(u32, u32, Fit),
    Edited,
    Steps(u64, u64),
    Freed(u32),
    Value(f64),
    Report(Report),
    Finished(Report, u32),
    Listed(u32),
    Tracked(u32),
    Paged(u64),
    Written(u64),
}

/// What is held to the store: it takes the calls that the store takes. A page and lines are written into the bytes of its floats.
pub trait Model {
    fn answer(&mut self, call: Call, out: &mut [f64]) -> Answer;
    fn left(&self) -> u64;
    fn face_count(&self) -> usize;
    fn filled_count(&self) -> usize;
    fn piece_count(&self) -> usize;
}

fn of<V>(told: Result<V, u32>, answer: impl FnOnce(V) -> Answer) -> Answer {
    told.map_or_else(Answer::Refused, answer)
}

macro_rules! model {
    ($advance:expr, $squeeze:expr) => {
        fn answer(&mut self, call: Call, out: &mut [f64]) -> Answer {
            match call {
                Call::Put(place, k, layer) => of(self.put(place, k, layer), |(pieces, need, fit)| Answer::Placed(pieces, need, fit)),
                Call::Clear(place) => of(self.clear(place), |()| Answer::Edited),
                Call::Reweigh(place, w) => of(self.reweigh(place, w), |()| Answer::Edited),
                Call::Advance(n) => of($advance(self, n), |(done, left)| Answer::Steps(done, left)),
                Call::Squeeze => of($squeeze(self), Answer::Freed),
                Call::Density(by, layers, at) => of(self.density(by, layers, at), Answer::Value),
                Call::Report(by, layers) => of(self.report(by, layers), Answer::Report),
                Call::Finished(by, layers) => of(self.finished(by, layers), |(report, passed)| Answer::Finished(report, passed)),
                Call::List(by, layers, _) => of(self.list(by, layers, out), Answer::Listed),
                Call::Track(by, layers, points, _) => of(self.track(by, layers, points, out), Answer::Tracked),
                Call::Page(room) => of(self.page(&mut page::bytes(out)[..room]), Answer::Paged),
                Call::Write(room) => of(self.write(&mut page::bytes(out)[..room]), Answer::Written),
            }
        }
        fn left(&self) -> u64 {
            self.left()
        }
        fn face_count(&self) -> usize {
            self.face_count()
        }
        fn filled_count(&self) -> usize {
            self.filled_count()
        }
        fn piece_count(&self) -> usize {
            self.piece_count()
        }
    };
}

impl<T: Text> Model for Machine<T> {
    model!(|m: &mut Self, n| Ok::<_, u32>(m.advance(n)), |m: &mut Self| Ok::<_, u32>(m.squeeze()));
}

impl Model for Held {
    model!(Held::advance, Held::squeeze);
}

/// A mesh and a radius.
#[derive(Clone, Debug)]
pub struct Body {
    pub xyz: Vec<f64>,
    pub faces: Vec<u32>,
    pub radius: f64,
}

/// A mesh of at most 40 faces: none, points alone, closed, open, any corners, some coordinates odd, some vertices in no face.
pub fn body(r: &mut Rng) -> Body {
    let (mut xyz, mut faces) = match r.below(10) {
        0 => (Vec::new(), Vec::new()),
        1 => {
            let n = r.below(9) as usize;
            (coordinates(r, n), Vec::new())
        }
        2 | 3 => soup(r),
        _ => bipyramid(r),
    };
    if r.below(5) == 0 {
        let keep = r.below(faces.len() as u64 / 3 + 1) as usize;
        faces.truncate(3 * keep);
    }
    if r.below(5) == 0 {
        for x in xyz.iter_mut() {
            if r.below(6) == 0 {
                *x = cases::value(r, 400.0);
            }
        }
    }
    for _ in 0..one(r, &[0, 0, 1, 2, 3]) {
        add_unused(r, &mut xyz, &mut faces);
    }
    if r.below(4) == 0 {
        repeat_vertex(r, &mut xyz);
    }
    Body { xyz, faces, radius: cases::length(r, 500.0) }
}

/// One vertex or some that no face names, before all others, behind them or among them. Some have the place of another vertex.
fn add_unused(r: &mut Rng, xyz: &mut Vec<f64>, faces: &mut [u32]) {
    let verts = xyz.len() / 3;
    let at = match r.below(3) {
        0 => 0,
        1 => verts,
        _ => r.below(verts as u64 + 1) as usize,
    };
    let count = one(r, &[1, 1, 2, 3, 31, 32, 33, 70]);
    let new: Vec<f64> = match r.below(2) {
        0 if verts > 0 => (0..count).flat_map(|_| vertex(r, xyz)).collect(),
        _ => coordinates(r, count),
    };
    xyz.splice(3 * at..3 * at, new);
    faces.iter_mut().filter(|i| **i as usize >= at).for_each(|i| *i += count as u32);
}

/// The coordinates of any vertex.
fn vertex(r: &mut Rng, xyz: &[f64]) -> [f64; 3] {
    let at = 3 * r.below(xyz.len() as u64 / 3) as usize;
    [xyz[at], xyz[at + 1], xyz[at + 2]]
}

/// Two vertices at one place.
fn repeat_vertex(r: &mut Rng, xyz: &mut [f64]) {
    if !xyz.is_empty() {
        let (to, at) = (3 * r.below(xyz.len() as u64 / 3) as usize, vertex(r, xyz));
        xyz[to..to + 3].copy_from_slice(&at);
    }
}

fn coordinates(r: &mut Rng, verts: usize) -> Vec<f64> {
    (0..3 * verts).map(|_| r.within(-400.0, 400.0)).collect()
}

/// Corners drawn from a few points: faces may be degenerate and meet anyhow.
fn soup(r: &mut Rng) -> (Vec<f64>, Vec<u32>) {
    let (verts, faces) = (1 + r.below(30), r.below(41));
    (coordinates(r, verts as usize), (0..3 * faces).map(|_| r.below(verts) as u32).collect())
}

/// A closed body of 6 to 40 faces: two poles over a ring.
fn bipyramid(r: &mut Rng) -> (Vec<f64>, Vec<u32>) {
    let n = 3 + r.below(18) as u32;
    let size = one(r, &[400.0, 400.0, 1.0, 1e-3, 1e6]);
    let mut xyz = vec![0.0, 0.0, size, 0.0, 0.0, -size];
    let mut faces = Vec::new();
    for i in 0..n {
        let (y, x) = (std::f64::consts::TAU * f64::from(i) / f64::from(n)).sin_cos();
        xyz.extend([x * size * r.within(0.8, 1.2), y * size, size * r.within(-0.1, 0.1)]);
        let next = 2 + (i + 1) % n;
        faces.extend([0, 2 + i, next, 1, next, 2 + i]);
    }
    (xyz, faces)
}

/// Any kernel: about a third stay, a third are of one exponent or another between 0 and 6, the rest is at a limit or odd.
pub fn kernel(r: &mut Rng) -> Kernel {
    let alpha = match r.below(9) {
        0..=2 => 1.0,
        3..=5 => r.within(0.0, 6.0),
        _ => {
            let i = r.below(cases::EXPONENTS.len() as u64) as usize;
            (cases::EXPONENTS[i].1)(r)
        }
    };
    let c = if r.below(4) == 0 { [(); 3].map(|()| cases::value(r, 400.0)) } else { [(); 3].map(|()| r.within(-200.0, 200.0)) };
    Kernel { c, sigma: cases::length(r, 0.004), w: weight(r), alpha }
}

/// A weight: ordinary, odd, or so small that a density is at the limit of 1e-30.
fn weight(r: &mut Rng) -> f64 {
    match r.below(12) {
        0 => odd(r),
        1 => inputs::any(r),
        2 => near(r, 1e-30, 2),
        3 => one(r, &[0.0, -0.0, 1.0, -1.0]),
        _ => r.within(-500.0, 2000.0),
    }
}

/// A convention with all kinds of floats; those that it does not carry are any bits.
pub fn convention(r: &mut Rng) -> Convention {
    let kind = one(r, &[RAW, RAW, RHO0, RHO0, MASS, MASS, MASS, MASS + 1, u32::MAX]);
    let target = match r.below(8) {
        0 => one(r, &[0.0, -0.0, -1.0, f64::NAN, f64::INFINITY, f64::NEG_INFINITY]),
        1 => odd(r),
        2 => inputs::any(r),
        _ => r.spread(20, 50),
    };
    let bulk = match r.below(6) {
        0 => one(r, &[0.0, -0.0, -1.0, f64::NAN, f64::INFINITY, f64::NEG_INFINITY]),
        1 => odd(r),
        _ => r.within(500.0, 4000.0),
    };
    let (target, bulk) = match kind {
        RAW => (inputs::any(r), inputs::any(r)),
        RHO0 => (inputs::any(r), bulk),
        _ => (target, bulk),
    };
    Convention { kind, target, bulk }
}

/// The places that a history dwells on.
pub struct Places(Vec<u32>);

impl Places {
    pub fn draw(r: &mut Rng) -> Places {
        match r.below(8) {
            0 => Places((0..32).collect()),
            1 => Places(vec![31]),
            _ => {
                let n = 2 + r.below(5);
                let any = (0..n).map(|_| r.below(32) as u32);
                Places(any.chain([0, 31]).collect())
            }
        }
    }

    /// Mostly one of them; now and then any place, or one that is none.
    pub fn one(&self, r: &mut Rng) -> u32 {
        match r.below(24) {
            0 => one(r, &[32, 32, 33, 63, 64, 1 << 31, u32::MAX - 1, u32::MAX]),
            1 => r.below(32) as u32,
            _ => one(r, &self.0),
        }
    }
}

/// The next call, by where the model stands; it is no write.
pub fn call(r: &mut Rng, model: &impl Model, places: &Places) -> Call {
    match r.below(32) {
        0..=5 => Call::Put(places.one(r), kernel(r), layer(r)),
        6 | 7 => Call::Clear(places.one(r)),
        8 | 9 => Call::Reweigh(places.one(r), weight(r)),
        10..=15 => Call::Advance(budget(r, model)),
        16..=18 => Call::Density(convention(r), layers(r), [(); 3].map(|()| cases::value(r, 400.0))),
        19 | 20 => Call::Report(convention(r), layers(r)),
        21 | 22 => Call::Squeeze,
        23 | 24 => track(r),
        25 | 26 => Call::Page(page_room(r, model)),
        27 | 28 => Call::Finished(convention(r), layers(r)),
        _ => Call::List(convention(r), layers(r), list_room(r, model)),
    }
}

/// A layer: mostly one of a few, now and then any of the sixteen, or one that is none.
pub fn layer(r: &mut Rng) -> u32 {
    match r.below(16) {
        0 => one(r, &[16, 16, 17, 31, 32, 1 << 31, u32::MAX]),
        1..=3 => r.below(16) as u32,
        _ => one(r, &[0, 0, 1, 2, 15]),
    }
}

/// A set of layers: all, none, one, any of them, or one with a layer that is none.
pub fn layers(r: &mut Rng) -> u32 {
    match r.below(16) {
        0 => 0,
        1 => one(r, &[1 << 16, 0x1_FFFF, 1 << 31, u32::MAX, 0x1_0001]),
        2..=4 => 1 << one(r, &[0, 0, 1, 2, 15]),
        5..=8 => r.word() as u32 & ALL_LAYERS,
        _ => ALL_LAYERS,
    }
}

/// Steps: none, one, a few, about a piece, about all that are left, far more.
fn budget(r: &mut Rng, model: &impl Model) -> u64 {
    let (left, faces) = (model.left(), model.face_count() as u64);
    match r.below(12) {
        0 => 0,
        1 => 1,
        2..=4 => r.below(2 * faces + 2),
        5 => faces,
        6 => faces * r.below(17),
        7 => left,
        8 => (left + 1).saturating_sub(2 * r.below(2)),
        9 => r.below(left + 1),
        10 => one(r, &[u64::MAX, u64::MAX, 1 << 32, (1 << 32) + 1, u64::MAX - 1, 1 << 63]),
        _ => r.word() >> r.below(64),
    }
}

/// Room for all pieces, for one float less, for any count, for more.
fn list_room(r: &mut Rng, model: &impl Model) -> usize {
    let full = 6 * model.piece_count();
    match r.below(6) {
        0 => full.saturating_sub(1),
        1 => r.below(full as u64 + 1) as usize,
        2 => full + r.below(20) as usize,
        _ => full,
    }
}

/// Room for all lines of a page.
pub fn page_room(r: &mut Rng, model: &impl Model) -> usize {
    byte_room(r, 65 * (model.filled_count() + 1))
}

/// Room for so many bytes, for a byte less, for any count, for more.
pub fn byte_room(r: &mut Rng, full: usize) -> usize {
    match r.below(8) {
        0 => full - 1,
        1 => r.below(full as u64) as usize,
        2 | 3 => full + r.below(80) as usize,
        _ => full,
    }
}

/// Coordinates of any kind, NaNs among them: a track is a part of them.
static COORDINATES: LazyLock<Vec<f64>> = LazyLock::new(|| {
    let mut r = Rng(1);
    (0..15_000).map(|_| cases::value(&mut r, 400.0)).collect()
});

/// A track of no point, of a few, of as many as are allowed, or of one more; now and then a coordinate or two more. Its run has room for
/// all points, for one less, for any count, for more.
pub fn track(r: &mut Rng) -> Call {
    let points = match r.below(16) {
        0 => one(r, &[4_096, 4_096, 4_097]),
        1..=9 => one(r, &[0, 1, 7, 15, 16, 17, 31, 32, 33]),
        _ => r.below(70) as usize,
    };
    let count = 3 * points + if r.below(8) == 0 { 1 + r.below(2) as usize } else { 0 };
    let from = r.below((COORDINATES.len() - count) as u64) as usize;
    let room = match r.below(8) {
        0 => points.saturating_sub(1),
        1 => r.below(points as u64 + 1) as usize,
        2 | 3 => points + r.below(20) as usize,
        _ => points,
    };
    Call::Track(convention(r), layers(r), &COORDINATES[from..][..count], room)
}

/// A sound store that nobody opened: places in any state that 01 calls sound, floats of any kind where no mesh stands.
pub fn unopened(r: &mut Rng, body: &Body) -> Held {
    unopened_in(RECORD, r, body)
}

/// The two runs of such a store in a form with so many words to a place.
pub fn unopened_in(record: usize, r: &mut Rng, body: &Body) -> Held {
    let (verts, faces) = (body.xyz.len() / 3, body.faces.len() / 3);
    let mut floats: Vec<f64> = (0..1_761).map(|_| cases::value(r, 10.0)).collect();
    let mut words = vec![verts as u32, faces as u32];
    for i in 0..32 {
        let status = if r.below(2) == 0 { 0 } else { r.below(18) };
        let pieces = status.saturating_sub(1);
        let finished = if faces == 0 { pieces } else { r.below(pieces + 1) };
        let done = if finished == pieces { 0 } else { r.below(faces as u64) };
        let layer = if status == 0 { 0 } else { r.below(16) };
        words.extend([status, finished, done, layer][..record].iter().map(|x| *x as u32));
        let alpha = near(r, 1.0 + 1e-9, 3);
        if r.below(2) == 0 {
            floats[1 + 7 * i + 5] = alpha;
        }
        if r.below(4) == 0 {
            floats[1 + 7 * i + 6] = either_sign(r, 0.0);
        }
    }
    floats.extend_from_slice(&body.xyz);
    words.extend_from_slice(&body.faces);
    Held { floats, words }
}
