//! Pages of stores that the archive opened and filled, beside 01's machine.
use crate::judge::{differs, room};
use crate::seen::Seen;
use crate::targets::Masses;
use oracle::cases::{self, one};
use oracle::held::Held;
use oracle::histories::{self, Body};
use oracle::inputs::Rng;
use oracle::machine::{self, Machine, RECORD};
use oracle::pieces::Kernel;
use oracle::tally::Tally;
use oracle::text::ByArchive;
use oracle::{solids, step, store};

/// A store and the machine that got the same calls.
struct Twin {
    runs: Held,
    machine: Machine<ByArchive>,
}

/// Mostly a small solid of any corners, about as large as a kernel is wide.
fn body(r: &mut Rng) -> Body {
    if r.below(6) == 0 {
        return histories::body(r);
    }
    let solid = one(r, &[solids::leaf, solids::tetrahedron, solids::tetrahedron, solids::cube])();
    let mesh = solid.mesh(|_| r.within(-2.0, 2.0));
    Body { xyz: mesh.xyz, faces: mesh.faces, radius: 2.0 }
}

/// Mostly one that stays; else of 13 or 16 pieces, or of none.
fn kernel(r: &mut Rng, fitted: bool) -> Kernel {
    let alpha = match r.below(24) {
        _ if fitted => 2.5,
        0 => one(r, &[f64::NAN, f64::NEG_INFINITY]),
        1 => r.within(0.1, 5.0),
        _ => 1.0,
    };
    let any = cases::length(r, 0.5);
    let sigma = one(r, &[0.0, 0.25, 1.0, -0.5, 3.0, any]);
    Kernel { c: [(); 3].map(|()| r.within(-1.0, 1.0)), sigma, w: 1.0, alpha }
}

impl Twin {
    fn open(r: &mut Rng) -> Twin {
        let Body { xyz, faces, radius } = body(r);
        let (floats, words) = machine::room(xyz.len() / 3, faces.len() / 3);
        let mut runs = Held { floats: vec![0.0; floats + r.below(3) as usize], words: vec![0; words + r.below(3) as usize] };
        assert_eq!(store::open(&mut runs.floats, &mut runs.words, radius, &xyz, &faces).no, 0);
        Twin { runs, machine: Machine::open(&xyz, &faces, radius) }
    }

    fn put(&mut self, place: u32, k: Kernel) {
        assert_eq!(store::put(&mut self.runs.floats, &mut self.runs.words, place, k, place % 16).no, 0);
        self.machine.put(place, k, place % 16).unwrap();
    }

    fn reweigh(&mut self, place: u32, w: f64) {
        assert_eq!(store::reweigh(&mut self.runs.floats, &mut self.runs.words, place, w), 0);
        self.machine.reweigh(place, w).unwrap();
    }

    fn advance(&mut self, n: u64) {
        assert_eq!(store::advance(&mut self.runs.floats, &mut self.runs.words, n).no, 0);
        self.machine.advance(n);
    }

    /// Brings every mass to what shall be printed.
    fn weigh(&mut self, r: &mut Rng) {
        let (floats, words) = self.machine.fields();
        let masses = Masses::draw(r);
        for place in (0..32).filter(|i| words[2 + RECORD * *i as usize] > 0) {
            let (target, pieces) = (masses.one(r), words[2 + RECORD * place as usize] as usize - 1);
            let parts = &floats[225 + 48 * place as usize..][..3 * pieces];
            self.reweigh(place, if target.is_finite() { weight(parts, target) } else { target });
        }
    }
}

/// A weight by which the mass of a place's pieces is the target, or near it.
fn weight(parts: &[f64], target: f64) -> f64 {
    let mass = |w: f64| parts.chunks(3).fold(0.0, |sum, p| sum + w * p[1] * p[2]);
    let about = target / mass(1.0);
    let beside = [0, 1, -1, 2, -2, 3, -3, 4, -4].map(|by| step(about, by));
    beside.into_iter().find(|w| mass(*w) == target).unwrap_or(about)
}

/// All places, in any order.
fn places(r: &mut Rng) -> Vec<u32> {
    let mut places: Vec<u32> = (0..32).collect();
    (1..32).rev().for_each(|i| places.swap(i, r.below(i as u64 + 1) as usize));
    places
}

/// A store with some places filled and mostly all work done.
fn twin(r: &mut Rng) -> Twin {
    let mut twin = Twin::open(r);
    let full = r.below(300) == 0;
    let count = match r.below(10) {
        _ if full => 32,
        0 => 0,
        1 => 32,
        _ => 1 + r.below(7) as usize,
    };
    for place in places(r).into_iter().take(count) {
        let k = kernel(r, full);
        twin.put(place, k);
    }
    let left = twin.machine.left();
    twin.advance(if r.below(12) == 0 { r.below(left + 1) } else { u64::MAX });
    twin.weigh(r);
    twin
}

/// The runs cut short or a word of them changed.
fn damaged(r: &mut Rng, runs: &Held) -> Held {
    let mut held = runs.clone();
    match r.below(4) {
        0 => held.floats.truncate(r.below(runs.floats.len() as u64) as usize),
        1 => held.words.truncate(r.below(runs.words.len() as u64) as usize),
        _ => {
            let (at, any) = (r.below(runs.words.len() as u64) as usize, r.word() as u32);
            held.words[at] = one(r, &[0, 1, 17, 18, u32::MAX, any]);
        }
    }
    held
}

pub fn pages(count: u64, mut r: Rng, all: &mut Seen) -> Tally {
    let (mut tally, mut seen) = (Tally::new(), Seen::default());
    for i in 0..count {
        let twin = twin(&mut r);
        let room = room(&mut r, twin.machine.filled_count());
        let (difference, answer) = if r.below(8) == 0 {
            let held = damaged(&mut r, &twin.runs);
            differs(&mut r, &held, room, |page| held.page(page))
        } else {
            let told = differs(&mut r, &twin.runs, room, |page| twin.machine.page(page));
            seen.page(&twin.machine.page_rows(), twin.machine.left(), room, told.1);
            told
        };
        seen.answer(answer);
        tally.count(difference.is_some(), || format!("store {i}: {}", difference.unwrap()));
    }
    tally.line("page", "stores opened and filled", &seen.text());
    all.add(seen);
    tally
}
