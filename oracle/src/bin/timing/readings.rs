//! Densities, report, list and wall page of 32 places of 16 pieces each, all work done, and the report of what is finished with one place
//! still to do. The platform's side has the same pieces and
//! volumes, and does the lines of `from_toml_impl` after the decomposition, or prints by `format!`; its results are the same bits, which
//! is asked first.
use crate::lent::{Body, Shared};
use crate::table::{Id, Row, Timings, Way};
use oracle::conventions::{Convention, MASS, RAW, RHO0};
use oracle::machine::ALL_LAYERS;
use oracle::original::native_platform::{KernelSi, body_volume, densitize};
use oracle::original::native_steps;
use oracle::page::{self, Row as Line};
use oracle::pieces::Kernel;
use oracle::{pattern, store};
use std::hint::black_box;
use std::rc::Rc;

const TURNS: usize = 20;
const PIECES: usize = 512;
const AT: [f64; 3] = [100.0, 200.0, 300.0];
const TARGET: f64 = 4.5e11;
const BULK: f64 = 1190.0;

/// The pieces as a store holds them, and room for them rescaled.
#[derive(Clone)]
struct Pieces {
    list: Vec<KernelSi>,
    volumes: Vec<f64>,
    scaled: Vec<KernelSi>,
}

/// A store with its 512 pieces finished.
fn full(body: &Body) -> Shared {
    let store = body.store();
    for place in 0..32 {
        let k = Kernel { c: [f64::from(place), 20.0, 30.0], sigma: 0.004, w: 1190.0, alpha: 2.5 + 0.1 * f64::from(place) };
        assert_eq!(store.borrow_mut().put(place, k), 16);
    }
    assert_eq!(store.borrow_mut().advance(u64::MAX).1, 0);
    store
}

impl Pieces {
    fn of(store: &Shared) -> Pieces {
        let lent = store.borrow();
        let mut out = [0.0; 6 * PIECES];
        assert_eq!(store::list(&lent.floats, &lent.words, Convention::RAW, ALL_LAYERS, &mut out), (0, PIECES as u32));
        let list: Vec<KernelSi> = out.chunks(6).map(|k| KernelSi { c: [k[0], k[1], k[2]], sigma: k[3], w: k[4], alpha: k[5] }).collect();
        let volumes = lent.floats[225..][..3 * PIECES].chunks(3).map(|piece| piece[2]).collect();
        Pieces { scaled: list.clone(), list, volumes }
    }

    fn raw_mass(&self) -> f64 {
        self.list.iter().zip(&self.volumes).fold(0.0, |sum, (k, volume)| sum + k.w * volume)
    }

    fn rho0_scale(&self) -> f64 {
        let rho0 = densitize(&self.list, &[0.0, 0.0, 0.0]);
        if rho0.abs() > 1e-30 { BULK / rho0 } else { 1.0 }
    }

    fn rescaled(&mut self, kind: u32) -> &[KernelSi] {
        let scale = match kind {
            RAW => return &self.list,
            RHO0 => self.rho0_scale(),
            _ => TARGET / self.raw_mass(),
        };
        self.scaled.iter_mut().zip(&self.list).for_each(|(to, k)| to.w = k.w * scale);
        &self.scaled
    }

    fn density(&mut self, kind: u32) -> f64 {
        densitize(black_box(self.rescaled(kind)), black_box(&AT))
    }

    fn write(&mut self, out: &mut [f64]) {
        for (to, k) in out.chunks_exact_mut(6).zip(self.rescaled(MASS)) {
            to.copy_from_slice(&[k.c[0], k.c[1], k.c[2], k.sigma, k.w, k.alpha]);
        }
    }

    /// What a page shows: of each 16 pieces a sum of their own.
    fn page(&self, out: &mut [u8]) -> Result<u64, u32> {
        let mass = |(list, volumes): (&[KernelSi], &[f64])| list.iter().zip(volumes).fold(0.0, |sum, (k, volume)| sum + k.w * volume);
        let masses = self.list.chunks(16).zip(self.volumes.chunks(16)).map(mass);
        let lines: Vec<Line> = masses.enumerate().map(|(place, mass)| Line { place, pieces: 16, mass }).collect();
        page::write(&lines, out)
    }

    /// `MassReport`'s floats, by mass.
    fn report(&self, volume: f64) -> [f64; 7] {
        let (raw, rho0) = (self.raw_mass(), self.rho0_scale());
        let applied = TARGET / raw;
        [raw, rho0, raw * rho0, applied, raw * applied, TARGET, volume]
    }
}

pub fn rows(timings: &mut Timings) {
    let small = Body::thousand();
    let store = full(&small);
    let checked = store.clone();
    let check = timings.way(Way::turns(TURNS, 1, move || checked.borrow_mut().advance(0)));
    for (name, by) in [("raw", Convention::RAW), ("rho0", Convention::rho0(BULK)), ("mass", Convention::mass_of(TARGET, BULK))] {
        density(timings, &store, name, by, check);
    }
    list(timings, &store, check);
    page(timings, &store);
    report(timings, "report by mass, 512 pieces, 1,000 faces", &small, store);
    finished(timings, &small);
    let large = Body::twenty_thousand();
    let store = full(&large);
    report(timings, "report by mass, 512 pieces, 20,000 faces", &large, store);
}

fn density(timings: &mut Timings, store: &Shared, name: &str, by: Convention, check: Id) {
    let (store, mut pieces) = (store.clone(), Pieces::of(store));
    let ours = move || {
        let lent = store.borrow();
        store::density(&lent.floats, &lent.words, by, ALL_LAYERS, black_box(AT)).1
    };
    assert_eq!(pattern(ours()), pattern(pieces.density(by.kind)), "density by {name}");
    let ours = timings.way(Way::turns(TURNS, 1, ours));
    let platform = timings.way(Way::turns(TURNS, 1, move || pieces.density(black_box(by.kind))));
    let row = Row::new(format!("density by {name}, 512 pieces, beyond the check"), ours);
    timings.row(row.platform(platform).less(check).within(1.2));
}

fn list(timings: &mut Timings, store: &Shared, check: Id) {
    let (store, mut pieces) = (store.clone(), Pieces::of(store));
    let (mut out, mut written) = (vec![0.0; 6 * PIECES], vec![0.0; 6 * PIECES]);
    let ours = move |out: &mut [f64]| {
        let lent = store.borrow();
        store::list(&lent.floats, &lent.words, Convention::mass_of(TARGET, BULK), ALL_LAYERS, black_box(out)).1
    };
    ours(&mut out);
    pieces.write(&mut written);
    assert!(out.iter().zip(&written).all(|(a, b)| pattern(*a) == pattern(*b)), "list");
    let ours = timings.way(Way::turns(TURNS, 1, move || ours(&mut out)));
    let platform = timings.way(Way::turns(TURNS, 1, move || pieces.write(black_box(&mut written))));
    timings.row(Row::new("list by mass, 512 pieces, 1,000 faces", ours).platform(platform));
    timings.row(Row::new("list by mass, 512 pieces, beyond the check", ours).platform(platform).less(check));
}

fn page(timings: &mut Timings, store: &Shared) {
    const BYTES: usize = 65 * 33;
    let (store, pieces) = (store.clone(), Pieces::of(store));
    let (mut out, mut written) = ([0; BYTES], [0; BYTES]);
    let ours = move |out: &mut [u8]| {
        let lent = store.borrow();
        assert_eq!(store::page(&lent.floats, &lent.words, out), (0, BYTES as u64));
    };
    ours(&mut out);
    assert!(pieces.page(&mut written) == Ok(BYTES as u64) && out == written, "page");
    let ours = timings.way(Way::turns(TURNS, 1, move || ours(black_box(&mut out))));
    let platform = timings.way(Way::turns(TURNS, 1, move || pieces.page(black_box(&mut written))));
    timings.row(Row::new("page, 32 places of 16 pieces, 1,000 faces, against `format!`", ours).platform(platform));
}

fn report(timings: &mut Timings, name: &str, body: &Rc<Body>, store: Shared) {
    let pieces = Pieces::of(&store);
    let ours = move || {
        let lent = store.borrow();
        store::report(&lent.floats, &lent.words, Convention::mass_of(TARGET, BULK), ALL_LAYERS).1.mass
    };
    let (of_plain, of_steps, list) = (body.clone(), body.clone(), pieces.clone());
    let platform = move || pieces.report(body_volume(&of_plain.plain));
    let steps = move || list.report(native_steps::body_volume(&of_steps.steps));
    assert_eq!(ours().map(pattern), steps().map(pattern), "report");
    let [ours, platform, steps] = [Way::new(1, ours), Way::new(1, platform), Way::new(1, steps)].map(|way| timings.way(way));
    timings.row(Row::new(name, ours).platform(platform).steps(steps));
}

fn finished(timings: &mut Timings, body: &Rc<Body>) {
    let store = full(body);
    store.borrow_mut().put(31, Kernel { c: [31.0, 20.0, 30.0], sigma: 0.004, w: 1190.0, alpha: 2.5 });
    let mut pieces = Pieces::of(&store);
    pieces.list.truncate(PIECES - 16);
    pieces.volumes.truncate(PIECES - 16);
    let ours = move || {
        let lent = store.borrow();
        let (no, report, passed) = store::finished(&lent.floats, &lent.words, Convention::mass_of(TARGET, BULK), ALL_LAYERS);
        assert_eq!((no, passed), (0, 1));
        report.mass
    };
    let body = body.clone();
    let platform = move || pieces.report(body_volume(&body.plain));
    assert_eq!(ours()[..6], platform()[..6], "the report of what is finished, but for the volume");
    let [ours, platform] = [Way::new(1, ours), Way::new(1, platform)].map(|way| timings.way(way));
    timings.row(Row::new("finished by mass, 496 of 512 pieces, 1,000 faces", ours).platform(platform));
}
