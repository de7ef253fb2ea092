//! A track over the pieces of a finished store, per point. The platform's side has the rescaled pieces ready and takes `densitize` at each
//! point; its results are the same bits, which is asked first. Short tracks stand beside as many single readings of the same store.
use crate::lent::{Body, Shared};
use crate::table::{Id, Row, Timings, Way};
use oracle::conventions::Convention;
use oracle::inputs::Rng;
use oracle::machine::ALL_LAYERS;
use oracle::original::native_platform::{KernelSi, densitize};
use oracle::pieces::Kernel;
use oracle::{pattern, store};
use std::hint::black_box;
use std::rc::Rc;

const BY: Convention = Convention::RAW;

/// A store, its pieces as a list by the convention gives them, and points about the body.
struct Place {
    store: Shared,
    pieces: Rc<Vec<KernelSi>>,
    points: Rc<Vec<f64>>,
}

pub fn rows(timings: &mut Timings) {
    let full = place(32, 2.5, 512);
    let [long, few, fifteen, seven] = [4_096, 64, 15, 7].map(|count| track(timings, &full, count));
    let [of_long, of_fifteen, of_seven] = [4_096, 15, 7].map(|count| timings.way(ready(&full, count)));
    let [fifteen_readings, seven_readings] = [15, 7].map(|count| timings.way(singles(&full, count)));
    let row = |name: &str, ours: Id, platform: Id| Row::new(format!("track by raw, a point of {name}"), ours).platform(platform);
    timings.row(row("4,096, 512 pieces", long, of_long).within(0.45).bar(1.05, few, "64 points"));
    timings.row(row("15, 512 pieces", fifteen, of_fifteen).bar(1.1, fifteen_readings, "single readings"));
    timings.row(row("7, 512 pieces", seven, of_seven).bar(1.1, seven_readings, "single readings"));
    let one = place(1, 1.0, 1);
    let (ours, platform) = (track(timings, &one, 4_096), timings.way(ready(&one, 4_096)));
    timings.row(row("4,096, 1 piece", ours, platform).within(1.0));
}

/// A finished store of so many kernels of exponents from this one on, which have so many pieces together.
fn place(kernels: u32, alpha: f64, count: usize) -> Place {
    let store = Body::thousand().store();
    for i in 0..kernels {
        let k = Kernel { c: [f64::from(i), 20.0, 30.0], sigma: 0.004, w: 1190.0, alpha: alpha + 0.1 * f64::from(i) };
        store.borrow_mut().put(i, k);
    }
    assert_eq!(store.borrow_mut().advance(u64::MAX).1, 0);
    let mut out = vec![0.0; 6 * count];
    assert_eq!(store::list(&store.borrow().floats, &store.borrow().words, BY, ALL_LAYERS, &mut out), (0, count as u32));
    let pieces = out.chunks(6).map(|k| KernelSi { c: [k[0], k[1], k[2]], sigma: k[3], w: k[4], alpha: k[5] }).collect();
    let mut r = Rng(1);
    let points = (0..3 * 4_096).map(|_| r.within(-600.0, 600.0)).collect();
    Place { store, pieces: Rc::new(pieces), points: Rc::new(points) }
}

/// About as many points in all, whatever a track has.
fn turns(count: usize) -> usize {
    4_096 / count
}

fn track(timings: &mut Timings, Place { store, pieces, points }: &Place, count: usize) -> Id {
    let (store, of_ours) = (store.clone(), points.clone());
    let ours = move |out: &mut [f64]| {
        let lent = store.borrow();
        assert_eq!(store::track(&lent.floats, &lent.words, BY, ALL_LAYERS, black_box(&of_ours[..3 * count]), out), (0, count as u32));
    };
    let mut out = vec![0.0; count];
    ours(&mut out);
    let want = points.chunks(3).take(count).map(|at| pattern(densitize(pieces, &[at[0], at[1], at[2]])));
    assert!(out.iter().map(|x| pattern(*x)).eq(want), "track of {count} points");
    timings.way(Way::turns(turns(count), count, move || ours(black_box(&mut out))))
}

/// `densitize` at each point, the rescaled weights ready.
fn ready(Place { pieces, points, .. }: &Place, count: usize) -> Way {
    let (pieces, points) = (pieces.clone(), points.clone());
    let mut out = vec![0.0; count];
    Way::turns(turns(count), count, move || {
        for (to, at) in out.iter_mut().zip(black_box(&points[..3 * count]).chunks_exact(3)) {
            *to = densitize(black_box(&pieces), &[at[0], at[1], at[2]]);
        }
        out[0]
    })
}

/// A reading of the store at each point.
fn singles(Place { store, points, .. }: &Place, count: usize) -> Way {
    let (store, points) = (store.clone(), points.clone());
    let mut out = vec![0.0; count];
    Way::turns(turns(count), count, move || {
        let lent = store.borrow();
        for (to, at) in out.iter_mut().zip(black_box(&points[..3 * count]).chunks_exact(3)) {
            *to = store::density(&lent.floats, &lent.words, BY, ALL_LAYERS, [at[0], at[1], at[2]]).1;
        }
        out[0]
    })
}
