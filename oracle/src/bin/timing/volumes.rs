//! A kernel's volume and an advance, per face, on globes of three sizes; the kernel's width decides which path of `radial_g` its points
//! take. An advance's pieces are kernels of exponent 1, one to a place and all alike.
use crate::lent::{Body, Shared};
use crate::table::{Id, Row, Timings, Way};
use oracle::original::{native_platform, native_steps};
use oracle::pattern;
use oracle::pieces::Kernel;
use oracle::volumes::kernel_volume;
use std::hint::black_box;
use std::rc::Rc;

const CENTRE: [f64; 3] = [10.0, -20.0, 30.0];

/// Sigma, the path, and the bar by the platform's.
type Case = (f64, &'static str, f64);

const CASES: [Case; 5] = [(1e-4, "series", 0.8), (2.1e-4, "both", 1.1), (1e-3, "arc", 0.9), (4e-3, "arc", 1.1), (0.05, "arc", 1.1)];

/// By the next smaller mesh: "the same", read as within 5 %, and at most 1.3.
const GROWTH: [(f64, &str); 2] = [(1.05, "1,000 faces"), (1.3, "20,000 faces")];

/// A mesh, its name and a store on it.
struct Place {
    body: Rc<Body>,
    name: &'static str,
    store: Shared,
}

/// The ways of a volume.
#[derive(Clone, Copy)]
struct Volume {
    platform: Id,
    steps: Id,
    ours: Id,
}

pub fn rows(timings: &mut Timings) {
    let bodies = [Body::thousand(), Body::twenty_thousand(), Body::two_million()];
    let names = ["1,000 faces", "20,000 faces", "2,000,000 faces"];
    let places: Vec<Place> = bodies.into_iter().zip(names).map(|(body, name)| Place { store: body.store(), body, name }).collect();
    let mut above_zero = Vec::new();
    for case in CASES {
        let volumes: Vec<Volume> = places.iter().map(|place| volume(timings, place, case.0)).collect();
        for (i, place) in places.iter().enumerate() {
            let row = row(format!("kernel_volume, {}, sigma {}, {}", case.1, case.0, place.name), volumes[i].ours, volumes[i]);
            let before = i.checked_sub(1).map(|b| volumes[b].ours);
            timings.row(grown(row.within(case.2), i, before));
        }
        above_zero.push([volumes[0].ours, advances(timings, &places, case, &volumes)]);
    }
    small_budget(timings, &places[2], CASES[3]);
    unordered(timings);
    below_zero(timings, &places, &above_zero);
}

fn row(name: String, ours: Id, volume: Volume) -> Row {
    Row::new(name, ours).platform(volume.platform).steps(volume.steps)
}

/// The row with the bar by the mesh before, whose way this is.
fn grown(row: Row, i: usize, before: Option<Id>) -> Row {
    match before {
        Some(before) => row.bar(GROWTH[i - 1].0, before, GROWTH[i - 1].1),
        None => row,
    }
}

macro_rules! text {
    ($module:ident, $mesh:ident, $body:expr, $sigma:expr) => {{
        let body = $body.clone();
        move || $module::kernel_volume(&body.$mesh, CENTRE, black_box($sigma))
    }};
}

/// Bits equal to those of 01's steps are asked first.
fn volume(timings: &mut Timings, Place { body, .. }: &Place, sigma: f64) -> Volume {
    let platform = text!(native_platform, plain, body, sigma);
    let steps = text!(native_steps, steps, body, sigma);
    let of = body.clone();
    let ours = move || kernel_volume(&of.plain.xyz, &of.plain.faces, CENTRE, black_box(sigma)).value;
    assert_eq!(pattern(ours()), pattern(steps()), "{} faces, sigma {sigma}", body.faces);
    let (turns, long) = ((20_000 / body.faces).max(1), body.faces > 100_000);
    Volume {
        platform: timings.way(Way::turns(turns, body.faces, platform).seldom(long)),
        steps: timings.way(Way::turns(turns, body.faces, steps).seldom(long)),
        ours: timings.way(Way::turns(turns, body.faces, ours).seldom(long)),
    }
}

/// Every place is put anew before, as many as the budget needs.
fn advance(Place { body, store, .. }: &Place, budget: usize, sigma: f64) -> Way {
    let (filled, worked) = (store.clone(), store.clone());
    let places = budget.div_ceil(body.faces) as u32;
    let k = Kernel { c: CENTRE, sigma, w: 1190.0, alpha: 1.0 };
    let put = move || (0..places).for_each(|place| assert_eq!(filled.borrow_mut().put(place, k), 1));
    let work = move || assert_eq!(worked.borrow_mut().advance(black_box(budget as u64)).0, budget as u64);
    Way::new(budget, work).after(put).seldom(body.faces > 100_000)
}

/// Which mesh, how many faces an advance, and its name.
const BUDGETS: [(usize, usize, &str); 5] =
    [(0, 10_000, "10,000"), (0, 20_000, "20,000"), (1, 10_000, "10,000"), (1, 20_000, "20,000"), (2, 2_000_000, "2,000,000")];

/// Answers the way of 20,000 faces on as many.
fn advances(timings: &mut Timings, places: &[Place], (sigma, path, most): Case, volumes: &[Volume]) -> Id {
    let mut last = [None; 3];
    for (i, budget, said) in BUDGETS {
        let ours = timings.way(advance(&places[i], budget, sigma));
        let row = row(format!("advance of {said}, {path}, sigma {sigma}, {}", places[i].name), ours, volumes[i]);
        let row = if i == 1 { row.bar(1.05, volumes[i].ours, "kernel_volume") } else { row };
        timings.row(grown(row.within(most), i, i.checked_sub(1).and_then(|b| last[b])));
        last[i] = Some(ours);
    }
    last[1].expect("an advance on 20,000 faces")
}

/// Faces that follow each other lie anywhere, so that nearly every block has points on both sides of 0.1.
fn unordered(timings: &mut Timings) {
    let body = Body::shuffled();
    let place = Place { store: body.store(), body, name: "" };
    let volume = volume(timings, &place, 2e-4);
    timings.row(row("kernel_volume, both, sigma 0.0002, 20,000 faces in no order".into(), volume.ours, volume).within(1.0));
}

/// A sigma below 0 beside its negative, of which these are a volume and an advance for each case: "the same", read as within 5 %. A
/// volume on each path, and an advance on the arc's.
fn below_zero(timings: &mut Timings, places: &[Place], above: &[[Id; 2]]) {
    for ((sigma, path, most), [volume_above, _]) in CASES.into_iter().zip(above).take(3) {
        let volume = volume(timings, &places[0], -sigma);
        let row = row(format!("kernel_volume, {path}, sigma -{sigma}, {}", places[0].name), volume.ours, volume);
        timings.row(row.within(most).bar(1.05, *volume_above, "sigma above 0"));
    }
    let ((sigma, path, most), [_, advance_above]) = (CASES[2], above[2]);
    let volume = volume(timings, &places[1], -sigma);
    let ours = timings.way(advance(&places[1], 20_000, -sigma));
    let row = row(format!("advance of 20,000, {path}, sigma -{sigma}, {}", places[1].name), ours, volume);
    timings.row(row.within(most).bar(1.05, advance_above, "sigma above 0"));
}

/// On a large mesh the check weighs more than so few faces.
fn small_budget(timings: &mut Timings, place: &Place, (sigma, path, _): Case) {
    let ours = timings.way(advance(place, 20_000, sigma));
    timings.row(Row::new(format!("advance of 20,000, {path}, sigma {sigma}, {}", place.name), ours));
}
