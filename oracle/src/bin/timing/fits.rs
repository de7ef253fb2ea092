//! A system of 16 rows, one fit of a kernel's pieces, and the put that makes it.
use crate::lent::{Body, RADIUS};
use crate::table::{Row, Timings, Way};
use oracle::cases;
use oracle::inputs::Rng;
use oracle::original::{native_platform, native_steps};
use oracle::pieces::{Kernel, decompose, solve};
use std::hint::black_box;

const TURNS: usize = 10;
const SIGMA: f64 = 0.004;

pub fn rows(timings: &mut Timings) {
    system(timings);
    for alpha in [1.7, 2.5] {
        fit(timings, alpha);
    }
}

/// The text works in place, so its matrix is filled anew each time.
fn system(timings: &mut Timings) {
    let normal = cases::SYSTEMS[11].1;
    let cells = normal(&mut Rng(1), 16);
    let rows: Vec<Vec<f64>> = cells.chunks(17).map(<[f64]>::to_vec).collect();
    let mut matrix = rows.clone();
    let mut answer = [0.0; 16];
    let ours = timings.way(Way::turns(TURNS, 1, move || {
        assert_eq!(solve(16, black_box(&cells), &mut answer).no, 0);
        answer[15]
    }));
    let platform = timings.way(Way::turns(TURNS, 1, move || {
        matrix.clone_from(black_box(&rows));
        native_platform::solve(&mut matrix)
    }));
    timings.row(Row::new("solve, 16 rows", ours).platform(platform));
}

fn kernel(alpha: f64) -> Kernel {
    Kernel { c: [1.0, 2.0, 3.0], sigma: black_box(SIGMA), w: 1190.0, alpha: black_box(alpha) }
}

macro_rules! text {
    ($module:ident, $alpha:expr) => {
        Way::turns(TURNS, 1, move || {
            let Kernel { c, sigma, w, alpha } = kernel($alpha);
            $module::decompose(&[$module::KernelSi { c, sigma, w, alpha }], black_box(RADIUS))
        })
    };
}

fn fit(timings: &mut Timings, alpha: f64) {
    let platform = timings.way(text!(native_platform, alpha));
    let steps = timings.way(text!(native_steps, alpha));
    let mut out = [0.0; 96];
    let ours = timings.way(Way::turns(TURNS, 1, move || decompose(kernel(alpha), black_box(RADIUS), &mut out).error + out[4]));
    timings.row(Row::new(format!("one fit, alpha {alpha}"), ours).platform(platform).steps(steps).within(2.0));
    let store = Body::thousand().store();
    let put = timings.way(Way::turns(TURNS, 1, move || store.borrow_mut().put(7, kernel(alpha))));
    timings.row(Row::new(format!("put, alpha {alpha}, 1,000 faces"), put).platform(platform).steps(steps).within(2.0));
}
