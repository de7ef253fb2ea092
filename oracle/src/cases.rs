//! Cases for the comparison with the original's text: systems of equations, kernels, radii, and runs to be written. They dwell on ties,
//! on the limits of 01's steps and the floats beside them, and on what is no ordinary number.
use crate::inputs::{self, Rng};
use crate::step;

/// One of these.
pub fn one<T: Copy>(r: &mut Rng, of: &[T]) -> T {
    of[r.below(of.len() as u64) as usize]
}

/// x or -x.
pub fn either_sign(r: &mut Rng, x: f64) -> f64 {
    if r.below(2) == 0 { x } else { -x }
}

/// x, or a float up to `most` places above or below it.
pub fn near(r: &mut Rng, x: f64, most: u64) -> f64 {
    let by = r.below(2 * most + 1) as i64 - most as i64;
    step(x, by)
}

/// A run of any bits, to see what is written and what is left.
pub fn garbage(r: &mut Rng, len: usize) -> Vec<f64> {
    (0..len).map(|_| f64::from_bits(r.word())).collect()
}

/// A float that is no ordinary number.
pub fn odd(r: &mut Rng) -> f64 {
    const ODD: [f64; 10] = [
        0.0,
        f64::NAN,
        f64::INFINITY,
        f64::MAX,
        f64::MIN_POSITIVE,
        f64::from_bits(1),
        f64::from_bits(0xf_ffff_ffff_ffff),
        1e-18,
        1e-30,
        1e300,
    ];
    let x = one(r, &ODD);
    either_sign(r, x)
}

/// The cells of n rows of n + 1, by a family's way.
pub type Cells = fn(&mut Rng, usize) -> Vec<f64>;

fn each(r: &mut Rng, n: usize, cell: fn(&mut Rng) -> f64) -> Vec<f64> {
    (0..n * (n + 1)).map(|_| cell(r)).collect()
}

/// The limits 1e-18 and 1e-30, the floats beside them, and what they are compared with.
fn limit(r: &mut Rng) -> f64 {
    let x = match r.below(8) {
        0 | 1 => near(r, 1e-18, 1),
        2 | 3 => near(r, 1e-30, 1),
        4 => 0.0,
        5 => r.within(0.0, 4e-18),
        6 => r.within(0.0, 4e-30),
        _ => 1.0,
    };
    either_sign(r, x)
}

/// The families of systems.
pub const SYSTEMS: [(&str, Cells); 12] = [
    ("whole -2 to 2: ties", |r, n| each(r, n, |r| r.below(5) as f64 - 2.0)),
    ("0 and 1: singular", |r, n| each(r, n, |r| r.below(2) as f64)),
    ("-1 to 1", |r, n| each(r, n, |r| r.within(-1.0, 1.0))),
    ("2^-60 to 2^60", |r, n| {
        each(r, n, |r| {
            let x = r.spread(-60, 60);
            either_sign(r, x)
        })
    }),
    ("seldom an odd one", |r, n| {
        each(r, n, |r| match r.below(40) {
            0 => odd(r),
            _ => r.within(-4.0, 4.0),
        })
    }),
    ("often an odd one", |r, n| {
        each(r, n, |r| match r.below(4) {
            0 => odd(r),
            _ => r.below(3) as f64 - 1.0,
        })
    }),
    ("any bits", |r, n| each(r, n, inputs::any)),
    ("subnormal", |r, n| each(r, n, inputs::subnormal)),
    ("the limits everywhere", |r, n| each(r, n, limit)),
    ("the limits on and off the diagonal", limits_in_order),
    ("dependent rows", dependent),
    ("normal equations with a ridge", normal),
];

/// A diagonal of ones, often one of 1e-18 or beside it, off which a few factors of 1e-30 or beside it stand; rows changed about.
fn limits_in_order(r: &mut Rng, n: usize) -> Vec<f64> {
    let width = n + 1;
    let mut cells = vec![0.0; n * width];
    for row in 0..n {
        let pivot = if r.below(2 * n as u64) == 0 { near(r, 1e-18, 1) } else { 1.0 };
        cells[row * width + row] = either_sign(r, pivot);
        cells[row * width + n] = r.within(-8.0, 8.0);
    }
    for _ in 0..r.below(2 * n as u64 + 1) {
        let (row, col) = (r.below(n as u64) as usize, r.below(n as u64) as usize);
        if row != col {
            let factor = near(r, 1e-30, 1);
            cells[row * width + col] = either_sign(r, factor);
        }
    }
    for row in 0..n {
        let other = r.below(n as u64) as usize;
        for j in 0..if r.below(3) == 0 { width } else { 0 } {
            cells.swap(row * width + j, other * width + j);
        }
    }
    cells
}

/// Whole rows, of which some are sums of others: the pivot that should vanish may be a rounding's rest.
fn dependent(r: &mut Rng, n: usize) -> Vec<f64> {
    let width = n + 1;
    let whole = r.below(2) == 0;
    let mut cells = each(r, n, |r| r.within(-9.0, 9.0));
    if whole {
        cells.iter_mut().for_each(|x| *x = x.round());
    }
    for row in 2..n {
        if r.below(3) == 0 {
            for j in 0..width {
                cells[row * width + j] = cells[j] + cells[width + j];
            }
        }
    }
    cells
}

/// What the fit solves: products of a basis summed over samples, a ridge on the diagonal.
fn normal(r: &mut Rng, n: usize) -> Vec<f64> {
    let width = n + 1;
    let alpha = r.within(0.5, 4.0);
    let mut cells = vec![0.0; n * width];
    for _ in 0..3 * n {
        let u = r.spread(-13, 8);
        let basis: Vec<f64> = (0..n).map(|i| 1.0 / (1.0 + (u * 1.3f64.powi(i as i32)).powi(2))).collect();
        for a in 0..n {
            for b in 0..n {
                cells[a * width + b] += basis[a] * basis[b];
            }
            cells[a * width + n] += basis[a] * (1.0 + u * u).powf(-alpha);
        }
    }
    for i in 0..n {
        cells[i * width + i] += 1e-12;
    }
    cells
}

/// One exponent, by a family's way.
pub type Exponent = fn(&mut Rng) -> f64;

/// Exponents: 01's limits at 1 ± 1e-9 and at 0 and 2, what is no exponent at all, and ordinary ones.
pub const EXPONENTS: [(&str, Exponent); 8] = [
    ("1 to 8", |r| r.within(1.0, 8.0)),
    ("-3 to 5", |r| r.within(-3.0, 5.0)),
    ("about 1 - 1e-9, 1 + 1e-9", |r| match r.below(3) {
        0 => r.within(1.0 - 2e-9, 1.0 + 2e-9),
        1 => near(r, 1.0 - 1e-9, 3),
        _ => near(r, 1.0 + 1e-9, 3),
    }),
    ("beside 0, 1 and 2", |r| match r.below(4) {
        0 => near(r, 2.0, 3),
        1 => near(r, 0.0, 3),
        2 => near(r, 1.0, 3),
        _ => r.within(-4e-16, 4e-16),
    }),
    ("whole and half", |r| r.below(33) as f64 / 2.0 - 4.0),
    ("odd", odd),
    ("any bits", inputs::any),
    ("huge and tiny", |r| {
        let x = if r.below(2) == 0 { r.spread(4, 1023) } else { r.spread(-1022, -20) };
        either_sign(r, x)
    }),
];

/// A sigma or a radius: mostly ordinary, about `usual`; also zero, negative, NaN, infinite, huge, tiny, any bits.
pub fn length(r: &mut Rng, usual: f64) -> f64 {
    match r.below(16) {
        0..=8 => usual * r.spread(-7, 8),
        9 => -usual * r.spread(-7, 8),
        10 => one(r, &[0.0, -0.0, 1.0, -1.0]),
        11 => odd(r),
        12 => inputs::any(r),
        13 => r.spread(30, 1023),
        14 => r.spread(-1022, -30),
        _ => near(r, 1.0 / 512.0, 2),
    }
}

/// A centre's coordinate or a weight: ordinary, odd, or any bits.
pub fn value(r: &mut Rng, usual: f64) -> f64 {
    match r.below(8) {
        0 => odd(r),
        1 => inputs::any(r),
        _ => r.within(-usual, usual),
    }
}
