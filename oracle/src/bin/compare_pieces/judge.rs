use crate::lists::lists;
use oracle::cases::{self, Cells, Exponent};
use oracle::inputs::{self, Rng};
use oracle::original::native::{self, CauchyKernel, KernelSi};
use oracle::pattern;
use oracle::pieces::{self, FileKernel, Kernel};
use oracle::recorder::{Fit, smallest, watched};
use oracle::tally::{Plan, Tally};

pub fn run() {
    let plan = Plan::read("compare_pieces");
    let mut total = Tally::new();
    for (i, (name, cells)) in cases::SYSTEMS.iter().enumerate() {
        total.add(systems(name, *cells, plan.count(4_000, 100_000), plan.rng(i)));
    }
    total.add(bad_systems(plan.count(10_000, 200_000), plan.rng(100)));
    for (i, (name, exponent)) in cases::EXPONENTS.iter().enumerate() {
        total.add(decompositions(name, *exponent, plan.count(400, 12_500), plan.rng(200 + i)));
    }
    total.add(lists(plan.count(2_000, 20_000), plan.rng(250)));
    total.add(file_kernels(plan.count(100_000, 2_000_000), plan.rng(300)));
    total.add(sizes(plan.count(100_000, 2_000_000), plan.rng(400)));
    total.end();
}

/// One call of solve, held to the text: 01's number, the smallest pivot or the column of the flat one as the recorder met them, the answer's
/// words, those past n and those of a refused call. Also the number, and the column or, of a NaN pivot, n.
fn solve_differs(n: usize, cells: &[f64], before: &[f64]) -> (bool, u32, Ending) {
    let mut answer = before.to_vec();
    let lent = cells.to_vec();
    let told = pieces::solve(n, &lent, &mut answer);
    let bad = n > 16 || cells.len() != n * (n + 1) || before.len() < n;
    let mut rows = cells.chunks(n.saturating_add(1)).map(<[f64]>::to_vec).collect::<Vec<_>>();
    let (solved, pivots) = if bad { (None, vec![]) } else { watched(|| native::solve(&mut rows)) };
    let number = match (bad, &solved) {
        (true, _) => 10,
        (_, None) => 11,
        _ => 0,
    };
    let (column, pivot) = match number {
        0 => (0, smallest(&pivots)),
        11 => (pivots.len() as u32 - 1, 0.0),
        _ => (0, 0.0),
    };
    let written = solved.unwrap_or_default();
    let differs = (told.no, told.column, pattern(told.pivot)) != (number, column, pattern(pivot))
        || lent.iter().zip(cells).any(|(x, y)| x.to_bits() != y.to_bits())
        || written.iter().zip(&answer).any(|(x, y)| pattern(*x) != pattern(*y))
        || (number == 0 && written.len() != n)
        || answer.iter().zip(before).skip(written.len()).any(|(x, y)| x.to_bits() != y.to_bits());
    let ending = Ending { late: column > 0, nan: pivot.is_nan() };
    (differs, number, ending)
}

/// What is counted of an elimination's end: a flat pivot past the first column, and a smallest pivot that is a NaN.
struct Ending {
    late: bool,
    nan: bool,
}

fn systems(name: &str, cells: Cells, count: u64, mut r: Rng) -> Tally {
    let mut tally = Tally::new();
    let (mut flat, mut late, mut nans, mut nan_pivots) = (0, 0, 0, 0);
    for _ in 0..count {
        let n = r.below(17) as usize;
        let cells = cells(&mut r, n);
        let excess = r.below(4) as usize;
        let before = cases::garbage(&mut r, n + excess);
        let (differs, number, ending) = solve_differs(n, &cells, &before);
        tally.count(differs, || format!("n {n}, cells {}", bits(&cells)));
        flat += u64::from(number == 11);
        late += u64::from(ending.late);
        nan_pivots += u64::from(ending.nan);
        nans += u64::from(number == 0 && cells.iter().any(|x| !x.is_finite()));
    }
    let solved = format!("{nans} solved with a NaN or an infinity among the cells, {nan_pivots} with a NaN pivot");
    tally.line("solve", name, &format!("{flat} flat, {late} of them past the first column, {solved}"));
    tally
}

/// Calls that are refused as a bad matrix, and calls that just are not.
fn bad_systems(count: u64, mut r: Rng) -> Tally {
    let mut tally = Tally::new();
    let mut refused = 0;
    for _ in 0..count {
        let n = match r.below(8) {
            0 => 17,
            1 => cases::one(&mut r, &[18, 31, 255, 1 << 32, 1 << 33, usize::MAX, usize::MAX - 1, usize::MAX / 2]),
            _ => r.below(18) as usize,
        };
        let fits = if n < 32 { n * (n + 1) } else { cases::one(&mut r, &[0, 1, n.wrapping_mul(n.wrapping_add(1)) % 512]) };
        let len = match r.below(8) {
            0 => fits.saturating_sub(1),
            1 => fits + 1,
            2 => 0,
            3 => fits.saturating_sub(n.min(fits)),
            _ => fits,
        };
        let room = match r.below(4) {
            0 => n.min(40).saturating_sub(1),
            1 => 0,
            _ => n.min(40),
        };
        let cells: Vec<f64> = (0..len).map(|_| r.within(-1.0, 1.0)).collect();
        let before = cases::garbage(&mut r, room);
        let (differs, number, _) = solve_differs(n, &cells, &before);
        tally.count(differs, || format!("n {n}, {len} cells, room for {room}"));
        refused += u64::from(number == 10);
    }
    tally.line("solve", "counts that do not fit", &format!("{refused} refused as 10"));
    tally
}

fn decompositions(name: &str, exponent: Exponent, count: u64, mut r: Rng) -> Tally {
    let mut tally = Tally::new();
    let (mut none, mut stay, mut some, mut all, mut short) = (0, 0, 0, 0, 0);
    let mut ends = [0; 4];
    for _ in 0..count {
        let alpha = exponent(&mut r);
        let k = kernel(&mut r, alpha);
        let radius = cases::length(&mut r, 500.0);
        let ((list, error), pivots) = watched(|| native::decompose(&[KernelSi { c: k.c, sigma: k.sigma, w: k.w, alpha }], radius));
        let fit = Fit::of(alpha, &pivots);
        let need = 6 * list.len();
        let room = match r.below(8) {
            0 => need.saturating_sub(1),
            1 => r.below(need as u64 + 1) as usize,
            2 | 3 => need + r.below(30) as usize,
            _ => need,
        };
        let before = cases::garbage(&mut r, room);
        tally.count(decompose_differs(k, radius, &list, error, fit, &before), || format!("{k:?}, radius {radius:?}, room for {room}"));
        match list.len() {
            0 => none += 1,
            1 => stay += 1,
            13 | 16 => all += 1,
            _ => some += 1,
        }
        short += u64::from(room < need);
        ends[fit.told().0 as usize] += 1;
    }
    let [kept, fitted, fallback, nameless] = ends;
    let ends = format!("{kept} kept, {fitted} fitted, {fallback} by the fallback, {nameless} without an exponent");
    tally.line(
        "pieces",
        name,
        &format!("{none} of no piece, {stay} of one, {some} of some, {all} of all terms; {short} refused as 9; {ends}"),
    );
    tally
}

pub fn kernel(r: &mut Rng, alpha: f64) -> Kernel {
    let c = [(); 3].map(|()| cases::value(r, 400.0));
    let sigma = cases::length(r, 0.004);
    let w = cases::value(r, 2000.0);
    Kernel { c, sigma, w, alpha }
}

fn decompose_differs(k: Kernel, radius: f64, list: &[KernelSi], error: f64, fit: Fit, before: &[f64]) -> bool {
    let mut out = before.to_vec();
    let told = pieces::decompose(k, radius, &mut out);
    let refused = before.len() < 6 * list.len();
    let ended = if refused { (0, 0, 0) } else { fit.told() };
    told.fit.told() != ended
        || pieces_differ((told.no, told.pieces, told.error), &out, if refused { None } else { Some((list, error)) }, before)
}

/// The number, pieces and error that a call tells, what it writes, and what it leaves, held to the text's pieces and error, or to refusal 9, which tells nothing
/// but its number.
pub fn pieces_differ((no, pieces, told): (u32, u64, f64), out: &[f64], text: Option<(&[KernelSi], f64)>, before: &[f64]) -> bool {
    let (list, error) = text.unwrap_or((&[], 0.0));
    let written: Vec<f64> = list.iter().flat_map(|p| [p.c[0], p.c[1], p.c[2], p.sigma, p.w, p.alpha]).collect();
    no != if text.is_none() { 9 } else { 0 }
        || pieces != list.len() as u64
        || pattern(told) != pattern(error)
        || written.iter().zip(out).any(|(x, y)| pattern(*x) != pattern(*y))
        || out.iter().zip(before).skip(written.len()).any(|(x, y)| x.to_bits() != y.to_bits())
}

fn file_kernels(count: u64, mut r: Rng) -> Tally {
    let mut tally = Tally::new();
    let mut defaults = 0;
    for _ in 0..count {
        let mut draw = |usual| cases::value(&mut r, usual);
        let (c, sigma, w, alpha, default) = ([draw(0.5), draw(0.5), draw(0.5)], draw(5.0), draw(2000.0), draw(2.0), draw(2.0));
        let given = cases::one(&mut r, &[0, 1, 1, 2, u32::MAX]);
        let of = FileKernel { c, sigma, w, alpha, given };
        let told = pieces::cauchy_kernel_from_file(of, default);
        let text = native::carry(&CauchyKernel { c, sigma, w, alpha: (given != 0).then_some(alpha) }, default);
        let pairs = [(told.sigma, text.sigma), (told.w, text.w), (told.alpha, text.alpha)];
        let differs = told.c.into_iter().zip(text.c).chain(pairs).any(|(x, y)| pattern(x) != pattern(y));
        tally.count(differs, || format!("{of:?}, default {default:?}"));
        defaults += u64::from(pattern(text.alpha) == pattern(default));
    }
    tally.line("kernel", "of a file", &format!("{defaults} by the default exponent"));
    tally
}

/// 01's counts of terms and samples, by thresholds, against the text's, by ceil and clamp. The archive is not asked: its counts show in
/// the pieces.
fn sizes(count: u64, mut r: Rng) -> Tally {
    let mut tally = Tally::new();
    for _ in 0..count {
        let delta = match r.below(4) {
            0 => cases::near(&mut r, 1.0, 1000),
            1 => r.within(0.0, 3.0),
            2 => cases::near(&mut r, 1e-9, 1000),
            _ => inputs::any(&mut r),
        }
        .abs();
        let size = match delta {
            d if d <= 1.0 => (13, 39),
            d if d > 1.0 => (16, 48),
            _ => (0, 24),
        };
        // a delta of at most 1e-9 is never asked
        tally.count(delta > 1e-9 && size != native::size(delta), || format!("delta {delta:?}"));
    }
    tally.line("sizes", "01's by thresholds", "");
    tally
}

fn bits(cells: &[f64]) -> String {
    cells.iter().map(|x| format!("{:016x}", x.to_bits())).collect::<Vec<_>>().join(" ")
}
