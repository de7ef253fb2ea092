//! Whole fits: a line for each with its arguments, how many pieces there are, the peak error and how it ended, then a line for each piece.
use crate::tables::{self, INF, NAN, filled};
use oracle::original::native_steps::{KernelSi, decompose};
use oracle::recorder::{Fit, watched};
use oracle::{pattern, step};

/// Lines `fit sigma alpha radius count error end`, each before its lines `piece sigma coefficient`. With w = 1 a piece's weight is its
/// coefficient.
pub fn answers() -> String {
    fits().into_iter().map(|(sigma, alpha, radius, _)| fit(sigma, alpha, radius)).collect()
}

fn fit(sigma: f64, alpha: f64, radius: f64) -> String {
    let ((pieces, error), pivots) = watched(|| decompose(&[KernelSi { c: [0.0; 3], sigma, w: 1.0, alpha }], radius));
    let arguments = [sigma, alpha, radius].map(|x| format!("{:016x}", x.to_bits())).join(" ");
    let lines: String = pieces.iter().map(|p| format!("piece {:016x} {:016x}\n", pattern(p.sigma), pattern(p.w))).collect();
    format!("fit {arguments} {} {:016x}{}\n{lines}", pieces.len(), pattern(error), Fit::of(alpha, &pivots).text())
}

/// The program's table, three words for each fit.
pub fn table() -> String {
    let row = |(sigma, alpha, radius, what): (f64, f64, f64, &str)| {
        let what = if what.is_empty() { String::new() } else { format!(": {what}") };
        (filled(&[sigma, alpha, radius], 3), format!("{sigma:?}, {alpha:?}, {radius:?}{what}"))
    };
    let head = "// The bits of the fits' sigma, alpha and radius.\n";
    head.to_string() + &tables::table("FITS", "u64", fits().into_iter().map(row))
}

/// sigma, alpha, radius, and what a fit is there for.
fn fits() -> Vec<(f64, f64, f64, &'static str)> {
    let mut list = Vec::new();
    // an ordinary kernel on an ordinary body
    let mut exponents = |pairs: &[(f64, &'static str)]| list.extend(pairs.iter().map(|&(alpha, what)| (0.004, alpha, 500.0, what)));
    exponents(&[
        (1.0, "stays"),
        (1.0000000005, "stays"),
        (0.999999999, "stays"),
        (1.000000001, "is replaced"),
        (step(1.000000001, -1), "the float before it stays"),
        (0.9999999989, "is replaced"),
        (2.0, "13 terms"),
        (step(2.0, 1), "16 terms"),
        (2.5, "16 terms"),
        (0.0, "13 terms, the target 1 everywhere"),
        (-0.0, ""),
        (-1e-17, "13 terms: 1 + 1e-17 is 1"),
        (-4e-16, "16 terms"),
        (NAN, "no piece, error 1"),
        (f64::NEG_INFINITY, "no piece, error +0"),
        (INF, ""),
        (-1.0, ""),
        (-30.0, "the target grows"),
        (0.5, ""),
        (1.5, ""),
        (1.7, ""),
        (3.0, ""),
        (4.0, ""),
        (8.0, ""),
        (1e9, "the target falls at once"),
        (1e300, ""),
        (-1e300, ""),
    ]);
    let mut more = |alpha, pairs: &[(f64, f64, &'static str)]| list.extend(pairs.iter().map(|&(s, r, what)| (s, alpha, r, what)));
    more(
        1.7,
        &[
            (0.05, 500.0, ""),
            (1.0, 500.0, ""),
            (0.001, 500.0, "sigma times radius below 1"),
            (0.002, 500.0, "sigma times radius 1"),
            (0.004, 1.0, ""),
            (0.004, 1e7, ""),
            (0.004, 0.0, "a radius below 1 counts as 1"),
            (0.004, NAN, "a NaN radius counts as 1"),
            (0.004, -500.0, ""),
            (0.004, INF, ""),
            (3.0, NAN, ""),
            (0.0, 500.0, "sigma 0"),
            (-0.004, 500.0, "sigma negative: the reach is 1"),
            (NAN, 500.0, "sigma NaN: the reach is 1, and the pieces' sigma a NaN"),
            (INF, 500.0, "sigma infinite"),
            (1e300, 1e300, "the reach overflows"),
            (1e150, 1.0, ""),
            (5e-324, 500.0, "sigma subnormal"),
            (0.0, INF, "0 times infinity: the reach is 1"),
        ],
    );
    more(2.5, &[(0.05, 500.0, ""), (1.0, 1e4, ""), (1e-5, 500.0, ""), (NAN, NAN, ""), (1e80, 1e80, "")]);
    more(NAN, &[(NAN, NAN, ""), (0.05, INF, "")]);
    list
}
