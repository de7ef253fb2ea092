//! How far 01's functions, as the archive computes them, lie from the platform's: a table in markdown, for docs/DIFFERENCES.md.
//! Each row draws 4 million arguments. The distance counts floats (ulp); `at` is an argument that shows the largest.
use oracle::inputs::{self, Rng};
use oracle::{cauchy_arc, cauchy_exp, cauchy_log, cauchy_log10, cauchy_power, cauchy_root, cauchy_ten, pattern, platform, ulps};
use std::hint::black_box;

const DRAWN: u64 = 4_000_000;

// The platform's functions, by the names that Rust has for them.

fn sqrt(x: f64) -> f64 {
    x.sqrt()
}
fn atan(t: f64) -> f64 {
    t.atan()
}
fn log2(b: f64) -> f64 {
    b.log2()
}
fn exp2(y: f64) -> f64 {
    y.exp2()
}
fn log10(b: f64) -> f64 {
    b.log10()
}
fn powf((b, y): (f64, f64)) -> f64 {
    b.powf(y)
}
// The base is hidden from the compiler, which may know another function for a base of ten.
fn powf_ten(y: f64) -> f64 {
    black_box(10.0_f64).powf(y)
}

fn main() {
    println!("Platform: {}. {DRAWN} arguments a row.\n", platform());
    println!("| 01 | platform | arguments | differ | largest ulp | at |");
    println!("|---|---|---|---|---|---|");
    let root = |range, draw| row("root", "`sqrt`", range, draw, |x| cauchy_root(x), sqrt);
    root("any bits", inputs::any);
    root("subnormal", inputs::subnormal);
    let arc = |range, draw| row("A", "`atan`", range, draw, |t| cauchy_arc(t), atan);
    arc("any bits", inputs::any);
    arc("2^-30 to 2^30", |r| r.spread(-30, 30));
    arc("-2 to 2", |r| r.within(-2.0, 2.0));
    let log = |range, draw| row("L", "`log2`", range, draw, |b| cauchy_log(b), log2);
    log("any above 0", inputs::positive);
    log("subnormal", |r| inputs::subnormal(r).abs());
    log("0.5 to 2", |r| r.within(0.5, 2.0));
    let exp = |range, draw| row("E", "`exp2`", range, draw, |y| cauchy_exp(y), exp2);
    exp("-1022 to 1024: normal results", |r| r.within(-1022.0, 1024.0));
    exp("-1 to 1", |r| r.within(-1.0, 1.0));
    exp("-1075 to -1022: subnormal results", |r| r.within(-1075.0, -1022.0));
    let power = |range, draw| row("P", "`powf`", range, draw, |(b, y)| cauchy_power(b, y), powf);
    power("b 0.001 to 1000, y -20 to 20", |r| (r.spread_within(1e-3, 1e3), r.within(-20.0, 20.0)));
    power("b = 1 + u·u, u 1e-4 to 1e4, y -5 to 0 (the fit's)", |r| {
        let u = r.spread_within(1e-4, 1e4);
        (1.0 + u * u, r.within(-5.0, 0.0))
    });
    power("any b above 0, y for every normal result", |r| {
        let b = inputs::positive(r);
        (b, r.within(-1022.0, 1024.0) / b.log2())
    });
    power("any b above 0, y for every subnormal result", |r| {
        let b = inputs::positive(r);
        (b, r.within(-1075.0, -1022.0) / b.log2())
    });
    let ten = |range, draw| row("T", "`10.0_f64.powf`", range, draw, |y| cauchy_ten(y), powf_ten);
    ten("-300 to 300", |r| r.within(-300.0, 300.0));
    ten("-4 to 4 (the fit's)", |r| r.within(-4.0, 4.0));
    ten("whole, -22 to 22", |r| r.below(45) as f64 - 22.0);
    let log_ten = |range, draw| row("log10", "`log10`", range, draw, |b| cauchy_log10(b), log10);
    log_ten("any above 0", inputs::positive);
    log_ten("subnormal", |r| inputs::subnormal(r).abs());
    log_ten("0.5 to 2", |r| r.within(0.5, 2.0));
    kinds();
}

/// A row of the table. An answer that is a NaN on one side alone is counted apart.
fn row<T: Shown + Copy>(name: &str, other: &str, range: &str, draw: fn(&mut Rng) -> T, archive: fn(T) -> f64, platform: fn(T) -> f64) {
    let mut rng = Rng(1);
    let (mut differ, mut nans, mut most, mut at) = (0u64, 0u64, 0, None);
    for _ in 0..DRAWN {
        let input = draw(&mut rng);
        let (x, y) = (archive(input), platform(input));
        if pattern(x) == pattern(y) {
            continue;
        }
        differ += 1;
        match ulps(x, y) {
            None => nans += 1,
            Some(far) if far > most => (most, at) = (far, Some(input)),
            _ => {}
        }
    }
    let nans = if nans == 0 { String::new() } else { format!(", {nans} a NaN on one side alone") };
    let share = 100.0 * differ as f64 / DRAWN as f64;
    println!("| {name} | {other} | {range} | {share:.1} %{nans} | {most} | {} |", at.map_or(String::new(), |input| input.shown()));
}

/// The pairs of special values at which P and the platform's power differ in more than digits.
fn kinds() {
    let values = [f64::NEG_INFINITY, -2.5, -2.0, -1.0, -0.0, 0.0, 0.5, 1.0, 2.0, 3.0, f64::INFINITY, f64::NAN];
    let pairs: Vec<_> = values.iter().flat_map(|&b| values.map(|y| (b, y))).collect();
    let answers = |(b, y)| (cauchy_power(b, y), powf((b, y)));
    let list = |what: &str, apart: fn(f64, f64) -> bool| {
        let found = pairs.iter().filter(|&&pair| apart(answers(pair).0, answers(pair).1));
        let shown: Vec<String> = found.map(|&(b, y)| format!("({b:?}, {y:?})")).collect();
        println!("\n{what}: {}.", if shown.is_empty() { "nowhere".into() } else { shown.join(" ") });
    };
    list("P is a NaN, the platform's power is not", |x, z| x.is_nan() && !z.is_nan());
    list("The platform's power is a NaN, P is not", |x, z| z.is_nan() && !x.is_nan());
    list("They differ in sign", |x, z| !x.is_nan() && !z.is_nan() && x.is_sign_negative() != z.is_sign_negative());
}

/// Arguments in decimals that read back to the same floats.
trait Shown {
    fn shown(self) -> String;
}

impl Shown for f64 {
    fn shown(self) -> String {
        format!("{self:?}")
    }
}

impl Shown for (f64, f64) {
    fn shown(self) -> String {
        format!("{:?}, {:?}", self.0, self.1)
    }
}
