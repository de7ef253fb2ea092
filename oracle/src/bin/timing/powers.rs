//! A root or a power in a chain in which each argument waits for the answer before it: x -> f(x·0 + t), over 1,024 arguments t.
use crate::table::{Row, Timings, Way};
use oracle::inputs::Rng;
use oracle::{cauchy_arc, cauchy_exp, cauchy_log, cauchy_log10, cauchy_power, cauchy_root, cauchy_ten, steps};
use std::hint::black_box;

const TURNS: usize = 20;

type Draw = fn(&mut Rng) -> (f64, f64);

/// f over the arguments; the second of a pair goes to functions of two.
fn chain(draw: Draw, f: impl Fn(f64, f64) -> f64 + 'static) -> Way {
    let mut rng = Rng(1);
    let arguments: Vec<(f64, f64)> = (0..1024).map(|_| draw(&mut rng)).collect();
    let mut x = 0.0;
    Way::turns(TURNS, arguments.len(), move || {
        for &(t, y) in &arguments {
            x = f(x * 0.0 + t, y);
        }
        x
    })
}

pub fn rows(timings: &mut Timings) {
    roots(timings);
    let wide: Draw = |r| (r.spread(-20, 20), 0.0);
    let small: Draw = |r| (r.within(-4.0, 4.0), 0.0);
    let large: Draw = |r| (r.within(-20.0, 20.0), 0.0);
    let pair: Draw = |r| (r.spread(-10, 10), r.within(-5.0, 5.0));
    power(timings, "arc, -4 to 4", small, |t, _| cauchy_arc(t), |t, _| steps::arc(t), |t, _| t.atan());
    power(timings, "log, 2^-20 to 2^20", wide, |b, _| cauchy_log(b), |b, _| steps::log(b), |b, _| b.log2());
    power(timings, "exp, -20 to 20", large, |y, _| cauchy_exp(y), |y, _| steps::exp(y), |y, _| y.exp2());
    power(timings, "power, 2^-10 to 2^10, -5 to 5", pair, |b, y| cauchy_power(b, y), steps::power, f64::powf);
    power(timings, "ten, -4 to 4", small, |y, _| cauchy_ten(y), |y, _| steps::ten(y), |y, _| black_box(10.0_f64).powf(y));
    power(timings, "log10, 2^-20 to 2^20", wide, |b, _| cauchy_log10(b), |b, _| steps::log10(b), |b, _| b.log10());
}

/// The machine's root is the platform's.
fn roots(timings: &mut Timings) {
    let draws: [(&str, Draw); 3] = [
        ("root, 1 to 4", |r| (r.within(1.0, 4.0), 0.0)),
        ("root, any normal", |r| (r.spread(-1022, 1024), 0.0)),
        ("root, subnormal", |r| (f64::from_bits(1 + (r.word() >> 12)), 0.0)),
    ];
    for (name, draw) in draws {
        let ours = timings.way(chain(draw, |x, _| cauchy_root(x)));
        let platform = timings.way(chain(draw, |x, _| x.sqrt()));
        timings.row(Row::new(name, ours).platform(platform));
    }
}

fn power(
    timings: &mut Timings,
    name: &str,
    draw: Draw,
    ours: impl Fn(f64, f64) -> f64 + 'static,
    steps: impl Fn(f64, f64) -> f64 + 'static,
    platform: impl Fn(f64, f64) -> f64 + 'static,
) {
    let ours = timings.way(chain(draw, ours));
    let steps = timings.way(chain(draw, steps));
    let platform = timings.way(chain(draw, platform));
    timings.row(Row::new(name, ours).platform(platform).steps(steps));
}
