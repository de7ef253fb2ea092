//! The bill of 32 kernels, beside a plain sum over their exponents.
use crate::table::{Row, Timings, Way};
use oracle::bill;
use std::hint::black_box;

const TURNS: usize = 200;
const FACES: u32 = 20_000;

pub fn rows(timings: &mut Timings) {
    let alphas: Vec<f64> = (0..32).map(|place| 0.9 + 0.05 * f64::from(place)).collect();
    let kernels: Vec<f64> = alphas.iter().flat_map(|alpha| [1.0, 2.0, 3.0, 0.004, 1190.0, *alpha]).collect();
    let plain = move || {
        let pieces: u64 = black_box(&alphas).iter().map(|alpha| bill::pieces(*alpha)).sum();
        (pieces * u64::from(FACES), 6 * pieces)
    };
    let ours = move || {
        let told = bill::bill(black_box(&kernels), 10_002, FACES);
        (told.steps, told.floats)
    };
    assert_eq!(ours(), plain(), "bill");
    let [ours, plain] = [Way::turns(TURNS, 1, ours), Way::turns(TURNS, 1, plain)].map(|way| timings.way(way));
    timings.row(Row::new("bill, 32 kernels, against a plain sum", ours).platform(plain));
}
