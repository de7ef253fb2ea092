//! Masses that a page has trouble with, if any has.
use oracle::cases::{either_sign, near, one};
use oracle::inputs::{self, Rng};

/// What the masses of a page are: all of at most 10^15 in size, some above it or no numbers, or all large and of one sign.
#[derive(Clone, Copy)]
pub enum Masses {
    Fair,
    SomeUnfair,
    Large(f64),
}

impl Masses {
    pub fn draw(r: &mut Rng) -> Masses {
        match r.below(40) {
            0 => Masses::Large(either_sign(r, 1.0)),
            1..=8 => Masses::SomeUnfair,
            _ => Masses::Fair,
        }
    }

    pub fn one(self, r: &mut Rng) -> f64 {
        match self {
            Masses::Large(sign) => sign * r.within(9e14, 1e15),
            Masses::SomeUnfair if r.below(4) == 0 => unfair(r),
            _ => fair(r),
        }
    }
}

/// Of at most 10^15 in size: halves, floats beside them, 10^15 and a little less, nearly nothing, any.
fn fair(r: &mut Rng) -> f64 {
    let digits = r.below(50);
    let half = r.below(1 << digits) as f64 + 0.5;
    let size = match r.below(16) {
        0..=4 => half,
        5 | 6 => near(r, half, 2),
        7 => one(r, &[0.5, 1.5, 2.5]),
        8 => 1e15 - r.below(40) as f64 / 8.0,
        9 => 1e15,
        10 => r.within(0.0, 0.5),
        11 => one(r, &[0.0, 0.3, f64::from_bits(1), f64::MIN_POSITIVE, 1e-300]),
        12 => half.floor(),
        13 => r.within(8e14, 1e15),
        _ => r.spread(-4, 49),
    };
    either_sign(r, size)
}

/// Above that, or no number.
fn unfair(r: &mut Rng) -> f64 {
    let size = match r.below(8) {
        0..=2 => oracle::step(1e15, 1 + r.below(4) as i64),
        3 => f64::NAN,
        4 => f64::INFINITY,
        5 => r.within(1e15, 2e15),
        6 => r.spread(50, 1024),
        _ => inputs::special(r).abs().max(1e16),
    };
    either_sign(r, size)
}
