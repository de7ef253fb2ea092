//! Random lists for random loaders, defaults and runs.
use crate::judge::Case;
use crate::seen::Seen;
use oracle::cases::{either_sign, odd, one};
use oracle::convert::{NATIVE, SOURCE, STRICT, line};
use oracle::inputs::{self, Rng};
use oracle::original::native::CauchyKernel;
use oracle::tally::Tally;

/// A NaN of any sign and payload, signalling ones among them.
fn nan(r: &mut Rng) -> f64 {
    let payload = (r.word() >> 12 >> r.below(52)).max(1);
    f64::from_bits(r.below(2) << 63 | 0x7ff0_0000_0000_0000 | payload)
}

/// An exponent above 0, which both loaders keep.
fn above(r: &mut Rng) -> f64 {
    match r.below(6) {
        0 => one(r, &[1.0, f64::INFINITY, f64::MAX, f64::MIN_POSITIVE, f64::from_bits(1)]),
        1 => inputs::subnormal(r).abs(),
        2 => inputs::positive(r),
        _ => r.within(0.1, 6.0),
    }
}

/// An exponent that is not above 0.
fn not_above(r: &mut Rng) -> f64 {
    match r.below(6) {
        0 => 0.0,
        1 => -0.0,
        2 | 3 => nan(r),
        4 => one(r, &[f64::NEG_INFINITY, -1.0, f64::MIN, -f64::MIN_POSITIVE, -f64::from_bits(1)]),
        _ => -above(r),
    }
}

/// Which exponents a list has.
#[derive(Clone, Copy)]
enum Exponents {
    Good,
    /// Good ones, and such as the default itself or another NaN.
    LikeDefault,
    Any,
}

fn exponent(r: &mut Rng, of: Exponents, default: f64) -> Option<f64> {
    match (of, r.below(8)) {
        (_, 0 | 1) => None,
        (Exponents::Good, _) | (_, 2 | 3) => Some(above(r)),
        (Exponents::LikeDefault, _) if default.is_nan() => Some(nan(r)),
        (Exponents::LikeDefault, 4) if default == 0.0 => Some(-default),
        (Exponents::LikeDefault, _) => Some(default),
        (Exponents::Any, 4) => Some(inputs::any(r)),
        (Exponents::Any, _) => Some(not_above(r)),
    }
}

/// A coordinate, a sigma or a weight.
fn float(r: &mut Rng) -> f64 {
    match r.below(10) {
        0 => nan(r),
        1 => odd(r),
        2 => inputs::any(r),
        3 => inputs::subnormal(r),
        4 => either_sign(r, 0.0),
        _ => r.within(-400.0, 400.0),
    }
}

/// No kernel, a few, seldom some hundred.
fn list(r: &mut Rng, default: f64) -> Vec<CauchyKernel> {
    let count = match r.below(16) {
        0 => 0,
        1..=9 => 1 + r.below(3),
        10..=14 => 1 + r.below(8),
        _ => one(r, &[1, 10, 20, 20, 20, 20, 20, 400]),
    };
    let of = one(r, &[Exponents::Good, Exponents::LikeDefault, Exponents::Any]);
    let kernel =
        |r: &mut Rng| CauchyKernel { c: [(); 3].map(|()| float(r)), sigma: float(r), w: float(r), alpha: exponent(r, of, default) };
    (0..count).map(|_| kernel(r)).collect()
}

/// The bytes that a call is given: the first so many of these. What was cut off lies behind them.
struct Text {
    bytes: Vec<u8>,
    len: usize,
    damage: &'static str,
}

impl Text {
    /// The same bytes at any place of memory.
    fn moved(self, r: &mut Rng) -> (Vec<u8>, std::ops::Range<usize>) {
        let at = r.below(8) as usize;
        ([&vec![b'('; at], &self.bytes[..]].concat(), at..at + self.len)
    }
}

/// A byte, mostly one that lines have or nearly have.
fn byte(r: &mut Rng) -> u8 {
    if r.below(3) == 0 { r.word() as u8 } else { one(r, b"0123456789ABCDEFabcdefnoe() \n\r\t") }
}

/// The end of any line, or a byte before or behind it; or anywhere.
fn cut(r: &mut Rng, bytes: &[u8]) -> usize {
    let any = r.below(bytes.len() as u64) as usize;
    if r.below(2) == 0 {
        return any;
    }
    let end = any + bytes[any..].iter().position(|b| *b == b'\n').unwrap_or(0);
    end + one(r, &[0, 1, 1, 2]).min(bytes.len() - end)
}

fn text(r: &mut Rng, kernels: &[CauchyKernel]) -> Text {
    let mut bytes: Vec<u8> = kernels.iter().flat_map(|k| line(k).into_bytes()).collect();
    let at = r.below(bytes.len().max(1) as u64) as usize;
    let (mut len, mut damage) = (None, "whole");
    match r.below(10) {
        0 if !bytes.is_empty() => {
            damage = "a byte changed";
            let old = bytes[at];
            while bytes[at] == old {
                bytes[at] = byte(r);
            }
        }
        1 => {
            damage = "a byte put in";
            bytes.insert(one(r, &[at, at, at, bytes.len()]), byte(r));
        }
        2 if !bytes.is_empty() => {
            damage = "a byte taken out";
            bytes.remove(one(r, &[at, at, at, bytes.len() - 1]));
        }
        3 if !bytes.is_empty() => {
            damage = "the end cut off";
            len = Some(cut(r, &bytes));
        }
        _ => {}
    }
    Text { len: len.unwrap_or(bytes.len()), bytes, damage }
}

/// Room for all kernels, for one float less, for any count, for more.
fn room(r: &mut Rng, kernels: usize) -> usize {
    let full = 6 * kernels;
    match r.below(8) {
        0 => full.saturating_sub(1),
        1 => r.below(full as u64 + 1) as usize,
        2 | 3 => full + r.below(20) as usize,
        _ => full,
    }
}

/// Random lists, each with a loader, a default and a run.
pub fn random(count: u64, mut r: Rng) -> Tally {
    let (mut tally, mut seen) = (Tally::new(), Seen::default());
    for i in 0..count {
        let default = if r.below(2) == 0 { above(&mut r) } else { not_above(&mut r) };
        let kernels = list(&mut r, default);
        let text = text(&mut r, &kernels);
        let damage = text.damage;
        let (bytes, range) = text.moved(&mut r);
        let loader = one(&mut r, &[NATIVE, NATIVE, NATIVE, SOURCE, SOURCE, SOURCE, STRICT, STRICT, STRICT, 3, 1 << 31, u32::MAX]);
        let case = Case { lines: &bytes[range], default, loader, room: room(&mut r, kernels.len()) };
        let asked = case.asked();
        let difference = case.differs(&mut r, &asked);
        tally.count(difference.is_some(), || format!("list {i}, {}", difference.unwrap()));
        seen.case(&case, damage, &asked);
    }
    tally.line("convert", "random lists", &seen.text());
    tally.add(seen.all_met(count));
    tally
}
